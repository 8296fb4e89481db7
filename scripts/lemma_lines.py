#!/usr/bin/env python3
"""Checks that each public lemma has a line above it that states it, and that no line of definitions and proofs has more than 200 columns.

usage: lemma_lines.py
"""
import os
import re
import subprocess
import sys

LEMMA = re.compile(r"(?:  )?pub ([A-Za-z][^\s:]*) : ")
COLUMNS = 200


def faults(path):
    """Yields what is wrong in a file, with the number of its line."""
    with open(path, encoding="utf-8") as file:
        lines = file.read().split("\n")
    outer = ""  # the last line that is not indented: below that of a module, what is public is a lemma, and not a field
    for number, (before, line) in enumerate(zip(["", *lines], lines), 1):
        if len(line) > COLUMNS:
            yield number, f"{len(line)} columns"
        if re.match(r"[^\s-]", line):
            outer = line
        lemma = LEMMA.match(line)
        states = lemma and (outer == line or outer.startswith("module"))
        if states and "/proofs/lemmas/" in path and not before.lstrip().startswith("--"):
            yield number, f"no line says what {lemma[1]} states"


def main():
    os.chdir(os.path.join(os.path.dirname(os.path.realpath(__file__)), ".."))
    paths = subprocess.run(["git", "ls-files", "crates/*.antt"], capture_output=True, text=True, check=True).stdout.split()
    found = [f"{path}:{number}: {fault}" for path in paths for number, fault in faults(path)]
    for fault in found:
        print(f"lemmas: {fault}")
    print(f"lemmas: {len(paths)} files, {len(found)} faults")
    return 1 if found or not paths else 0


if __name__ == "__main__":
    sys.exit(main())
