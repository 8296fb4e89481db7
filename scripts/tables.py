#!/usr/bin/env python3
"""Writes the Markdown tables of its input into files, one line for each row, with tabs between cells.

usage: scripts/bench 16 | scripts/tables.py FILE...
"""
import sys


def tables(lines):
    """The tables, as lists of rows."""
    found, inside = [], False
    for line in lines:
        if line.startswith("|"):
            found += [] if inside else [[]]
            found[-1].append([cell.strip() for cell in line.strip().strip("|").split("|")])
        inside = line.startswith("|")
    return found


for path, (head, _, *rows) in zip(sys.argv[1:], tables(sys.stdin), strict=True):
    with open(path, "w") as file:
        file.writelines("\t".join(row) + "\n" for row in (head, *rows))
