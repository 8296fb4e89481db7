#!/usr/bin/env python3
"""Finds names in the `ghost use` lines of the crates' sources that no clause of their file uses.

usage: unused_imports.py         fail if there is one
       unused_imports.py --fix   remove them; `rt fmt` then formats the lines
"""
import os
import re
import subprocess
import sys

USE = re.compile(r"(?m)^ghost use ([\w.+]+)\.\{(.*?)\};\n", re.S)
BODY_BEHIND_CLAUSES = re.compile(r"(?ms)^( *)\{$.*?^\1\}$")
WITHOUT_CLAUSES = re.compile(r"(?ms)^( *)(?:pub(?:\(\w+\))? )?(?:const |unsafe )?fn (?:(?!\brequires\b|\bensures\b)[^{;])*\{$.*?^\1\}$")


def clauses(text):
    """The text outside of functions' bodies, comments and imports, as `rt fmt` lays it out."""
    return re.sub(r"//.*", "", USE.sub("", WITHOUT_CLAUSES.sub("", BODY_BEHIND_CLAUSES.sub("", text))))


def is_used(name, text):
    """Whether a text has all parts of a name, of which an operator has several."""
    word = name.split(" as ")[-1].strip().split(".")[-1]
    return all(re.search(rf"(?<![\w'-]){re.escape(part)}(?![\w'])" if re.match(r"\w", part) else re.escape(part), text)
               for part in word.split("◌") if part)


def without_unused(text):
    """The text without the names that nothing uses, and these."""
    found, known = [], clauses(text)

    def kept(use):
        names = [name.strip() for name in use[2].split(",")]
        unused = [name for name in names if not is_used(name, known)]
        found.extend(unused)
        left = [name for name in names if name not in unused]
        return f"ghost use {use[1]}.{{{', '.join(left)}}};\n" if left else ""

    return USE.sub(kept, text), found


def main(words):
    os.chdir(os.path.join(os.path.dirname(os.path.realpath(__file__)), ".."))
    listed = subprocess.run(["git", "ls-files", "crates/*.rt"], capture_output=True, text=True, check=True).stdout.split()
    count = 0
    for path in listed:
        with open(path, encoding="utf-8") as source:
            text = source.read()
        new, unused = without_unused(text)
        count += len(unused)
        if unused and words == ["--fix"]:
            with open(path, "w", encoding="utf-8") as source:
                source.write(new)
        elif unused:
            print(f"{path}: nothing uses {', '.join(unused)}")
    if words != ["--fix"]:
        print(f"imports: {len(listed)} files, {count} names that nothing uses")
    return 1 if count and words != ["--fix"] else 0


if __name__ == "__main__":
    sys.exit(main(sys.argv[1:]))
