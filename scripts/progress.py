#!/usr/bin/python3
"""Tries what `aec --verbose` shows on a terminal: once a second the bytes read of a regular file, and nothing for other sources.

usage: progress.py PROGRAM
"""
import os
import re
import sys
import tempfile

import pexpect

SIZE = 1 << 40  # bytes of a file of zeros that takes no room, more than anyone waits for
SHOWN = r"\raec: (\d+) of (\d+) bytes read"
CLOSING = r"aec: \d+ samples, \d+ bytes in, \d+ bytes out, ratio [\d.]+, ([\d.]+) seconds\r\n"


def of_a_file(program):
    """Returns what is wrong with the lines of a file."""
    with tempfile.NamedTemporaryFile() as file:
        file.truncate(SIZE)
        child = pexpect.spawn(program, ["--verbose", "-j", "64", "-r", "4096", file.name, "/dev/null"], encoding="utf-8", timeout=30)
        shown = []
        for _ in range(2):
            child.expect(SHOWN)
            shown.append(tuple(map(int, child.match.groups())))
        child.terminate(force=True)
    (first, size), (second, _) = shown
    return [] if 0 < first < second < size == SIZE else [f"of a file: {shown}"]


def of_a_pipe(program):
    """Returns what is wrong with the lines of a pipe that takes its time: of a file, a line would stand there after a second."""
    child = pexpect.spawn("sh", ["-c", f"(printf 12345678; sleep 3; printf 12345678) | {program} --verbose - /dev/null"], encoding="utf-8", timeout=30)
    child.expect(pexpect.EOF)
    closing = re.fullmatch(CLOSING, child.before)
    # The pause may begin before the program does.
    return [] if closing and float(closing[1]) > 1 else [f"of a pipe: {child.before!r}"]


def main():
    program = os.path.abspath(sys.argv[1])
    wrong = [*of_a_file(program), *of_a_pipe(program)]
    for line in wrong:
        print(f"progress: {line}")
    print(f"progress: 2 sources, {len(wrong)} wrong")
    return 1 if wrong else 0


if __name__ == "__main__":
    sys.exit(main())
