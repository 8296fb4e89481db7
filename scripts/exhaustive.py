#!/usr/bin/env python3
"""Repeats the cases that exhaustive.c kept of two libraries by two commands, and compares their output.

usage: exhaustive.py OURS THEIRS CASES
"""
import os
import subprocess
import sys
import tempfile

MESSAGES = {
    0: "",
    6: "code ends after {} samples",
    7: "run at block {} passes its segment",
    8: "residual too large in block {}",
}


def bytes_of(word):
    return b"" if word == "-" else bytes.fromhex(word)


def cases_of(path):
    """The options of each case, its input, and what the libraries made of it: bytes, status and message."""
    with open(path) as file:
        for line in file:
            *words, data, status, place, ours, their_status, theirs = line.split()
            options = (["-d"] if words[0] == "decode" else []) + words[1:]
            message = MESSAGES[int(status)].format(place)
            yield options, bytes_of(data), (bytes_of(ours), message), (bytes_of(theirs), int(their_status))


def write_of(program, options, data):
    """What a program writes to a file, its status, and what it says."""
    with open("in", "wb") as file:
        file.write(data)
    with open("out", "wb"):
        pass
    done = subprocess.run([program, *options, "in", "out"], capture_output=True, text=True)
    with open("out", "rb") as file:
        return file.read(), done.returncode, done.stderr.strip()


def wrong_cases(case):
    """What a command does otherwise than its library."""
    options, data, (ours, message), (theirs, their_status) = case
    found, status, said = write_of(OURS, options, data)
    if (found, status, said.removeprefix("aec: ")) != (ours, 1 if message else 0, message):
        yield f"aec {' '.join(options)} on {data.hex() or '-'}: {found.hex()!r}, {said!r}, and the library {ours.hex()!r}, {message!r}"
    found, status, _ = write_of(THEIRS, options, data)
    if (found, status != 0) != (theirs, their_status != 0):
        yield f"their aec {' '.join(options)} on {data.hex() or '-'}: {found.hex()!r}, status {status}, and libaec {theirs.hex()!r}, {their_status}"


def main():
    cases = list(cases_of(CASES))
    with tempfile.TemporaryDirectory() as folder:
        os.chdir(folder)
        wrong = [text for case in cases for text in wrong_cases(case)]
    for text in wrong:
        print(f"exhaustive: {text}")
    print(f"exhaustive: {len(cases)} cases given to the commands too, {len(wrong)} wrong")
    sys.exit(len(wrong) > 0)


OURS, THEIRS, CASES = map(os.path.abspath, sys.argv[1:])
main()
