#!/usr/bin/env python3
"""Has a program decode the codes that hostile_library.c kept, and compares its output, its status and its message.

usage: hostile_answers.py PROGRAM ANSWERS
"""
import concurrent.futures
import os
import subprocess
import sys

MESSAGES = {
    0: "",
    6: "code ends after {} samples",
    7: "run at block {} passes its segment",
    8: "residual too large in block {}",
}
FLAGS = ["-s", "-m", "-3"]


def answers(path):
    """The answers of a file: numbers, the code, and the bytes that it was decoded to."""
    with open(path, "rb") as file:
        while line := file.readline():
            numbers = [int(word) for word in line.split()]
            yield numbers, file.read(numbers[11]), file.read(numbers[12])


def options(numbers):
    bits, block, interval, signed, msb, three, preprocess, pad, asked = numbers[:9]
    words = ["-n", str(bits), "-j", str(block), "-r", str(interval)]
    words += [flag for flag, is_set in zip(FLAGS, (signed, msb, three)) if is_set]
    words += ["-N"] if not preprocess else []
    words += ["-p"] if pad else []
    return words + (["--samples", str(asked)] if asked >= 0 else [])


def is_same(program, answer):
    numbers, code, samples = answer
    status, place = numbers[9:11]
    run = subprocess.run([program, "-d", *options(numbers), "-", "-"], input=code, capture_output=True)
    message = MESSAGES[status].format(place)
    there = run.stderr.decode().strip().removeprefix("aec: ")
    if run.stdout == samples and run.returncode == (1 if status else 0) and there == message:
        return True
    print(f"answers: aec -d {' '.join(options(numbers))}, code {code.hex()}: {run.returncode} {there!r}, awaited {message!r}")
    return False


def main():
    program, path = os.path.abspath(sys.argv[1]), sys.argv[2]
    with concurrent.futures.ThreadPoolExecutor(2) as pool:
        results = list(pool.map(lambda answer: is_same(program, answer), answers(path)))
    print(f"answers: {len(results)} of the library and of {os.path.basename(program)}, {results.count(False)} differ")
    sys.exit(0 if all(results) else 1)


main()
