#!/usr/bin/env python3
"""Runs bench_compat.c on the libraries of a folder and on the system's, alternately, and prints a table of the least times.

usage: bench_compat.py PROGRAM FOLDER ROUNDS
"""
import math
import os
import subprocess
import sys

TITLES = {"GRIB": "GRIB message", "HDF5": "HDF5 chunk", "stream": "stream", "buffer": "buffer"}


def times(folder):
    """The times of each case, encoding and decoding."""
    words = {name: word for name, word in os.environ.items() if name != "LD_LIBRARY_PATH"}
    if folder:
        words["LD_LIBRARY_PATH"] = folder
    lines = subprocess.run([sys.argv[1], "2"], env=words, check=True, capture_output=True, text=True).stdout.splitlines()
    rows = [line.split("|") for line in lines]
    return {(group, title, int(size)): (float(encode), float(decode)) for group, title, size, encode, decode in rows}


def least(rounds):
    """The least times of some rounds, case by case."""
    return {case: [min(round[case][i] for round in rounds) for i in (0, 1)] for case in rounds[0]}


def main():
    here, there = [], []
    for _ in range(int(sys.argv[3])):
        here.append(times(sys.argv[2]))
        there.append(times(None))
    here, there = least(here), least(there)
    print("| what | encode here | libaec | times | decode here | libaec | times |")
    print("|---|---|---|---|---|---|---|")
    ratios = [], []
    for case in here:
        cells = []
        for way in (0, 1):
            ratio = there[case][way] / here[case][way]
            ratios[way].append(ratio)
            cells += [*(f"{case[2] / side[case][way] / 1e6:.0f} MB/s" for side in (here, there)), f"{ratio:.2f}"]
        print("| " + " | ".join([f"{TITLES[case[0]]}, {case[1]}", *cells]) + " |")
    for way, found in zip(("encode", "decode"), ratios):
        mean = math.exp(sum(map(math.log, found)) / len(found))
        print(f"\n{way}: {min(found):.2f} times at least, {mean:.2f} in the geometric mean")


main()
