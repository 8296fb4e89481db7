#!/usr/bin/env python3
"""Encodes an array of numpy in process, by the Python package, to the bytes that aec writes.

usage: in_process.py PROGRAM
"""
import subprocess
import sys

from start import usage

import numpy
import rice121

if len(sys.argv) != 2:
    usage()

steps = numpy.arange(131072)
samples = (2000 + 900 * numpy.sin(steps / 500) + steps * 7919 % 13).astype("<u2")
code = rice121.encode(samples, bits=12)
words = [sys.argv[1], "-n", "12", "-j", "32", "-r", "128", "-", "-"]
print(f"{samples.nbytes} bytes of samples, {len(code)} of code")
print("the code of aec:", code == subprocess.run(words, input=samples.tobytes(), capture_output=True, check=True).stdout)
first = rice121.decode(code, 1000, "<u2", bits=12)
print("the first 1000 samples come back:", numpy.array_equal(first, samples[:1000]))
place = rice121.offsets(code, "<u2", bits=12)[20]
with rice121.Decoder("<u2", at=place, bits=12) as decoder:
    part = decoder.pull(code[place.bits // 8 :], 500)
print(f"500 samples from byte {place.bits // 8} on:", numpy.array_equal(part, samples[place.samples : place.samples + 500]))
try:
    rice121.decode(code[: len(code) // 2], samples.size, "<u2", bits=12)
except rice121.RiceError as error:
    print("half of the code:", error)
