#!/usr/bin/env python3
"""Flips random bits in the codes of a GRIB2 file, one at a time, and counts how many are refused. The others are codes of other samples:
this kind of code has no check sum.

usage: flips.py FILE [COUNT]
"""
import random
import sys

from start import usage

import grib
from codes import Fault, read


def is_refused(field, bit):
    code = bytearray(field.code)
    code[bit // 8] ^= 0x80 >> bit % 8
    try:
        grib.numbers_of(field._replace(code=bytes(code)))
    except ValueError:
        return True
    return False


def codes_in(path):
    """The whole fields of a file that have a code, with their names."""
    for name, field in grib.parts(read(path)):
        if not isinstance(field, Fault) and field.template == grib.CCSDS and field.bits:
            yield name, field


def main():
    path, *count = sys.argv[1:] or [""]
    if not path or len(count) > 1 or not all(map(str.isdigit, count)):
        usage()
    count, generator, found = int(count[0]) if count else 1000, random.Random(1), False
    for name, field in codes_in(path):
        found = True
        refused = sum(is_refused(field, generator.randrange(8 * len(field.code))) for _ in range(count))
        print(f"{name}: of {count} flipped bits {refused} are refused")
    if not found:
        sys.exit(f"{path}: it has no GRIB2 message with a code that is whole")


if __name__ == "__main__":
    main()
