#!/usr/bin/env python3
"""Writes a frame of a detector, 512 lines of 512 samples of 16 bits, as a FITS image: a bias, a slope, noise and some stars.

usage: frame.py FILE
"""
import random
import sys

from start import usage

SIDE = 512
BLOCK = 2880  # bytes of a block of a FITS file

CARDS = [
    "SIMPLE  =                    T / a FITS file",
    "BITPIX  =                   16 / signed samples of 16 bits",
    "NAXIS   =                    2",
    f"NAXIS1  = {SIDE:20}",
    f"NAXIS2  = {SIDE:20}",
    "BZERO   =                32768 / what was taken off each sample",
    "BSCALE  =                    1",
    "END",
]


def shades():
    """The samples, line by line, from 0 to 65535."""
    generator = random.Random(1)
    stars = {(generator.randrange(SIDE), generator.randrange(SIDE)): generator.randrange(2000, 40000) for _ in range(60)}
    for y in range(SIDE):
        for x in range(SIDE):
            noise = sum(generator.randrange(16) for _ in range(4))
            yield 1000 + (x + 2 * y) // 8 + noise + stars.get((x, y), 0)


if len(sys.argv) != 2:
    usage()
header = "".join(card.ljust(80) for card in CARDS).encode().ljust(BLOCK)
data = b"".join((shade - 32768).to_bytes(2, "big", signed=True) for shade in shades())
with open(sys.argv[1], "wb") as file:
    file.write(header + data.ljust(-(-len(data) // BLOCK) * BLOCK, b"\0"))
