#!/usr/bin/python3
"""Decodes damaged, cut, spliced and random codes, all at once and in pieces: nothing but a RiceError may come, and all calls have to agree.

usage: hostile.py COUNT
"""
import random
import sys

import numpy

import rice121

TYPES = ["u1", "i1", "<u2", ">i2", "<u4", ">i4", "V3"]
# The most samples that are taken of a code.
LIMIT = 1000


def codes(generator):
    """Codes of some samples, with their type and options."""
    made = []
    for dtype in TYPES * 8:
        options = {"block": generator.choice([8, 16, 32, 64]), "interval": generator.choice([1, 2, 65, 4096]), "pad": generator.random() < 0.3}
        size = numpy.dtype(dtype).itemsize * generator.randrange(1, 400)
        samples = numpy.frombuffer(bytes(generator.choice([0, 0, 1, generator.randrange(256)]) for _ in range(size)), dtype)
        made.append((rice121.encode(samples, **options), dtype, options))
    return made


def damaged(code, other, generator):
    """A code that is changed in one of several ways."""
    code = bytearray(code)
    way = generator.randrange(5)
    if way == 0:
        return bytes(generator.choices([0, 0, 0, 255, generator.randrange(256)], k=generator.randrange(200)))
    for _ in range(way):
        code[generator.randrange(len(code))] ^= 1 << generator.randrange(8)
    if way == 1:
        return bytes(code[: generator.randrange(len(code) + 1)])
    if way == 2:
        return bytes(code[: generator.randrange(len(code))] + other[generator.randrange(len(other)) :])
    return bytes(code)


def outcome(call):
    """The samples that a call gives, and how it ends."""
    try:
        return call().tobytes(), None, None
    except rice121.RiceError as error:
        return error.partial.tobytes(), error.status, error.place


def pulled(code, dtype, options, generator):
    """The samples that a code gives in pieces, at most LIMIT of them and their block, and how that ends."""
    decoder, parts, at = rice121.Decoder(dtype, **options), [], 0
    try:
        while at < len(code):
            size = generator.randrange(1, 100)
            parts.append(decoder.pull(code[at : at + size], LIMIT))
            at += size
        decoder.close()
    except rice121.RiceError as error:
        if len(error.partial):
            parts.append(error.partial)
        return b"".join(part.tobytes() for part in parts), error.status, error.place
    return b"".join(part.tobytes() for part in parts), None, None


def main():
    count = int(sys.argv[1])
    generator = random.Random(1)
    made, seen = codes(generator), {}
    for number in range(count):
        code, dtype, options = generator.choice(made)
        code = damaged(code, generator.choice(made)[0], generator)
        samples, status, place = outcome(lambda: rice121.decode_all(code, dtype, limit=LIMIT, **options))
        seen[status] = seen.get(status, 0) + 1
        wanted = len(samples) // numpy.dtype(dtype).itemsize
        first = outcome(lambda: rice121.decode(code, wanted, dtype, **options))
        if first[:2] != (samples, None):
            raise SystemExit(f"hostile.py: code {number}: decode gives other samples than decode_all: {code.hex()} {dtype} {options}")
        # (what comes after LIMIT samples is nothing to a Decoder that is asked for so many)
        if wanted < LIMIT and pulled(code, dtype, options, generator) != (samples, status, place):
            raise SystemExit(f"hostile.py: code {number}: a Decoder gives others than decode_all: {code.hex()} {dtype} {options}")
    print(f"hostile.py: {count} codes:", ", ".join(f"{n} {status.name if status else 'whole'}" for status, n in sorted(seen.items(), key=str)))


main()
