#!/usr/bin/env python3
"""Checks, decodes and encodes GRIB2 messages with CCSDS packing, in process. It reads all messages of a file, with bit maps and constant
fields. It names what it does not serve, and bytes that belong to no message.

usage: grib.py check FILE..         describe each field, and whether it is whole
       grib.py decode FILE FOLDER   write the values of each field to FOLDER/N.npy, with NaN where the bit map has none
       grib.py encode FILE OUT      change fields of simple packing to CCSDS packing, with the same numbers
"""
import os
import sys
from typing import NamedTuple

from start import usage

import numpy
import rice121

from codes import Damage, Fault, Unserved, decoded, fault_of, read, unsigned, words_of

SIMPLE, CCSDS = 0, 42
SIGNED, THREE_BYTES, MOST_SIGNIFICANT_FIRST, PREPROCESS, RESTRICTED, PAD, NOT_ENFORCE = (1 << i for i in range(7))
NO_BITMAP, LAST_BITMAP = 255, 254
# The fewest bytes of each section, and the sections that may follow it.
LEAST = {1: 21, 2: 5, 3: 14, 4: 9, 5: 11, 6: 6, 7: 5}
NEXT = {0: (1,), 1: (2, 3), 2: (3,), 3: (4,), 4: (5,), 5: (6,), 6: (7,), 7: (2, 3, 4, 8)}


class Field(NamedTuple):
    """A field of a message: the sections that it has, as bytes, and where its code begins in the file."""

    points: int  # of its grid, in section 3
    packing: bytes  # section 5
    bitmap: bytes  # what section 6 holds, or nothing
    code: bytes  # of section 7
    start: int

    def number(self, first, last):
        """A number of section 5, by its octets, which are counted from 1."""
        return int.from_bytes(self.packing[first - 1 : last], "big")

    @property
    def count(self):
        return self.number(6, 9)

    @property
    def template(self):
        return self.number(10, 11)

    @property
    def bits(self):
        return self.number(20, 20)

    def scale(self, first):
        """A scale factor, whose first bit is its sign."""
        number = self.number(first, first + 1)
        return -(number & 0x7FFF) if number & 0x8000 else number

    def values(self, numbers):
        """The values of whole numbers, by the reference value and the scale factors; not a number where the bit map has no bit."""
        reference = numpy.frombuffer(self.packing[11:15], ">f4")[0].astype("f8")
        found = (reference + numbers * 2.0 ** self.scale(16)) / 10.0 ** self.scale(18)
        if not self.bitmap:
            return found
        places = numpy.unpackbits(numpy.frombuffer(self.bitmap, "u1"))[: self.points]
        values = numpy.full(len(places), numpy.nan)
        values[numpy.flatnonzero(places)[: len(found)]] = found
        return values


def end_of(data, at):
    """Where a message ends, as its section 0 says."""
    return at + int.from_bytes(data[at + 8 : at + 16], "big")


def why_none(data, at):
    """Why no message of GRIB2 begins at a byte, or None where one does."""
    if data[at : at + 4] != b"GRIB":
        return "they do not begin with GRIB"
    if data[at + 7 : at + 8] not in (b"", b"\2"):
        return f"edition {data[at + 7]} of GRIB isn't served"
    end = end_of(data, at)
    if end < at + 20 or data[end - 4 : end] != b"7777":
        return "there is no 7777 at the end that the length gives"
    return None


def next_message(data, at):
    """Where the next message begins from a byte on, or the file ends."""
    at = data.find(b"GRIB", at)
    while at >= 0 and why_none(data, at):
        at = data.find(b"GRIB", at + 1)
    return at if at >= 0 else len(data)


def pieces(data):
    """The messages of a file, and the bytes between them: of each where it begins, where it ends, and why it is no message."""
    at = 0
    while at < len(data):
        why = why_none(data, at)
        end = next_message(data, at + 1) if why else end_of(data, at)
        yield at, end, why
        at = end


def sections(data, start, end):
    """The sections of a message: of each its number, where it begins and where it ends."""
    at, before = start + 16, 0
    while at < end - 4:
        length, number = int.from_bytes(data[at : at + 4], "big"), data[at + 4]
        if number not in NEXT[before] or not LEAST[number] <= length <= end - 4 - at:
            raise Damage(f"section {number} of {length} bytes follows section {before}", None, 8 * (at - start))
        yield number, at, at + length
        at, before = at + length, number
    if before != 7:
        raise Damage(f"the message ends after section {before}", None, 8 * (at - start))


def fields(data, start, end):
    """The fields of a message. A message may have several, which share sections."""
    points, packing, bitmap = 0, b"", b""
    for number, at, after in sections(data, start, end):
        section = data[at:after]
        if number == 3:
            points = int.from_bytes(section[6:10], "big")
        elif number == 5:
            packing = section
        elif number == 6 and section[5] == 0:
            bitmap = section[6:]
        elif number == 6 and section[5] == NO_BITMAP:
            bitmap = b""
        elif number == 6 and section[5] != LAST_BITMAP:
            raise Unserved(f"the predefined bit map {section[5]}")
        elif number == 7:
            yield Field(points, packing, bitmap, section[5:], at + 5)


def options_of(field):
    """The options of a code, by section 5 (template 42)."""
    bits, flags, block, interval = field.bits, field.number(22, 22), field.number(23, 23), field.number(24, 25)
    if flags & RESTRICTED:
        raise Unserved("the flag 16, restricted options")
    if not (1 <= bits <= 32 and 1 <= interval <= 4096 and 2 <= block <= 64 and block % 2 == 0):
        raise Damage(f"section 5 has {bits} bits, blocks of {block}, intervals of {interval}")
    return {"bits": bits, "block": block, "interval": interval, "preprocess": bool(flags & PREPROCESS), "pad": bool(flags & PAD),
            "any_block": block not in (8, 16, 32, 64)}


def words(field):
    """The options of the command. The flags 2 and 4 say how samples stand in bytes, which is nothing to the code."""
    flags = field.number(22, 22)
    return words_of(options_of(field), flags & MOST_SIGNIFICANT_FIRST, flags & SIGNED, flags & THREE_BYTES)


def numbers_of(field):
    """The whole numbers of a field."""
    if field.bits == 0:
        return numpy.zeros(field.count, "u4")
    if field.template == SIMPLE:
        return unpacked(field)
    if field.template != CCSDS:
        raise Unserved(f"the packing of template {field.template}")
    kind = unsigned(field.bits)
    if field.number(22, 22) & SIGNED:
        kind = numpy.dtype(kind.str.replace("u", "i"))
    return decoded(field.code, field.count, kind, **options_of(field))


def unpacked(field):
    """The whole numbers of simple packing: their bits one after the other."""
    bits = numpy.unpackbits(numpy.frombuffer(field.code, "u1"))
    weights = 1 << numpy.arange(field.bits - 1, -1, -1, dtype="u8")
    return (bits[: field.bits * field.count].reshape(-1, field.bits) * weights).sum(axis=1).astype("u4")


def verify(field):
    """Raises what is wrong with a field of simple or CCSDS packing. Of another nothing is known but its sections."""
    if field.template not in (SIMPLE, CCSDS):
        return
    points = int(numpy.unpackbits(numpy.frombuffer(field.bitmap, "u1"))[: field.points].sum()) if field.bitmap else field.points
    if points != field.count or field.bits > 32:
        raise Damage(f"section 5 has {field.count} values of {field.bits} bits for {points} points")
    if field.template == CCSDS and field.bits:
        numbers_of(field)
    elif len(field.code) != -(-field.bits * field.count // 8):
        raise Damage(f"section 7 has {len(field.code)} bytes for {field.count} values of {field.bits} bits")


def message_parts(data, start, end, name):
    """The fields of a message with their names, and in place of one that isn't whole what is wrong with it."""
    try:
        for i, field in enumerate(fields(data, start, end)):
            part = name if i == 0 else f"{name}, field {i}"
            try:
                verify(field)
                yield part, field
            except ValueError as error:
                yield part, fault_of(part, error, field.start)
    except (Damage, Unserved) as error:
        yield name, fault_of(name, error, start)


def parts(data):
    """The fields of a file with their names, and in place of what is no message or no whole field what is wrong with it."""
    if not data:
        yield "the file", Fault("the file", "it is empty")
    number, name = 0, "before message 0"
    for start, end, why in pieces(data):
        if why:
            yield name, Fault(name, f"{end - start} bytes belong to no GRIB2 message: {why}", None, start)
        else:
            yield from message_parts(data, start, end, f"message {number}")
            number, name = number + 1, f"after message {number}"


def faults(path):
    """What is wrong with a file."""
    return (field for _, field in parts(read(path)) if isinstance(field, Fault))


def described(field):
    """What a whole field is."""
    if field.template not in (SIMPLE, CCSDS):
        return f"{field.count} values, template {field.template}, of which the sections alone are checked"
    if field.bits == 0:
        return f"{field.count} values, all the same"
    if field.template == SIMPLE:
        return f"{field.count} values of {field.bits} bits, template {field.template}, which has no code"
    return f"{field.count} values, aec {words(field)}, {len(field.code)} bytes of code, whole"


def check(paths):
    """Says of each field what it is. Answers whether all are whole."""
    is_whole = True
    for path in paths:
        for name, field in parts(read(path)):
            is_fault = isinstance(field, Fault)
            is_whole &= not is_fault
            print(f"{path}: {field}" if is_fault else f"{path}: {name}: {described(field)}")
    return is_whole


def whole_fields(data, path):
    """The fields of a file. One that isn't whole ends the program."""
    for _, field in parts(data):
        if isinstance(field, Fault):
            sys.exit(f"{path}: {field}")
        yield field


def decode(path, folder):
    os.makedirs(folder, exist_ok=True)
    for number, field in enumerate(whole_fields(read(path), path)):
        values = field.values(numbers_of(field))
        numpy.save(os.path.join(folder, f"{number}.npy"), values)
        print(f"{folder}/{number}.npy: {len(values)} values, from {numpy.nanmin(values):g} to {numpy.nanmax(values):g}")


def packed(field):
    """Sections 5 and 7 of a field with CCSDS packing, in blocks of 32 and intervals of 128."""
    numbers = numbers_of(field).astype(unsigned(field.bits))
    code = rice121.encode(numbers, bits=field.bits, block=32, interval=128)
    flags = THREE_BYTES | MOST_SIGNIFICANT_FIRST | PREPROCESS
    head = b"\5" + field.packing[5:9] + CCSDS.to_bytes(2, "big") + field.packing[11:21] + bytes([flags, 32]) + (128).to_bytes(2, "big")
    return (len(head) + 4).to_bytes(4, "big") + head, (len(code) + 5).to_bytes(4, "big") + b"\7" + code


def repacked(data, start, end):
    """A whole message whose fields, all of simple packing, have CCSDS packing; or as it was."""
    found, out, at_field = list(fields(data, start, end)), [], 0
    if not all(field.template == SIMPLE and 1 <= field.bits <= 32 for field in found):
        return data[start:end]
    new = [packed(field) for field in found]
    for number, at, after in sections(data, start, end):
        out.append(new[at_field][number == 7] if number in (5, 7) else data[at:after])
        at_field += number == 7
    body = b"".join(out) + b"7777"
    return data[start : start + 8] + (len(body) + 16).to_bytes(8, "big") + body


def encode(path, out):
    data = read(path)
    list(whole_fields(data, path))
    with open(out, "wb") as file:
        for number, (start, end, _) in enumerate(pieces(data)):
            message = repacked(data, start, end)
            file.write(message)
            is_same = message == data[start:end]
            print(f"{out}: message {number}: {'as it was' if is_same else f'{end - start} bytes become {len(message)}'}")


def main():
    command, *paths = sys.argv[1:] or [""]
    is_check = command == "check" and paths
    if not is_check and (command not in ("decode", "encode") or len(paths) != 2):
        usage()
    try:
        if is_check:
            sys.exit(not check(paths))
        {"decode": decode, "encode": encode}[command](*paths)
    except OSError as error:
        sys.exit(f"{error.filename or 'output'}: {error.strerror}")
    except (Damage, Unserved) as error:
        sys.exit(f"{paths[0]}: {error}")


if __name__ == "__main__":
    main()
