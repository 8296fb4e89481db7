#!/usr/bin/env python3
"""Encodes the integer images of a FITS file, of 8, 16 or 32 bits, in all of its extensions. It keeps all else as it is, and names the other
images. Decoding writes the same file, byte for byte.

usage: fits.py encode FILE FOLDER   write the codes, the other parts, and the list of both, FOLDER/parts
       fits.py decode FOLDER FILE   write the file again
       fits.py check FILE..         check the blocks and the check sums of a file, and describe its images
"""
import math
import mmap
import os
import sys
import warnings
from typing import NamedTuple

from start import usage

import numpy
import rice121
from astropy.io import fits
from astropy.utils.exceptions import AstropyWarning

from codes import Damage, Fault, Unserved, decoded, fault_of, kind_of, read, words_of

BLOCK, INTERVAL = 16, 128
# Samples have their most significant byte first; those of 8 bits are unsigned.
KINDS = {8: "u1", 16: ">i2", 32: ">i4"}


class Image(NamedTuple):
    """An image of a file, and where its samples begin."""

    name: str
    bitpix: int  # what its header has, or 0 where it is tile-compressed
    start: int
    count: int
    is_summed: bool

    @property
    def kind(self):
        """The type of its samples, or None where it isn't served."""
        return KINDS.get(self.bitpix)

    def why_not(self):
        return Unserved(f"BITPIX {self.bitpix}" if self.bitpix else "tile-compressed")


def options(kind):
    return {"bits": 8 * numpy.dtype(kind).itemsize, "block": BLOCK, "interval": INTERVAL, "preprocess": True}


def words(kind):
    return words_of(options(kind), is_msb=kind[0] == ">", is_signed="i" in kind)


def opened(path, **options):
    """A file of astropy, as it is: no other kind that astropy reads too. A tile-compressed image is the table that it is stored as."""
    if kind_of(path) not in ("FITS", None):
        raise Damage(f"it begins as {kind_of(path)}")
    return fits.open(path, disable_image_compression=True, **options)


def images(path):
    """The images of a file."""
    with opened(path, memmap=True, do_not_scale_image_data=True) as file:
        for number, unit in enumerate(file):
            header, is_tiled = unit.header, unit.header.get("ZIMAGE", False)
            count = math.prod(header[f"NAXIS{i + 1}"] for i in range(header["NAXIS"]))
            if is_tiled or header.get("XTENSION", "IMAGE").strip() == "IMAGE" and header["NAXIS"] and count:
                name, bitpix = f"{number} {unit.name}".strip(), 0 if is_tiled else header["BITPIX"]
                yield Image(name, bitpix, unit.fileinfo()["datLoc"], count, "DATASUM" in header)


def write(folder, name, data):
    with open(os.path.join(folder, name), "wb") as file:
        file.write(data)


def encode(path, folder):
    found, data, at, parts = list(images(path)), read(path), 0, []
    os.makedirs(folder)

    def keep(end):
        if end > at:
            write(folder, f"{len(parts)}.kept", data[at:end])
            parts.append(f"{len(parts)}.kept")

    for image in found:
        if not image.kind:
            print(f"image {image.name}: kept, {image.why_not()}")
            continue
        keep(image.start)
        at = image.start + image.count * numpy.dtype(image.kind).itemsize
        if at > len(data):
            raise Damage(f"the file ends inside image {image.name}")
        code = rice121.encode(numpy.frombuffer(data[image.start : at], image.kind), **options(image.kind))
        write(folder, f"{len(parts)}.aec", code)
        print(f"image {image.name}: {at - image.start} bytes become {len(code)}")
        parts.append(f"{len(parts)}.aec {words(image.kind)} --samples {image.count}")
    keep(len(data))
    write(folder, "parts", ("\n".join(parts) + "\n").encode())


def parts_of(folder):
    """The parts of a file, one after the other: the file in the folder, and where it is a code its type and its number of samples."""
    for line in read(os.path.join(folder, "parts")).decode().splitlines():
        name, *declared = line.split() or [""]
        kind = next((kind for bits, kind in KINDS.items() if declared[1:2] == [str(bits)]), None)
        if not name or os.path.basename(name) != name or declared and not (kind and declared[-1].isdigit()):
            raise Damage(f"the list has the line: {line}")
        yield name, kind, int(declared[-1]) if declared else 0


def is_part(path):
    """Whether the list beside a file has it."""
    folder, name = os.path.split(path)
    try:
        return name in [part for part, *_ in parts_of(folder)]
    except (ValueError, OSError):
        return False


def decode(folder, path):
    with open(path, "wb") as file:
        for name, kind, count in parts_of(folder):
            data = read(os.path.join(folder, name))
            file.write(data if kind is None else decoded(data, count, kind, **options(kind)).tobytes())


def folder_faults(path):
    """What is wrong with the codes of a folder, by its list."""
    folder = os.path.dirname(path)
    try:
        for name, kind, count in parts_of(folder):
            try:
                data = read(os.path.join(folder, name))
                if kind:
                    decoded(data, count, kind, **options(kind))
            except (ValueError, OSError) as error:
                yield fault_of(name, error, 0)
    except (ValueError, OSError) as error:
        yield Fault("parts", str(error))


def fill_faults(file, path):
    """Where the last block of a header or of data is filled wrongly, and what follows all of them."""
    with open(path, "rb") as raw, mmap.mmap(raw.fileno(), 0, access=mmap.ACCESS_READ) as data:
        for number, unit in enumerate(file):
            place = unit.fileinfo()
            fill, name = (b" ", "blank") if isinstance(unit, fits.TableHDU) else (b"\0", "zero")
            start, end = place["datLoc"], place["datLoc"] + place["datSpan"]
            header = data[place["hdrLoc"] : start].rstrip(b" ")
            if not header.endswith(b"END"):
                yield Fault(f"header {number}", "what follows END is not blank", None, place["hdrLoc"] + len(header) - 1)
            rest = data[start + unit.size : end].lstrip(fill)
            if rest:
                yield Fault(f"data {number}", f"what fills the last block is not {name}", None, end - len(rest))
        if len(data) > end:
            yield Fault("after all data", f"{len(data) - end} bytes belong to no header and no data", None, end)


def faults(path):
    """What is wrong with a FITS file: its blocks, and what astropy tells of its headers and of the check sums in them."""
    found = []
    with warnings.catch_warnings(record=True) as warned:
        warnings.simplefilter("always", AstropyWarning)
        try:
            with opened(path, checksum=True) as file:
                found += fill_faults(file, path)
                file.verify("exception")
        except Damage as error:
            found.append(Fault("the file", str(error)))
        except Exception as error:  # (a damaged header may lead astropy to any)
            warnings.warn(f"{type(error).__name__}: {error}", AstropyWarning)
    texts = {}
    for warning in warned:
        text = str(warning.message).strip()
        texts.setdefault(text.partition("\n")[0], " ".join(text.split()))
    return found + [Fault("the file", f"astropy says: {text}") for text in texts.values()]


def check(paths):
    is_whole = True
    for path in paths:
        found = faults(path)
        is_whole &= not found
        for fault in found:
            print(f"{path}: {fault}")
        for image in [] if found else images(path):
            what = f"{image.count} samples, aec {words(image.kind)}" if image.kind else image.why_not()
            print(f"{path}: image {image.name}: {what}{'' if image.is_summed else ', no check sum'}")
    return is_whole


def main():
    command, *paths = sys.argv[1:] or [""]
    if not (command == "check" and paths) and not (command in ("encode", "decode") and len(paths) == 2):
        usage()
    try:
        if command == "check":
            sys.exit(not check(paths))
        {"encode": encode, "decode": decode}[command](*paths)
    except (ValueError, OSError) as error:
        sys.exit(f"{paths[0]}: {error}")


if __name__ == "__main__":
    main()
