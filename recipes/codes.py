"""Shared by the recipes for other programs' files: decodes a code in a file, and reports its faults and their places."""
from typing import NamedTuple, Optional

import numpy
import rice121

# The first bytes of kinds of files.
MAGIC = {b"GRIB": "GRIB", b"\x89HDF\r\n\x1a\n": "HDF5", b"SIMPLE  =": "FITS", b"\x1f\x8b": "gzip", b"\x28\xb5\x2f\xfd": "zstd",
         b"\xfd7zXZ": "xz", b"BZh": "bzip2", **{b"CDF" + version: "classic netCDF" for version in (b"\1", b"\2", b"\5")}}


class Damage(ValueError):
    """What is wrong with a code: a text, and the block and the bit of the code at which it is, where these are known."""

    def __init__(self, text, block=None, bit=None):
        super().__init__(text)
        self.block, self.bit = block, bit


class Fault(NamedTuple):
    """What is wrong with a part of a file. The byte and the bit in it are those of the file."""

    part: str
    text: str
    block: Optional[int] = None
    byte: Optional[int] = None
    bit: Optional[int] = None

    def __str__(self):
        where = "" if self.byte is None else f" (byte {self.byte} of the file)"
        return f"{self.part}: {self.text}{where}"


class Unserved(ValueError):
    """What these recipes don't read, which is no damage."""

    def __str__(self):
        return f"not served: {super().__str__()}"


def read(path):
    with open(path, "rb") as file:
        return file.read()


def kind_of(path):
    """The kind of a file by its first bytes, or None."""
    with open(path, "rb") as file:
        front = file.read(16)
    return next((kind for magic, kind in MAGIC.items() if front.startswith(magic)), None)


def fault_of(part, error, start):
    """What an exception says of a part of a file whose code begins at a byte."""
    block, bit = getattr(error, "block", None), getattr(error, "bit", None)
    if bit is None:
        return Fault(part, str(error), block, start)
    return Fault(part, str(error), block, start + bit // 8, bit % 8)


def damage_of(error, decoder):
    """What an exception says of the code that a decoder was given."""
    ends = error.status == rice121.Status.CODE_ENDS
    return Damage(str(error), error.place // decoder.options.block if ends else error.place, decoder.bits)


def decoded(code, count, dtype, **options):
    """Returns the samples of a code that has exactly so many."""
    decoder = rice121.Decoder(dtype, **options)
    try:
        samples = decoder.pull(code, count)
    except rice121.RiceError as error:
        raise damage_of(error, decoder) from error
    if len(samples) < count:
        raise Damage(f"code ends after {len(samples)} samples, of {count}", len(samples) // decoder.options.block, decoder.bits)
    byte, bit = divmod(decoder.bits, 8)
    if byte < len(code) and (code[byte] & (255 >> bit) or any(code[byte + 1 :])):
        raise Damage(f"{8 * len(code) - decoder.bits} bits follow the code of {count} samples", None, decoder.bits)
    return samples


def words_of(options, is_msb=False, is_signed=False, three=False):
    """The options of the command."""
    letters = {"-m": is_msb, "-s": is_signed, "-3": three, "-N": not options["preprocess"], "-p": options.get("pad", False)}
    numbers = ["-n", options["bits"], "-j", options["block"], "-r", options["interval"]]
    return " ".join(map(str, numbers + list(filter(letters.get, letters))))


def unsigned(bits):
    """numpy's type of samples of so many bits, the least significant byte first."""
    return numpy.dtype("u1" if bits <= 8 else "<u2" if bits <= 16 else "<u4")
