#!/usr/bin/env python3
"""Checks and decodes chunks of HDF5's SZIP filter in process, in files of HDF5 or netCDF 4. It reads all types of one, two, four and eight
bytes, pixels of 32 and 64 bits in planes of bytes, scanlines filled to whole blocks, and every even block size. It also serves the filters
shuffle and fletcher32. HDF5 itself reads other datasets.

usage: hdf5.py check FILE [DATASET]..        say of each dataset whether its chunks are whole
       hdf5.py decode FILE DATASET OUT.npy   write the values of a dataset
"""
import math
import os
import sys
from typing import NamedTuple

from start import usage

import h5py
import numpy

from codes import Damage, Fault, Unserved, decoded, fault_of, unsigned, words_of

MOST_SIGNIFICANT_FIRST, NEAREST_NEIGHBOUR = 16, 32
SHUFFLE, FLETCHER32, SZIP = h5py.h5z.FILTER_SHUFFLE, h5py.h5z.FILTER_FLETCHER32, h5py.h5z.FILTER_SZIP
NAMES = {SHUFFLE: "shuffle", FLETCHER32: "fletcher32", SZIP: "SZIP", h5py.h5z.FILTER_DEFLATE: "deflate", h5py.h5z.FILTER_NBIT: "nbit",
         h5py.h5z.FILTER_SCALEOFFSET: "scaleoffset"}


class Layout(NamedTuple):
    """How pixels lie in a code, by the filter's four values."""

    mask: int
    block: int  # pixels
    bits: int  # of a pixel
    line: int  # pixels of a scanline

    @property
    def planes(self):
        """Pixels of 32 and 64 bits lie in planes: the first bytes of all, then the second ones, and so on."""
        return self.bits // 8 if self.bits in (32, 64) else 1

    @property
    def filled(self):
        """The pixels of a scanline with those that fill its last block."""
        return -(-self.line // self.block) * self.block

    @property
    def kind(self):
        kind = unsigned(8 if self.planes > 1 else self.bits)
        return kind.newbyteorder(">") if self.mask & MOST_SIGNIFICANT_FIRST else kind

    def options(self):
        if not (1 <= self.bits <= 32 or self.bits == 64) or not 2 <= self.block <= 64 or self.block % 2 or not 1 <= self.filled <= 4096 * self.block:
            raise Unserved(f"pixels of {self.bits} bits, blocks of {self.block}, scanlines of {self.line}")
        return {"bits": 8 if self.planes > 1 else self.bits, "block": self.block, "interval": self.filled // self.block,
                "preprocess": bool(self.mask & NEAREST_NEIGHBOUR), "any_block": self.block not in (8, 16, 32, 64)}

    def words(self):
        """The options of the command, which takes the standard's block sizes alone."""
        return words_of(self.options(), self.kind.byteorder == ">")


def filters_of(dataset):
    """The filters of a dataset, in the order in which they were applied, each with its values."""
    properties = dataset.id.get_create_plist()
    return [properties.get_filter(i)[:3:2] for i in range(properties.get_nfilters())]


def layout_of(dataset):
    """The layout of a dataset's codes, or None where it has no SZIP filter."""
    found = filters_of(dataset)
    if SZIP not in [number for number, _ in found]:
        return None
    others = [NAMES.get(number, f"number {number}") for number, _ in found if number not in (SHUFFLE, FLETCHER32, SZIP)]
    if others:
        raise Unserved(f"the filter {others[0]}")
    return Layout(*next(values for number, values in found if number == SZIP)[:4])


def unzipped(layout, chunk, most):
    """The bytes of a chunk, which are at most so many. Its first four are their number, the least significant first."""
    size = int.from_bytes(chunk[:4], "little")
    options, pixel = layout.options(), layout.kind.itemsize
    count = size // pixel
    if size % (pixel * layout.planes) or len(chunk) < 4:
        raise Damage(f"{size} bytes are no whole pixels")
    if size > most:
        raise Damage(f"a code of {size} bytes, where a chunk has {most}")
    lines = -(-count // layout.line)
    # (what fills the last scanline is written too)
    samples = decoded(chunk[4:], lines * layout.filled, layout.kind, **options)
    pixels = samples.reshape(lines, layout.filled)[:, : layout.line].reshape(-1)[:count]
    octets = numpy.ascontiguousarray(pixels).view("u1")
    return octets.reshape(layout.planes, -1).T.tobytes() if layout.planes > 1 else octets.tobytes()


def fletcher32(data):
    """HDF5's check sum."""
    words = numpy.frombuffer(data + b"\0" * (len(data) % 2), ">u2").astype("u8")
    sums = int(words.sum()), int((words * numpy.arange(len(words), 0, -1, dtype="u8")).sum())
    first, second = ((each - 1) % 65535 + 1 if each else 0 for each in sums)
    return second << 16 | first


def chunk_bytes(dataset, layout, place):
    """The bytes of a chunk, after its filters are undone. One that a chunk's mask names was not applied to it."""
    mask, data = dataset.id.read_direct_chunk(place)
    wanted = dataset.dtype.itemsize * math.prod(dataset.chunks)
    for i, (number, _) in reversed(list(enumerate(filters_of(dataset)))):
        if mask >> i & 1:
            continue
        if number == FLETCHER32:
            data, stored = data[:-4], int.from_bytes(data[-4:], "little")
            if fletcher32(data) != stored:
                raise Damage("the check sum of the chunk is another")
        elif number == SZIP:
            # (with the check sum, where that came first)
            data = unzipped(layout, data, wanted + 4)
        elif number == SHUFFLE:
            data = numpy.frombuffer(data, "u1").reshape(dataset.dtype.itemsize, -1).T.tobytes()
    if len(data) != wanted:
        raise Damage(f"a chunk of {len(data)} bytes, where the dataset has {wanted}")
    return data


def datasets(file, names=()):
    """The datasets of a file, or those that are named."""
    found = []
    file.visititems(lambda name, it: found.append(it) if isinstance(it, h5py.Dataset) else None)
    wanted = {"/" + name.strip("/") for name in names}
    missing = wanted - {dataset.name for dataset in found}
    if missing:
        raise Damage(f"there is no dataset {', '.join(sorted(missing))}")
    return [dataset for dataset in found if dataset.name in wanted or not names]


def places(dataset):
    """Where the chunks of a dataset are: in it, and in the file."""
    for i in range(dataset.id.get_num_chunks()):
        info = dataset.id.get_chunk_info(i)
        yield info.chunk_offset, info.byte_offset


def fault_by(part, error):
    """What an exception says. (A damaged header may lead h5py to any.)"""
    return Fault(part, str(error) if isinstance(error, (Damage, Unserved)) else f"HDF5 says: {error}")


def chunk_faults(dataset, layout):
    """What is wrong with the codes of a dataset."""
    for place, byte in places(dataset):
        try:
            chunk_bytes(dataset, layout, place)
        except (ValueError, OSError) as error:
            # (the code stands after the number of bytes)
            yield fault_of(f"{dataset.name} chunk {place}", error, byte + 4)


def dataset_faults(dataset):
    """What is wrong with the chunks of a dataset. Those that have no code are read by HDF5."""
    try:
        layout = layout_of(dataset)
        if layout:
            yield from chunk_faults(dataset, layout)
        elif dataset.chunks and dataset.size:
            for part in dataset.iter_chunks():
                dataset[part]
    except Exception as error:
        yield fault_by(dataset.name, error)


def stated_size(file):
    """The size of a file by its superblock, which follows the user block."""
    with open(file.filename, "rb") as raw:
        raw.seek(file.userblock_size)
        front = raw.read(96)
    version = front[8]
    size = front[13 if version < 2 else 9]
    start = (24, 28, 12, 12)[version] + 2 * size
    return int.from_bytes(front[start : start + size], "little")


def size_faults(file):
    """What follows the end that a superblock gives. (HDF5 refuses a file that ends before it.)"""
    stated, size = stated_size(file), os.path.getsize(file.filename)
    if size > stated:
        yield Fault("after the end", f"{size - stated} bytes follow the end that the superblock gives", None, stated)


def checked(path, names=()):
    """The datasets of a file, or those that are named, each with what is wrong with it; and what is wrong with the file."""
    try:
        with h5py.File(path) as file:
            for dataset in datasets(file, names):
                yield dataset, list(dataset_faults(dataset))
            yield None, list(size_faults(file))
    except Exception as error:
        yield None, [fault_by("the file", error)]


def faults(path):
    """What is wrong with a file."""
    return [fault for _, found in checked(path) for fault in found]


def described(dataset):
    """What a whole dataset is."""
    layout = layout_of(dataset)
    what = "no SZIP filter" if layout is None else f"{dataset.id.get_num_chunks()} chunks, aec {layout.words()}, whole"
    planes = f", {layout.planes} planes of bytes" if layout and layout.planes > 1 else ""
    return f"{dataset.name}: {dataset.dtype.str} {dataset.shape}: {what}{planes}"


def check(path, names):
    """Says of each dataset what it is. Answers whether all are whole."""
    is_whole = True
    for dataset, found in checked(path, names):
        is_whole &= not found
        for fault in found:
            print(f"{path}: {fault}")
        if dataset is not None and not found:
            print(f"{path}: {described(dataset)}")
    return is_whole


def decode(path, name, out):
    """Writes the values of a dataset, without HDF5's filter."""
    with h5py.File(path) as file:
        (dataset,) = datasets(file, [name])
        layout = layout_of(dataset)
        if layout is None:
            raise Unserved(f"{name} has no SZIP filter")
        values = numpy.full(dataset.shape, dataset.fillvalue, dataset.dtype)
        for place, _ in places(dataset):
            part = numpy.frombuffer(chunk_bytes(dataset, layout, place), dataset.dtype).reshape(dataset.chunks)
            there = tuple(slice(at, min(at + size, end)) for at, size, end in zip(place, dataset.chunks, dataset.shape))
            values[there] = part[tuple(slice(0, each.stop - each.start) for each in there)]
        is_same = numpy.array_equal(values.view("u1"), dataset[...].view("u1"))
    numpy.save(out, values)
    print(f"{out}: {values.dtype.str} {values.shape}, the values that HDF5 reads: {is_same}")


def main():
    command, *words = sys.argv[1:] or [""]
    if not (command == "check" and words) and not (command == "decode" and len(words) == 3):
        usage()
    try:
        sys.exit(not check(words[0], words[1:]) if command == "check" else decode(*words))
    except (OSError, RuntimeError, KeyError, ValueError) as error:
        sys.exit(f"{words[0]}: {error}")


if __name__ == "__main__":
    main()
