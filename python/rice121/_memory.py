"""Arrays and bytes as the library takes them, and what it says of them."""
from __future__ import annotations

from typing import Any, List, Tuple, Union

import numpy

from ._errors import Report
from ._options import Options, whole
from ._rice import ffi

# A bit of a code gives at most so many samples: 64 blocks of 64 zeros take nine bits.
SAMPLES_OF_A_BIT = 456

# (numpy has no types for these that all its versions know)
Array = Any
Octets = Any


def check_array(array: Array, dtype: Any = None) -> None:
    """Raises a TypeError where an array has a mask, or elements of another type than the one that is given."""
    if isinstance(array, numpy.ma.MaskedArray):
        raise TypeError("a code keeps no mask: take array.filled(value), and keep array.mask beside the code")
    if dtype is not None and array.dtype != dtype:
        raise TypeError(f"an array of {array.dtype}, where this encodes {dtype}: take array.astype({dtype.str!r}), if all values fit")


def samples_of(data: Array, dtype: Any = None) -> Array:
    """Returns an array whose elements stand one after another: the array itself, where they do, after `check_array`."""
    if isinstance(data, (bytes, bytearray)):
        data = memoryview(data)
    samples = numpy.asanyarray(data)
    check_array(samples, dtype)
    return numpy.ascontiguousarray(samples)


def count_of(number: Any, code: Array) -> int:
    """Returns a number of samples, where a code of so many bytes may have them."""
    most, count = 8 * SAMPLES_OF_A_BIT * code.size, whole(number, 2**64 - 1, "the number of samples")
    if count > most:
        raise ValueError(f"{code.size} bytes of code have at most {most} samples, and not {count}")
    return count


def octets_of(data: Octets) -> Array:
    """Returns the bytes of an array or of whatever has bytes, one after another."""
    array = data if isinstance(data, numpy.ndarray) else numpy.asarray(memoryview(data))
    return numpy.ascontiguousarray(array).reshape(-1).view("u1")


def pointer(array: Array, is_written: bool = False) -> Any:
    """Returns a pointer to the bytes of an array, which it holds."""
    return ffi.from_buffer("uint8_t[]", array.reshape(-1).view("u1"), is_written)


def shape_of(count: int, dtype: Any, options: Options) -> Union[int, Tuple[int, int]]:
    """Returns the shape of an array of so many samples: where its elements are their bytes, each has a row."""
    return count if numpy.dtype(dtype).itemsize == options.width else (count, options.width)


def new_samples(count: int, dtype: Any, options: Options) -> Array:
    """Returns an array of so many samples. (The library wants memory that has values.)"""
    return numpy.zeros(shape_of(count, dtype, options), dtype)


def joined(parts: List[Array]) -> Array:
    """Returns the samples of several arrays, one after the other. (numpy.concatenate would give them the machine's order of bytes.)"""
    octets = numpy.concatenate([part.reshape(-1).view("u1") for part in parts])
    return octets.view(parts[0].dtype).reshape(-1, *parts[0].shape[1:])


def new_report() -> Any:
    return ffi.new("struct rice_report *")


def read_report(report: Any) -> Report:
    return Report(report.samples, report.bits, report.steps, report.written, report.place)
