"""Arrays and codes all at once."""
from __future__ import annotations

from typing import TYPE_CHECKING, Optional

import numpy

from ._errors import RiceError, Status
from ._memory import (SAMPLES_OF_A_BIT, Array, Octets, count_of, new_report, new_samples, octets_of, pointer, read_report, samples_of,
                      shape_of)
from ._options import Options, options_for, whole
from ._rice import lib

if TYPE_CHECKING:
    from numpy.typing import DTypeLike
    from typing_extensions import Unpack

    from ._options import Keywords


def encode(array: Array, **options: Unpack[Keywords]) -> bytes:
    """Returns the code of the elements of an array, in C's order. `options_for` says which options its type has.

    The array is copied where its elements don't stand one after another.

    Raises a RiceError where a sample has bits that are not its own: unused bits must be 0, or equal its sign.

    >>> encode(numpy.zeros((10, 100), "i2"), bits=12).hex()
    '000004'
    >>> encode(numpy.array([1, 2, 4096], "u2"), bits=12)
    Traceback (most recent call last):
    ...
    rice121._errors.RiceError: sample 2 is out of range
    """
    samples = samples_of(array)
    chosen = options_for(samples.dtype, **options)
    setting, report = chosen.setting(), new_report()
    code = numpy.zeros(lib.rice_code_room(setting, samples.nbytes // chosen.width), "u1")
    status = lib.rice_encode(setting, pointer(samples), samples.nbytes, pointer(code, True), code.nbytes, report)
    written = code[: report.written].tobytes()
    if status:
        raise RiceError(status, read_report(report), written)
    return written


def decode(code: Octets, count: int, dtype: DTypeLike, *, out: Optional[Array] = None, **options: Unpack[Keywords]) -> Array:
    """Returns an array of the first `count` samples of a code: a new one of one dimension, or `out`, which has so many of that type in any
    shape. What follows their code has no part in it.

    Raises a ValueError where no code of so many bytes has so many samples, before memory is asked for, and a RiceError where this one
    has not.

    >>> decode(bytes.fromhex("000004"), 5, "i2", bits=12)
    array([0, 0, 0, 0, 0], dtype=int16)
    >>> decode(b"", 10**12, "i2")
    Traceback (most recent call last):
    ...
    ValueError: 0 bytes of code have at most 0 samples, and not 1000000000000
    """
    chosen = options_for(dtype, **options)
    octets = octets_of(code)
    count = count_of(count, octets)
    if out is None:
        return _decoded(octets, count, new_samples(count, dtype, chosen), chosen)
    _check_out(out, count, dtype, chosen)
    if numpy.may_share_memory(out, octets):
        octets = octets.copy()
    if out.flags.c_contiguous:
        _decoded(octets, count, out, chosen)
    else:
        out[...] = _decoded(octets, count, new_samples(count, dtype, chosen), chosen).reshape(out.shape)
    return out


def _check_out(out: Array, count: int, dtype: DTypeLike, options: Options) -> None:
    """Raises what is wrong with an array that is to take samples."""
    if not isinstance(out, numpy.ndarray) or isinstance(out, numpy.ma.MaskedArray) or out.dtype != numpy.dtype(dtype):
        raise TypeError(f"out is no array of {numpy.dtype(dtype)} without a mask")
    if out.size != numpy.prod(shape_of(count, dtype, options), dtype=object):
        raise ValueError(f"out has {out.size} elements, which is not the size of {count} samples")


def _decoded(octets: Array, count: int, samples: Array, options: Options) -> Array:
    """Returns an array of samples, after decoding them into it."""
    report = new_report()
    status = lib.rice_decode(options.setting(), count, pointer(octets), octets.size, pointer(samples, True), samples.nbytes, report)
    if status:
        raise RiceError(status, read_report(report), samples.reshape(-1)[: report.written // samples.itemsize])
    return samples


def decode_all(code: Octets, dtype: DTypeLike, *, limit: Optional[int] = None, **options: Unpack[Keywords]) -> Array:
    """Returns an array of all samples of a code whose number of them isn't known.

    They include those that filled the last block or run of blocks: of what `encode` wrote, fewer than 64 blocks. A byte of code gives up
    to 3648 samples: `limit` is the most that are taken of a code from who knows where.

    Raises a RiceError where the code is damaged or has more than `limit` samples.

    >>> decode_all(encode(numpy.arange(3, dtype="u1"), block=8), "u1", block=8)
    array([0, 1, 2, 2, 2, 2, 2, 2], dtype=uint8)
    """
    chosen = options_for(dtype, **options)
    octets = octets_of(code)
    most = 8 * SAMPLES_OF_A_BIT * octets.size
    if limit is not None:
        most = min(most, whole(limit, 2**62, "limit"))
    report, setting = new_report(), chosen.setting()
    room = min(most, max(4096, 32 * octets.size // chosen.bits))
    while True:
        samples = new_samples(room, dtype, chosen)
        status = lib.rice_decode_all(setting, pointer(octets), octets.size, pointer(samples, True), samples.nbytes, report)
        if status != Status.NO_ROOM or room == most:
            break
        room = min(most, 2 * room)
    samples = samples[: report.written // chosen.width]
    if status == Status.NO_ROOM:
        raise RiceError(status, read_report(report)._replace(place=most), samples)
    if status:
        raise RiceError(status, read_report(report), samples)
    return samples
