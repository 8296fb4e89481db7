"""Codes that are read as they come, or from where one of their intervals begins."""
from __future__ import annotations

from typing import TYPE_CHECKING, Any, List, NamedTuple, Optional, Tuple

import numpy

from ._errors import Report, RiceError, Status
from ._memory import Array, Octets, count_of, joined, new_report, new_samples, octets_of, pointer, read_report
from ._options import options_for, whole
from ._rice import ffi, lib

if TYPE_CHECKING:
    from numpy.typing import DTypeLike
    from typing_extensions import Unpack

    from ._options import Keywords

# The samples for which room is made first.
_FIRST_ROOM = 4096

# How a pull ends that more code or more room goes on with.
_PAUSES = (Status.NO_ROOM, Status.ONLY_ZEROS, Status.MORE_CODE)


class Place(NamedTuple):
    """Where an interval begins: after so many samples, and so many bits of code."""

    samples: int = 0
    bits: int = 0


class Decoder:
    """Decodes a code whose bytes come piece by piece: the arrays of all calls are what `decode_all` returns for all of the code.

    It holds the code that gives no samples yet, and samples after those that were asked for, fewer than a block. `at` is where the code
    begins, by `offsets`: the first byte of the first piece is number `at.bits // 8` of the code.

    >>> import rice121
    >>> samples = numpy.arange(5000, dtype="<u2")
    >>> code = rice121.encode(samples, bits=13, block=16)
    >>> with Decoder("<u2", bits=13, block=16) as decoder:
    ...     parts = [decoder.pull(code[:9]), decoder.pull(code[9:], 1000), decoder.pull()]
    >>> [len(part) for part in parts], bool((numpy.concatenate(parts)[:5000] == samples).all())
    ([16, 1000, 3992], True)
    """

    def __init__(self, dtype: DTypeLike, *, at: Place = Place(), **options: Unpack[Keywords]) -> None:
        self.dtype = numpy.dtype(dtype)
        self.options = options_for(dtype, **options)
        self._drain = _opened(self.options.setting(), at)
        self._code = numpy.zeros(0, "u1")
        self._ahead = new_samples(0, self.dtype, self.options)
        self._status: int = Status.ONLY_ZEROS
        self._is_closed = False

    @property
    def samples(self) -> int:
        """The samples before the next, counted from the beginning of the code."""
        return int(self._drain.samples) - len(self._ahead)

    @property
    def bits(self) -> int:
        """The bits of code of the blocks so far, with the padding of intervals, counted from the beginning of the code."""
        return int(self._drain.bits)

    def pull(self, code: Octets = b"", count: Optional[int] = None) -> Array:
        """Returns an array of the samples that are whole in the code so far, with more code after it: the next `count`, or fewer
        where there aren't so many.

        A byte of code gives up to 3648 samples: `count` keeps the memory small. What is left of the code is taken by the next call.

        Raises a RiceError where the code is damaged, with the samples before that place, and a ValueError after `close`.
        """
        wanted = 2**62 if count is None else whole(count, 2**62, "the number of samples")
        if self._is_closed:
            raise ValueError("the decoder is closed")
        octets = octets_of(code)
        if octets.size:
            self._code = numpy.concatenate([self._code, octets])
        blocks, report = self._pull_blocks(wanted - len(self._ahead))
        samples = joined([self._ahead, *blocks])
        samples, self._ahead = samples[:wanted], samples[wanted:].copy()
        if len(samples) < wanted and self._status not in _PAUSES:
            raise RiceError(self._status, report, samples)
        return samples

    def _pull_blocks(self, wanted: int) -> Tuple[List[Array], Report]:
        """Returns arrays of whole blocks that have so many samples together, or all that the code has, and the last report."""
        code, drain, report = self._code, ffi.new("struct rice_drain *", self._drain[0]), new_report()
        blocks, room = [], _FIRST_ROOM
        while wanted > 0:
            size = self.options.block
            samples = new_samples(-(-min(wanted, room) // size) * size, self.dtype, self.options)
            begin = drain.bits // 8
            self._status = lib.rice_pull(drain, pointer(code), code.size, pointer(samples, True), samples.nbytes, report)
            code = code[drain.bits // 8 - begin :]
            blocks.append(samples[: report.written // self.options.width])
            wanted -= len(blocks[-1])
            if self._status != Status.NO_ROOM:
                break
            room *= 2
        self._code, self._drain = code, drain
        return blocks, read_report(report)

    def close(self) -> None:
        """Ends the code. Raises a RiceError where it ends too early: inside the coded data set of the next block."""
        was_closed, self._is_closed = self._is_closed, True
        if self._status == Status.MORE_CODE and not was_closed:
            raise RiceError(Status.CODE_ENDS, Report(samples=self._drain.samples, bits=self._drain.bits, place=self._drain.samples))

    def __enter__(self) -> Decoder:
        return self

    def __exit__(self, kind: Any, *_: Any) -> None:
        if kind is None:
            self.close()
        self._is_closed = True


def _opened(setting: Any, at: Place) -> Any:
    """Returns a drain that begins at a place."""
    drain = ffi.new("struct rice_drain *")
    samples, bits = (whole(number, 2**64 - 1, name) for number, name in zip(at, Place._fields))
    status = lib.rice_open_at(setting, samples, bits, drain)
    if status:
        raise RiceError(status)
    return drain


def offsets(code: Octets, dtype: DTypeLike, *, count: Optional[int] = None, **options: Unpack[Keywords]) -> List[Place]:
    """Returns where those intervals of a code begin that have a sample, or one of the first `count`.

    From such a place on a `Decoder` reads the code alone, so a range can be had without what is before it, and what is damaged costs
    its own interval. Raises a RiceError where the code is damaged.

    >>> import rice121
    >>> samples = numpy.arange(5000, dtype="<u2")
    >>> code = rice121.encode(samples, bits=13, block=16)
    >>> places = offsets(code, "<u2", bits=13, block=16)
    >>> places
    [Place(samples=0, bits=0), Place(samples=2048, bits=6665), Place(samples=4096, bits=13331)]
    >>> with Decoder("<u2", at=places[1], bits=13, block=16) as decoder:
    ...     decoder.pull(code[places[1].bits // 8 :], 3)
    array([2048, 2049, 2050], dtype=uint16)
    """
    chosen = options_for(dtype, **options)
    octets = octets_of(code)
    wanted = 2**64 - 1 if count is None else count_of(count, octets)
    drain, report = _opened(chosen.setting(), Place()), new_report()
    interval = new_samples(chosen.interval * chosen.block, dtype, chosen)
    places: List[Place] = []
    status: int = Status.NO_ROOM
    while status == Status.NO_ROOM and drain.samples < wanted:
        place = Place(drain.samples, drain.bits)
        rest = octets[place.bits // 8 :]
        status = lib.rice_pull(drain, pointer(rest), rest.size, pointer(interval, True), interval.nbytes, report)
        if report.written:
            places.append(place)
    if count is not None and drain.samples >= wanted:
        return places
    if status == Status.MORE_CODE or (status == Status.ONLY_ZEROS and count is not None):
        raise RiceError(Status.CODE_ENDS, read_report(report)._replace(place=drain.samples))
    if status not in _PAUSES:
        raise RiceError(status, read_report(report))
    return places
