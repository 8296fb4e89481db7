"""A code that is written as the samples come."""
from __future__ import annotations

from typing import TYPE_CHECKING, Any, Optional, Tuple

import numpy

from ._errors import RiceError
from ._memory import Array, new_report, pointer, read_report, samples_of
from ._options import options_for
from ._rice import ffi, lib

if TYPE_CHECKING:
    from numpy.typing import DTypeLike
    from typing_extensions import Unpack

    from ._options import Keywords

# The blocks of a segment; the last of an interval may have fewer.
_SEGMENT = 64


class Encoder:
    """Encodes arrays of one type, one after another: the bytes of all calls are those that `encode` returns for all samples.

    It holds the samples of a segment, 64 blocks, that is not whole yet. A call that raises an exception leaves it as it was.

    >>> samples = numpy.arange(5000, dtype="<u2")
    >>> encoder = Encoder("<u2", bits=13, block=16)
    >>> pieces = [encoder.push(samples[:3000]), encoder.push(samples[3000:]), encoder.finish()]
    >>> [len(piece) for piece in pieces]
    [833, 833, 371]
    """

    def __init__(self, dtype: DTypeLike, **options: Unpack[Keywords]) -> None:
        self.dtype = numpy.dtype(dtype)
        self.options = options_for(dtype, **options)
        self._feed = ffi.new("struct rice_feed *")
        self._waiting = numpy.zeros(0, "u1")
        self._is_finished = False
        lib.rice_begin(self.options.setting(), self._feed)

    @property
    def samples(self) -> int:
        """The samples so far."""
        return int(self._feed.samples) + self._waiting.size // self.options.width

    def push(self, array: Array) -> bytes:
        """Returns the bytes of code that the next samples complete.

        Raises a RiceError where a sample is out of range, counted from the first of all; a TypeError where the array has another type; and
        a ValueError after `finish`.
        """
        code, self._feed, self._waiting = self._pushed(array)
        return code

    def finish(self, array: Optional[Array] = None) -> bytes:
        """Returns the rest of the code, with that of some last samples. Nothing can be pushed then.

        Raises what `push` does, and a RiceError where the bytes end inside a sample.
        """
        code, feed, waiting = self._pushed(numpy.zeros(0, self.dtype) if array is None else array)
        report = new_report()
        rest = numpy.zeros(lib.rice_push_room(feed, waiting.size // self.options.width), "u1")
        status = lib.rice_finish(feed, pointer(waiting), waiting.size, pointer(rest, True), rest.size, report)
        if status:
            raise RiceError(status, read_report(report))
        self._feed, self._waiting, self._is_finished = feed, waiting, True
        return code + rest[: report.written].tobytes()

    def _pushed(self, array: Array) -> Tuple[bytes, Any, Array]:
        """Returns the bytes that more samples complete, and the feed and the bytes of samples that wait then."""
        samples = samples_of(array, self.dtype)
        if self._is_finished:
            raise ValueError("the code is finished")
        octets, feed = samples.reshape(-1).view("u1"), ffi.new("struct rice_feed *", self._feed[0])
        # (only what the pending segment lacks is copied)
        lacks = self._segment() - self._waiting.size if self._waiting.size else 0
        code, waiting = self._pushed_to(feed, numpy.concatenate([self._waiting, octets[:lacks]]))
        if octets.size > lacks:
            more, waiting = self._pushed_to(feed, octets[lacks:])
            code += more
        return code, feed, waiting.copy()

    def _segment(self) -> int:
        """The bytes of the segment that comes next."""
        options = self.options
        return min(_SEGMENT, options.interval - int(self._feed.start)) * options.block * options.width

    def _pushed_to(self, feed: Any, octets: Array) -> Tuple[bytes, Array]:
        """Returns the bytes that samples complete, and those of the samples that the feed does not take."""
        report, before = new_report(), feed.samples
        code = numpy.zeros(lib.rice_push_room(feed, octets.size // self.options.width), "u1")
        status = lib.rice_push(feed, pointer(octets), octets.size, pointer(code, True), code.size, report)
        if status:
            raise RiceError(status, read_report(report))
        return code[: report.written].tobytes(), octets[(feed.samples - before) * self.options.width :]
