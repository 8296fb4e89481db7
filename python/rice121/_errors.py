"""How calls of the library end."""
from __future__ import annotations

import enum
from typing import Any, NamedTuple


class Status(enum.IntEnum):
    """Why a call didn't do all that was asked, as rice.h numbers it."""

    BAD_BITS = 1
    BAD_BLOCK = 2
    BAD_INTERVAL = 3
    SAMPLE_OUT_OF_RANGE = 4
    INPUT_CUT = 5
    CODE_ENDS = 6
    RUN_PAST_SEGMENT = 7
    RESIDUAL_TOO_LARGE = 8
    NO_ROOM = 9
    TOO_LONG = 10
    ONLY_ZEROS = 11
    MORE_CODE = 12
    BAD_PLACE = 13


_SENTENCES = {
    Status.BAD_BITS: "bits per sample must be 1 to 32",
    Status.BAD_BLOCK: "block size must be 8, 16, 32 or 64, or with any_block even, 2 to 64",
    Status.BAD_INTERVAL: "interval must be 1 to 4096",
    Status.SAMPLE_OUT_OF_RANGE: "sample {} is out of range",
    Status.INPUT_CUT: "input ends inside sample {}",
    Status.CODE_ENDS: "code ends after {} samples",
    Status.RUN_PAST_SEGMENT: "run at block {} passes its segment",
    Status.RESIDUAL_TOO_LARGE: "residual too large in block {}",
    Status.NO_ROOM: "the code has more than {} samples",
    Status.TOO_LONG: "input is too long",
    Status.BAD_PLACE: "no interval can begin there",
}


class Report(NamedTuple):
    """What a call has done: samples, bits of code and steps so far, bytes that were written, and the place that its status names."""

    samples: int = 0
    bits: int = 0
    steps: int = 0
    written: int = 0
    place: int = 0


class RiceError(ValueError):
    """A call that didn't do all that was asked.

    `status` says why, `place` which sample or block it was, counted from 0, and `report` what was done until then. `partial` is that: the
    bytes of code, or the array of samples, that come before the fault.

    >>> import rice121
    >>> try:
    ...     rice121.decode(b"", 8, "u1")
    ... except ValueError as error:
    ...     print(error)
    0 bytes of code have at most 0 samples, and not 8
    >>> try:
    ...     rice121.decode(b"\\0\\x58", 16, "u1", block=8)
    ... except RiceError as error:
    ...     print(error.status.name, error.place, error)
    CODE_ENDS 8 code ends after 8 samples
    """

    def __init__(self, status: int, report: Report = Report(), partial: Any = b"") -> None:
        super().__init__(status, report, partial)
        self.status = Status(status)
        self.report = report
        self.place = report.place
        self.partial = partial

    def __str__(self) -> str:
        return _SENTENCES[self.status].format(self.place)
