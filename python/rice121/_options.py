"""What coder and decoder are set to, and what the type of an array says of it."""
from __future__ import annotations

import dataclasses
import numbers
from typing import TYPE_CHECKING, Any, NamedTuple, NoReturn, Optional, TypedDict

import numpy

from ._errors import RiceError
from ._rice import ffi, lib

if TYPE_CHECKING:
    from numpy.typing import DTypeLike

# What is a number of 32 bits in the library.
_MOST = 2**32 - 1


class Keywords(TypedDict, total=False):
    """The options that calls take beside an array or its type."""

    bits: int
    block: int
    interval: int
    is_signed: bool
    msb: bool
    three: bool
    preprocess: bool
    pad: bool
    any_block: bool


@dataclasses.dataclass(frozen=True)
class Options:
    """What coder and decoder are set to: `options_for` makes one that fits the type of an array.

    - `bits`: the bits of a sample, 1 to 32.
    - `block`: the samples of a block: 8, 16, 32 or 64.
    - `interval`: the blocks of a reference interval, 1 to 4096.
    - `is_signed`: samples are signed.
    - `msb`: the most significant byte of a sample comes first.
    - `three`: samples of 17 to 24 bits take three bytes, not four.
    - `preprocess`: samples are predicted; false where they were predicted before.
    - `pad`: the code of each interval is filled to a byte.
    - `any_block`: any even number of samples from 2 to 64 makes a block.
    """

    bits: int
    block: int = 32
    interval: int = 128
    is_signed: bool = False
    msb: bool = False
    three: bool = False
    preprocess: bool = True
    pad: bool = False
    any_block: bool = False

    def __post_init__(self) -> None:
        for field in dataclasses.fields(self):
            value = getattr(self, field.name)
            if field.name in ("bits", "block", "interval"):
                value = whole(value, _MOST, field.name)
            elif isinstance(value, (bool, numpy.bool_)):
                value = bool(value)
            else:
                raise TypeError(f"{field.name}: {value!r} is neither True nor False")
            object.__setattr__(self, field.name, value)
        status = lib.rice_check(self.setting())
        if status:
            raise RiceError(status)

    def setting(self) -> Any:
        """Returns the options as the library has them."""
        return ffi.new("struct rice_setting *", vars(self))

    @property
    def width(self) -> int:
        """The bytes of a sample, 1 to 4."""
        return int(lib.rice_sample_width(self.setting()))


def whole(number: Any, most: int, name: str) -> int:
    """Returns `number` as an int, where it is a whole one from 0 to `most`. True and False are none."""
    if not isinstance(number, numbers.Integral) or isinstance(number, bool):
        raise ValueError(f"{name}: {number!r} is no whole number")
    if not 0 <= int(number) <= most:
        raise ValueError(f"{name}: {number} is not from 0 to {most}")
    return int(number)


class _Form(NamedTuple):
    """What a type says of its elements; None where it says nothing."""

    width: int
    is_signed: Optional[bool]
    msb: Optional[bool]


def _advice(kind: numpy.dtype[Any]) -> str:
    """Returns what to do with arrays of a type that has no samples."""
    if kind.kind == "b":
        return 'take array.view("u1"), and bits=1'
    if kind.kind in "iu":
        return f'take array.astype("{kind.kind}4") where all values fit into four bytes'
    if kind.kind in "fc":
        return 'scale and round the values, and take .astype("i4"), for example'
    if kind.kind in "mM":
        return 'take array.view("i8"), and of that what fits into four bytes'
    return "take an array of u1, u2, u4, i1, i2, i4, or of V3 for three bytes"


def _form(kind: numpy.dtype[Any], three: Optional[bool]) -> _Form:
    """Returns what a type says. Bytes may be those of samples of three bytes, where `three` says so."""
    if kind.kind in "iu" and kind.itemsize <= 4:
        if kind == numpy.dtype("u1") and three:
            return _Form(3, None, None)
        return _Form(kind.itemsize, kind.kind == "i", None if kind.itemsize == 1 else kind.str[0] == ">")
    if kind == numpy.dtype("V3"):
        return _Form(3, None, None)
    raise TypeError(f"{kind} has no samples of one to four bytes: {_advice(kind)}")


def _agreed(kind: numpy.dtype[Any], name: str, given: Any, declared: Any, default: Any) -> Any:
    """Returns what an option is, by what is given and what the type says of it."""
    if declared is None:
        return default if given is None else given
    if given is not None and given != declared:
        raise ValueError(f"{name}={given!r} is not what {kind} says")
    return declared if given is None else given


def options_for(dtype: DTypeLike, *, bits: Optional[int] = None, block: int = 32, interval: int = 128,
                is_signed: Optional[bool] = None, msb: Optional[bool] = None, three: Optional[bool] = None,
                preprocess: bool = True, pad: bool = False, any_block: bool = False, **others: NoReturn) -> Options:
    """Returns the options for arrays of a type, which may be u1, u2, u4, i1, i2, i4 in either order of bytes, or V3.

    The type gives sign, width and order of the samples, and their bits where these aren't fewer. Samples of three bytes are V3, whose sign
    and order have to be declared, or with `three` the bytes of arrays of u1.

    Raises a TypeError where the type has no samples or there is no such option, a ValueError where an option is not what the type says or
    no number can be, and a RiceError where one is out of its range.

    >>> options_for(">i2", bits=12)
    Options(bits=12, block=32, interval=128, is_signed=True, msb=True, three=False, preprocess=True, pad=False, any_block=False)
    >>> options_for("V3", is_signed=True).bits
    24
    >>> options_for("u1", bits=12)
    Traceback (most recent call last):
    ...
    ValueError: samples of 12 bits take 2 bytes, and uint8 has 1
    >>> options_for("f4")
    Traceback (most recent call last):
    ...
    TypeError: float32 has no samples of one to four bytes: scale and round the values, and take .astype("i4"), for example
    >>> options_for("u2", level=9)
    Traceback (most recent call last):
    ...
    TypeError: there is no option level; there are bits, block, interval, is_signed, msb, three, preprocess, pad and any_block
    """
    if others:
        *names, last = Keywords.__annotations__
        raise TypeError(f"there is no option {', '.join(others)}; there are {', '.join(names)} and {last}")
    kind = numpy.dtype(dtype)
    form = _form(kind, three)
    options = Options(
        bits=8 * form.width if bits is None else bits,
        block=block,
        interval=interval,
        is_signed=_agreed(kind, "is_signed", is_signed, form.is_signed, False),
        msb=_agreed(kind, "msb", msb, form.msb, False),
        three=_agreed(kind, "three", three, form.width == 3, False),
        preprocess=preprocess,
        pad=pad,
        any_block=any_block,
    )
    if options.width != form.width:
        raise ValueError(f"samples of {options.bits} bits take {options.width} bytes, and {kind} has {form.width}")
    return options
