"""A codec of numcodecs, under the name `rice121`: what is encoded is the number of the samples, in eight bytes, and their code."""
from __future__ import annotations

from typing import Any, Dict, Optional

import numpy
from numcodecs.abc import Codec
from numcodecs.compat import ensure_contiguous_ndarray

from . import _coding
from ._memory import check_array
from ._options import options_for

# The bytes before a code: the number of its samples, least significant first.
_HEAD = 8


def encode_chunk(array: Any, **options: Any) -> bytes:
    """Returns the number of an array's samples, and their code."""
    count: int = array.nbytes // options_for(array.dtype, **options).width
    return count.to_bytes(_HEAD, "little") + _coding.encode(array, **options)


def decode_chunk(chunk: Any, dtype: Any, out: Optional[Any] = None, **options: Any) -> Any:
    """Returns the samples of what `encode_chunk` has returned.

    Raises a ValueError where it is damaged.
    """
    octets = ensure_contiguous_ndarray(chunk).view("u1")
    if octets.size < _HEAD:
        raise ValueError("a chunk ends before its code")
    count = int.from_bytes(octets[:_HEAD].tobytes(), "little")
    return _coding.decode(octets[_HEAD:], count, dtype, out=out, **options)


class RiceCodec(Codec):  # type: ignore[misc]
    """Codes chunks of one type, with the options of `rice121.options_for`.

    >>> codec = RiceCodec("<u2", bits=12)
    >>> chunk = codec.encode(numpy.full(16, 7, "<u2"))
    >>> codec.decode(chunk)
    array([7, 7, 7, 7, 7, 7, 7, 7, 7, 7, 7, 7, 7, 7, 7, 7], dtype=uint16)
    >>> codec.get_config()
    {'id': 'rice121', 'dtype': '<u2', 'bits': 12}
    """

    codec_id = "rice121"

    def __init__(self, dtype: Any, **options: Any) -> None:
        chosen = options_for(dtype, **options)
        self.dtype = numpy.dtype(dtype).str
        self._options = {name: getattr(chosen, name) for name in options}

    def encode(self, buf: Any) -> bytes:
        if isinstance(buf, numpy.ndarray):
            check_array(buf, numpy.dtype(self.dtype))
        samples = ensure_contiguous_ndarray(buf).view("u1")
        if samples.size % numpy.dtype(self.dtype).itemsize:
            raise ValueError(f"{samples.size} bytes are no elements of {self.dtype}")
        return encode_chunk(samples.view(self.dtype), **self._options)

    def decode(self, buf: Any, out: Optional[Any] = None) -> Any:
        if out is not None:
            out = ensure_contiguous_ndarray(out).view("u1").view(self.dtype)
        return decode_chunk(buf, self.dtype, out, **self._options)

    def get_config(self) -> Dict[str, Any]:
        return {"id": self.codec_id, "dtype": self.dtype, **self._options}

    def __repr__(self) -> str:
        options = "".join(f", {name}={value!r}" for name, value in self._options.items())
        return f"RiceCodec({self.dtype!r}{options})"
