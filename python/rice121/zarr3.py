"""A codec of zarr 3, under the name `rice121`: it turns an array of whole numbers into the bytes that `rice121.codec` makes of it.

    zarr.create_array(store, shape=.., chunks=.., dtype="int16", serializer=RiceSerializer(bits=12), compressors=None)
"""
from __future__ import annotations

import dataclasses
from typing import Any, Dict

import numpy
from zarr.abc.codec import ArrayBytesCodec

from ._options import options_for
from .codec import decode_chunk, encode_chunk


@dataclasses.dataclass(frozen=True)
class RiceSerializer(ArrayBytesCodec):  # type: ignore[misc]
    """Codes the chunks of an array of zarr 3, least significant byte first, with the options of `rice121.options_for`."""

    is_fixed_size = False
    options: Dict[str, Any]

    def __init__(self, **options: Any) -> None:
        object.__setattr__(self, "options", options)

    @classmethod
    def from_dict(cls, data: Dict[str, Any]) -> RiceSerializer:
        return cls(**data.get("configuration", {}))

    def to_dict(self) -> Dict[str, Any]:
        return {"name": "rice121", "configuration": dict(self.options)}

    def validate(self, *, shape: Any, dtype: Any, chunk_grid: Any) -> None:
        options_for(_stored(dtype), **self.options)

    async def _decode_single(self, chunk_data: Any, chunk_spec: Any) -> Any:
        samples = decode_chunk(chunk_data.as_array_like(), _stored(chunk_spec.dtype), **self.options)
        return chunk_spec.prototype.nd_buffer.from_numpy_array(samples.reshape(chunk_spec.shape))

    async def _encode_single(self, chunk_data: Any, chunk_spec: Any) -> Any:
        samples = chunk_data.as_numpy_array()
        chunk = encode_chunk(samples.astype(_stored(samples.dtype), copy=False), **self.options)
        return chunk_spec.prototype.buffer.from_bytes(chunk)

    def compute_encoded_size(self, input_byte_length: int, chunk_spec: Any) -> int:
        raise NotImplementedError


def _stored(dtype: Any) -> Any:
    """Returns numpy's type of elements of one of zarr's types, as they are stored."""
    native = dtype.to_native_dtype() if hasattr(dtype, "to_native_dtype") else numpy.dtype(dtype)
    return native.newbyteorder("<")
