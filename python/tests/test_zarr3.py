"""The codec of zarr 3, by arrays of zarr 3 where it is there, and else by buffers that stand in for its own."""
import asyncio
import importlib
import sys
import types
import unittest
from unittest import mock

import numpy

import rice121

try:
    import zarr

    HAS_ZARR3 = int(zarr.__version__.split(".")[0]) >= 3
except ImportError:
    HAS_ZARR3 = False


class Buffer:
    """A buffer of an array or of bytes, with the calls of zarr's that the codec uses."""

    def __init__(self, array):
        self.array = array

    @classmethod
    def from_numpy_array(cls, array):
        return cls(array)

    @classmethod
    def from_bytes(cls, data):
        return cls(numpy.frombuffer(data, "u1"))

    def as_numpy_array(self):
        return self.array

    as_array_like = as_numpy_array


class Zarr3(unittest.TestCase):
    @unittest.skipUnless(HAS_ZARR3, "no zarr 3")
    def test_arrays(self):
        from rice121.zarr3 import RiceSerializer

        values, store = (numpy.arange(3000) % 1000).reshape(30, 100).astype("i2"), zarr.storage.MemoryStore()
        array = zarr.create_array(store, shape=values.shape, chunks=(7, 100), dtype="int16", serializer=RiceSerializer(bits=12), compressors=None)
        array[...] = values
        self.assertTrue((zarr.open_array(store)[...] == values).all())
        self.assertRaises(ValueError, zarr.create_array, zarr.storage.MemoryStore(), shape=8, dtype="int16", serializer=RiceSerializer(bits=8))

    @unittest.skipIf(HAS_ZARR3, "zarr 3 itself is tried")
    def test_chunks(self):
        stand_ins = {name: types.ModuleType(name) for name in ("zarr", "zarr.abc", "zarr.abc.codec")}
        stand_ins["zarr.abc.codec"].ArrayBytesCodec = object
        with mock.patch.dict(sys.modules, stand_ins):
            zarr3 = importlib.import_module("rice121.zarr3")
        codec = zarr3.RiceSerializer.from_dict(zarr3.RiceSerializer(bits=12).to_dict())
        values = (numpy.arange(3000) % 1000).reshape(30, 100).astype(">i2")
        chunk = types.SimpleNamespace(dtype=values.dtype, shape=values.shape, prototype=types.SimpleNamespace(buffer=Buffer, nd_buffer=Buffer))
        coded = asyncio.run(codec._encode_single(Buffer(values), chunk))
        self.assertEqual(coded.array.tobytes(), (3000).to_bytes(8, "little") + rice121.encode(values.astype("<i2"), bits=12))
        back = asyncio.run(codec._decode_single(coded, chunk)).array
        self.assertTrue(back.shape == values.shape and (back == values).all())
        codec.validate(shape=(1,), dtype=numpy.dtype("i2"), chunk_grid=None)
        self.assertRaises(TypeError, codec.validate, shape=(1,), dtype=numpy.dtype("f4"), chunk_grid=None)


if __name__ == "__main__":
    unittest.main()
