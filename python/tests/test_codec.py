"""The codec of numcodecs, and arrays of zarr and datasets of xarray that have it."""
import json
import os
import subprocess
import sys
import tempfile
import unittest

import numpy
from numcodecs.registry import get_codec

from rice121.codec import RiceCodec

CHOICES = [("u1", {}), ("u1", {"bits": 7}), ("<u2", {"bits": 9}), (">u2", {}), ("<i4", {"bits": 17}), (">u4", {}), ("V3", {"is_signed": True}),
           ("<i2", {"block": 64, "interval": 4096, "pad": True})]


def samples_of(dtype):
    if dtype == "V3":
        return numpy.arange(9000, dtype="u1").view("V3").reshape(3, 1000)
    return (numpy.arange(3000) // 29).reshape(3, 1000).astype(dtype)


class Codec(unittest.TestCase):
    def test_chunks(self):
        for dtype, words in CHOICES:
            codec, values = RiceCodec(dtype, **words), samples_of(dtype)
            chunk, back = codec.encode(values), numpy.empty_like(values)
            self.assertEqual(chunk[:8], (3000).to_bytes(8, "little"))
            codec.decode(chunk, back)
            self.assertEqual(back.tobytes(), values.tobytes())
            self.assertEqual(codec.decode(chunk).tobytes(), values.tobytes())
            self.assertEqual(codec.encode(values.tobytes()), chunk)
            self.assertEqual(get_codec(json.loads(json.dumps(codec.get_config()))).encode(values), chunk)
            self.assertEqual(eval(repr(codec)).get_config(), codec.get_config())
            for damaged in (b"", chunk[:7], chunk[:8], chunk[:-8], bytes([255] * 8) + chunk[8:]):
                self.assertRaises(ValueError, codec.decode, damaged)
            self.assertRaises(ValueError, codec.decode, chunk, numpy.empty(2999, dtype))

    def test_refusals(self):
        for dtype, words in (("u2", {"bits": 8}), ("u4", {"bits": 16}), ("u1", {"bits": 9}), ("u1", {"bits": 0}), ("u2", {"bits": -16}),
                             ("u2", {"bits": True}), ("u2", {"block": 10}), ("u2", {"interval": 0})):
            self.assertRaises(ValueError, RiceCodec, dtype, **words)
        for dtype in ("f4", "u8"):
            self.assertRaises(TypeError, RiceCodec, dtype)
        self.assertRaises(ValueError, RiceCodec("u2").encode, bytes(3))
        for dtype in (">u2", "<i2", "u1", "<u4"):
            self.assertRaises(TypeError, RiceCodec("<u2").encode, numpy.zeros(4, dtype))

    def test_a_fresh_process_opens_such_an_array(self):
        try:
            import zarr
        except ImportError:
            self.skipTest("no zarr")
        values = samples_of("<i2")
        with tempfile.TemporaryDirectory() as folder:
            name = os.path.join(folder, "field.zarr")
            words = {"compressor": RiceCodec("<i2", bits=12), "chunks": (2, 300), "dtype": "<i2", "shape": values.shape}
            zarr.open(name, mode="w", **words)[...] = values
            script = "import sys, zarr; sys.stdout.buffer.write(zarr.open(sys.argv[1], mode='r')[...].tobytes())"
            read = subprocess.run([sys.executable, "-c", script, name], capture_output=True, check=True).stdout
        self.assertEqual(read, values.tobytes())


if __name__ == "__main__":
    unittest.main()
