"""Arrays of any type and shape come back under any options."""
import unittest

import numpy
from hypothesis import given, settings, strategies
from hypothesis.extra import numpy as arrays

import rice121

TYPES = strategies.sampled_from(["u1", "i1", "<u2", ">u2", "<i2", ">i2", "<u4", ">u4", "<i4", ">i4"])
FLAGS = strategies.booleans()


@strategies.composite
def choices(draw):
    """A type, options that it has, and an array of samples of so many bits."""
    kind = numpy.dtype(draw(TYPES))
    bits = draw(strategies.integers({1: 1, 2: 9, 4: 17}[kind.itemsize], 8 * kind.itemsize))
    any_block = draw(FLAGS)
    words = {
        "bits": bits,
        "block": 2 * draw(strategies.integers(1, 32)) if any_block else draw(strategies.sampled_from([8, 16, 32, 64])),
        "interval": draw(strategies.one_of(strategies.integers(1, 9), strategies.integers(1, 4096))),
        "preprocess": draw(FLAGS),
        "pad": draw(FLAGS),
        "any_block": any_block,
    }
    least, most = (-(2 ** (bits - 1)), 2 ** (bits - 1) - 1) if kind.kind == "i" else (0, 2**bits - 1)
    shape = draw(arrays.array_shapes(min_dims=1, max_dims=3, min_side=0, max_side=40))
    return words, draw(arrays.arrays(kind, shape, elements=strategies.integers(least, most)))


class RoundTrips(unittest.TestCase):
    @settings(deadline=None, max_examples=300, derandomize=True, database=None)
    @given(choices(), strategies.integers(0, 5000))
    def test_arrays(self, choice, cut):
        words, samples = choice
        code, flat = rice121.encode(samples, **words), samples.reshape(-1)
        back = rice121.decode(code, samples.size, samples.dtype, **words)
        self.assertTrue(numpy.array_equal(back, flat) and back.dtype == samples.dtype)
        self.assertTrue(numpy.array_equal(rice121.decode_all(code, samples.dtype, **words)[: samples.size], flat))
        encoder = rice121.Encoder(samples.dtype, **words)
        self.assertEqual(encoder.push(flat[:cut]) + encoder.push(flat[cut:]) + encoder.finish(), code)
        for place in rice121.offsets(code, samples.dtype, count=samples.size, **words):
            decoder = rice121.Decoder(samples.dtype, at=place, **words)
            self.assertTrue(numpy.array_equal(decoder.pull(code[place.bits // 8 :], samples.size - place.samples), flat[place.samples :]))

    @settings(deadline=None, max_examples=300, derandomize=True, database=None)
    @given(strategies.binary(max_size=300), strategies.integers(0, 4000), choices())
    def test_any_bytes(self, code, count, choice):
        words, samples = choice
        try:
            back = rice121.decode(code, count, samples.dtype, **words)
        except rice121.RiceError as error:
            back = error.partial
        except ValueError:
            self.assertGreater(count, 8 * 456 * len(code))
            return
        if len(back) == count:
            rice121.encode(back, **words)


if __name__ == "__main__":
    unittest.main()
