"""What is refused, before the library is called and by it."""
import pickle
import unittest

import numpy

import rice121
from rice121 import RiceError, Status
from rice121.codec import RiceCodec

# No number of samples, of bits or of blocks.
NUMBERS = (-1, -(2**63), 2**63, None, True, 1.5, 10**12, "8", numpy.True_, numpy.int64(-1), numpy.float64(5))
SAMPLES = (numpy.arange(10000) % 1021).astype("<u2")
CODE = rice121.encode(SAMPLES)


def samples_back(error):
    return (error.partial == SAMPLES[: len(error.partial)]).all()


class Refusals(unittest.TestCase):
    def test_counts(self):
        for number in NUMBERS:
            for code in (CODE, b""):
                self.assertRaises(ValueError, rice121.decode, code, number, "<u2")
            self.assertRaises(ValueError, rice121.offsets, CODE, "<u2", count=number if number is not None else -1)
            if number not in (None, 10**12):
                self.assertRaises(ValueError, rice121.Decoder("<u2").pull, CODE, number)
                self.assertRaises(ValueError, rice121.decode_all, CODE, "<u2", limit=number if number != 2**63 else -2)
        with self.assertRaisesRegex(ValueError, "1 bytes of code have at most 3648 samples"):
            rice121.decode(bytes(1), 8 * 456 + 1, "u1")
        with self.assertRaises(RiceError) as raised:
            rice121.decode(bytes(1), 8 * 456, "u1")
        self.assertEqual(raised.exception.status, Status.CODE_ENDS)
        self.assertTrue((rice121.decode(CODE, numpy.int64(5), "<u2") == SAMPLES[:5]).all())

    def test_options(self):
        for name in ("bits", "block", "interval"):
            for number in NUMBERS:
                if name != "bits" or number is not None:
                    self.assertRaises(ValueError, rice121.options_for, "u1", **{name: number})
            self.assertRaises(ValueError, rice121.options_for, "u1", **{name: 2**32 + 8})
        for status, words in ((Status.BAD_BITS, {"bits": 0}), (Status.BAD_BITS, {"bits": 33}), (Status.BAD_BLOCK, {"block": 10}),
                              (Status.BAD_BLOCK, {"block": 7, "any_block": True}), (Status.BAD_INTERVAL, {"interval": 0}),
                              (Status.BAD_INTERVAL, {"interval": 4097})):
            with self.assertRaises(RiceError) as raised:
                rice121.encode(SAMPLES, **words)
            self.assertEqual(raised.exception.status, status)
        for name in ("is_signed", "msb", "three", "preprocess", "pad", "any_block"):
            self.assertRaises((TypeError, ValueError), rice121.options_for, "V3", **{name: 1})
        self.assertRaises(TypeError, rice121.options_for, "u1", width=1)

    def test_what_a_type_does_not_say(self):
        for dtype, words in (("<u2", {"msb": True}), (">u2", {"msb": False}), ("<u2", {"is_signed": True}), ("<i4", {"is_signed": False}),
                             ("<u4", {"three": True}), ("i1", {"three": True}), ("V3", {"three": False}), ("u1", {"bits": 9}),
                             ("<u2", {"bits": 8}), ("<u2", {"bits": 17}), ("<u4", {"bits": 16}), ("V3", {"bits": 16}), ("V3", {"bits": 25})):
            with self.subTest(dtype=dtype, **words):
                self.assertRaises(ValueError, rice121.options_for, dtype, **words)
        self.assertEqual(rice121.options_for(">i4", msb=True, is_signed=True, three=False), rice121.options_for(">i4"))

    def test_types(self):
        for dtype, advice in (("f4", "scale"), ("f8", "scale"), ("c8", "scale"), ("u8", "astype"), ("i8", "astype"), ("?", "view"),
                              ("M8[s]", "view"), ("V2", "V3"), ("S3", "V3"), ("O", "V3"), (None, "scale"), ([("a", "u1")], "V3")):
            with self.assertRaisesRegex(TypeError, advice):
                rice121.options_for(dtype)
        self.assertRaises(TypeError, rice121.encode, numpy.zeros(5))
        self.assertRaises(TypeError, rice121.encode, None)
        masked = numpy.ma.masked_equal(SAMPLES, 3)
        for call in (rice121.encode, rice121.Encoder("<u2").push, RiceCodec("<u2").encode):
            with self.assertRaisesRegex(TypeError, "filled"):
                call(masked)
        self.assertRaises(TypeError, rice121.decode, CODE, masked.size, "<u2", out=masked)
        self.assertRaises(TypeError, rice121.decode, "code", 1, "u1")

    def test_out(self):
        readonly = numpy.zeros(10, "<u2")
        readonly.flags.writeable = False
        for out in (numpy.zeros(9, "<u2"), numpy.zeros(11, "<u2"), readonly, readonly[::-1]):
            self.assertRaises(ValueError, rice121.decode, CODE, 10, "<u2", out=out)
        for out in (numpy.zeros(10, ">u2"), numpy.zeros(10, "<i2"), bytearray(20)):
            self.assertRaises(TypeError, rice121.decode, CODE, 10, "<u2", out=out)
        room = numpy.zeros(10000, "<u2")
        room.view("u1")[: len(CODE)] = numpy.frombuffer(CODE, "u1")
        rice121.decode(room.view("u1")[: len(CODE)], 10000, "<u2", out=room)
        self.assertTrue((room == SAMPLES).all())

    def test_errors_tell_status_place_and_what_was_done(self):
        with self.assertRaises(RiceError) as raised:
            rice121.encode(numpy.array([1, 2, 4096], "<u2"), bits=12)
        error = pickle.loads(pickle.dumps(raised.exception))
        self.assertEqual((error.status, error.place, str(error)), (Status.SAMPLE_OUT_OF_RANGE, 2, "sample 2 is out of range"))
        with self.assertRaises(RiceError) as raised:
            rice121.decode(CODE[: len(CODE) // 2], SAMPLES.size, "<u2")
        error = raised.exception
        self.assertEqual((error.status, error.place, error.report.samples), (Status.CODE_ENDS, len(error.partial), len(error.partial)))
        self.assertTrue(len(error.partial) > 4000 and samples_back(error))
        with self.assertRaises(RiceError) as raised:
            rice121.encode(bytes(100), three=True)
        self.assertEqual((raised.exception.status, raised.exception.place), (Status.INPUT_CUT, 33))

    def test_limit(self):
        for code, limit in ((CODE, 9999), (rice121.encode(bytes(10**6)), 1000)):
            dtype = "<u2" if code is CODE else "u1"
            with self.assertRaises(RiceError) as raised:
                rice121.decode_all(code, dtype, limit=limit)
            self.assertEqual((raised.exception.status, len(raised.exception.partial)), (Status.NO_ROOM, limit))
            self.assertEqual(str(raised.exception), f"the code has more than {limit} samples")
        # Their last block is full.
        self.assertEqual(len(rice121.decode_all(CODE, "<u2", limit=10016)), 10016)


if __name__ == "__main__":
    unittest.main()
