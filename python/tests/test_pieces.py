"""Codes that are written and read piece by piece, and from where intervals begin."""
import random
import unittest

import numpy

import rice121
from rice121 import Place, RiceError, Status

SAMPLES = numpy.concatenate([numpy.random.default_rng(1).integers(0, 4000, 9000), numpy.zeros(20000), numpy.arange(777) * 5]).astype("<u2")
CHOICES = [{"block": 8, "interval": 1}, {"block": 16, "interval": 70}, {"block": 64, "interval": 128}, {"block": 32, "interval": 3, "pad": True},
           {"block": 6, "interval": 100, "any_block": True}]


def pieces_of(data, generator, most):
    """The data in pieces of any lengths."""
    at = 0
    while at < len(data):
        size = generator.randrange(most)
        yield data[at : at + size]
        at += size


class Pieces(unittest.TestCase):
    def test_encoding(self):
        for seed, words in enumerate(CHOICES):
            for most in (3, 500, 60000):
                generator = random.Random(seed)
                samples = SAMPLES[:2000] if most == 3 else SAMPLES
                encoder = rice121.Encoder("<u2", **words)
                code = b"".join(encoder.push(piece) for piece in pieces_of(samples, generator, most))
                self.assertEqual(encoder.samples, len(samples))
                self.assertEqual(code + encoder.finish(), rice121.encode(samples, **words))
                self.assertRaises(ValueError, encoder.push, samples)
                self.assertRaises(ValueError, encoder.finish)

    def test_what_waits_is_less_than_a_segment(self):
        encoder = rice121.Encoder("<u2", block=64)
        for piece in pieces_of(SAMPLES, random.Random(1), 9000):
            encoder.push(piece)
            self.assertLess(encoder._waiting.size, 64 * 64 * 2)

    def test_a_fault_leaves_the_encoder(self):
        wrong = SAMPLES[:9000].copy()
        wrong[8000] = 4096
        encoder = rice121.Encoder("<u2", bits=12)
        code = encoder.push(SAMPLES[:1500])
        for call in (encoder.push, encoder.finish):
            with self.assertRaises(RiceError) as raised:
                call(wrong)
            self.assertEqual((raised.exception.status, raised.exception.place), (Status.SAMPLE_OUT_OF_RANGE, 9500))
            self.assertRaises(TypeError, call, SAMPLES.astype(">u2"))
        self.assertEqual(code + encoder.finish(SAMPLES[1500:9000]), rice121.encode(SAMPLES[:9000], bits=12))
        cut = rice121.Encoder("u1", three=True)
        code = cut.push(bytes(9000))
        self.assertRaises(RiceError, cut.finish, bytes(1))
        self.assertEqual(code + cut.finish(), rice121.encode(bytes(9000), three=True))

    def test_decoding(self):
        for seed, words in enumerate(CHOICES):
            code = rice121.encode(SAMPLES, **words)
            everything = rice121.decode_all(code, "<u2", **words)
            for most in (20, 500, 10000):
                generator = random.Random(seed)
                with rice121.Decoder("<u2", **words) as decoder:
                    parts = [decoder.pull(piece) for piece in pieces_of(code, generator, most)]
                self.assertTrue(numpy.array_equal(numpy.concatenate(parts), everything))
                decoder, parts = rice121.Decoder("<u2", **words), []
                for piece in pieces_of(code, generator, most):
                    parts.append(decoder.pull(piece, 0))
                    while len(parts[-1]) or generator.randrange(2):
                        wanted = generator.randrange(most * 100)
                        parts.append(decoder.pull(count=wanted))
                        self.assertLessEqual(len(parts[-1]), wanted)
                        self.assertLess(len(decoder._ahead), words["block"])
                parts.append(decoder.pull())
                decoder.close()
                self.assertEqual(decoder.samples, len(everything))
                self.assertEqual(-(-decoder.bits // 8), len(code))
                self.assertTrue(numpy.array_equal(numpy.concatenate(parts), everything))
                self.assertRaises(ValueError, decoder.pull)

    def test_types(self):
        for dtype in ("u1", "i1", "<u2", ">u2", ">i4", "V3"):
            samples = numpy.arange(240, dtype="u1").view(dtype)
            encoder, decoder = rice121.Encoder(dtype), rice121.Decoder(dtype)
            code = encoder.push(samples[:30]) + encoder.finish(samples[30:])
            parts = [decoder.pull(code[:20]), decoder.pull(code[20:], 7), decoder.pull()]
            self.assertEqual({part.dtype for part in parts}, {samples.dtype})
            self.assertEqual(b"".join(part.tobytes() for part in parts)[:240], samples.tobytes())
        decoder = rice121.Decoder("u1", three=True)
        self.assertEqual([decoder.pull(code, 1).shape, decoder.pull(count=0).shape, decoder.pull(count=2).shape], [(1, 3), (0, 3), (2, 3)])

    def test_codes_that_end(self):
        code = rice121.encode(SAMPLES, bits=12)
        with self.assertRaises(RiceError) as raised:
            with rice121.Decoder("<u2", bits=12) as decoder:
                before = decoder.pull(code[:3000])
        with self.assertRaises(RiceError) as wanted:
            rice121.decode_all(code[:3000], "<u2", bits=12)
        self.assertEqual((raised.exception.status, raised.exception.place), (Status.CODE_ENDS, len(before)))
        self.assertEqual(wanted.exception.place, len(before))
        self.assertIsNone(decoder.close())

    def test_damaged_codes(self):
        code, generator, seen = rice121.encode(SAMPLES[8000:11000], bits=12, block=16), random.Random(3), set()
        for _ in range(300):
            damaged = bytearray(code)
            damaged[generator.randrange(len(code))] ^= 1 << generator.randrange(8)
            try:
                rice121.decode_all(damaged, "<u2", bits=12, block=16)
            except RiceError as error:
                seen.add(error.status)
                if error.status != Status.CODE_ENDS:
                    self.check_damage(bytes(damaged), error)
        self.assertEqual(seen, {Status.CODE_ENDS, Status.RUN_PAST_SEGMENT, Status.RESIDUAL_TOO_LARGE})

    def check_damage(self, code, wanted):
        """A decoder gives what is before the damage, and then says again that it is there."""
        decoder = rice121.Decoder("<u2", bits=12, block=16)
        for piece, partial in ((code, wanted.partial), (b"", wanted.partial[:0])):
            with self.assertRaises(RiceError) as raised:
                decoder.pull(piece)
            self.assertEqual((raised.exception.status, raised.exception.place), (wanted.status, wanted.place))
            self.assertTrue(numpy.array_equal(raised.exception.partial, partial))

    def test_offsets(self):
        for words in CHOICES:
            code = rice121.encode(SAMPLES, **words)
            everything = rice121.decode_all(code, "<u2", **words)
            places, size = rice121.offsets(code, "<u2", **words), words["block"] * words["interval"]
            self.assertEqual([place.samples for place in places], list(range(0, len(everything), size)))
            for place in places[:: max(len(places) // 50, 1)]:
                decoder = rice121.Decoder("<u2", at=place, **words)
                part = decoder.pull(code[place.bits // 8 :], 1000)
                self.assertTrue(numpy.array_equal(part, everything[place.samples : place.samples + 1000]))
            self.assertEqual(rice121.offsets(code + b"\xff" * 99, "<u2", count=size + 1, **words), places[:2])
            self.assertEqual(rice121.offsets(code, "<u2", count=size, **words), places[:1])
        self.assertEqual(rice121.offsets(b"", "u1"), [])
        few = rice121.encode(SAMPLES[:1000], bits=12)
        self.assertRaises(RiceError, rice121.offsets, few + bytes([1] * 99), "<u2", bits=12)
        self.assertEqual(rice121.offsets(few + bytes([1] * 99), "<u2", count=1000, bits=12), [Place(0, 0)])
        self.assertRaises(RiceError, rice121.offsets, few, "<u2", count=1025, bits=12)
        for code in (code[:3001], code[:-2] + b"\0\1"):
            with self.assertRaises(RiceError) as raised:
                rice121.offsets(code, "<u2", **words)
            with self.assertRaises(RiceError) as wanted:
                rice121.decode_all(code, "<u2", **words)
            self.assertEqual((raised.exception.status, raised.exception.place), (wanted.exception.status, wanted.exception.place))

    def test_places_that_can_not_be(self):
        for place in ((2**62 + 1, 0), (0, 2**52 + 1)):
            self.assertRaises(RiceError, rice121.Decoder, "u1", at=Place(*place))
        self.assertRaises(RiceError, rice121.Decoder, "u1", at=Place(0, 3), pad=True)
        for number in (-1, 2**64, None, True, 1.5):
            self.assertRaises(ValueError, rice121.Decoder, "u1", at=Place(number, 0))


if __name__ == "__main__":
    unittest.main()
