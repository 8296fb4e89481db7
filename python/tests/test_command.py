"""What the package writes and reads is what the command does."""
import itertools
import os
import subprocess
import tempfile
import unittest

import numpy

import rice121

AEC = os.environ["AEC"]
TYPES = ["u1", "i1", "<u2", ">u2", "<i2", ">i2", "<u4", ">u4", "<i4", ">i4", "V3"]
BLOCKS = [8, 16, 32, 64]


def flags_of(options):
    """The command's options."""
    words = ["-n", str(options.bits), "-j", str(options.block), "-r", str(options.interval)]
    words += ["-s"] * options.is_signed + ["-m"] * options.msb + ["-3"] * options.three
    return words + ["-p"] * options.pad + ["-N"] * (not options.preprocess)


def run(words, data):
    with tempfile.TemporaryFile() as source:
        source.write(data)
        source.seek(0)
        return subprocess.run([AEC, *words, "-", "-"], stdin=source, capture_output=True, check=True).stdout


def samples_of(options, dtype, count):
    """Samples that wander, with runs of equal ones, over all values that so many bits have."""
    generator = numpy.random.default_rng(count + options.bits)
    steps = generator.integers(-3, 4, count) * (generator.random(count) < 0.5) * 2 ** generator.integers(0, options.bits, count)
    steps[count // 3 : count // 2] = 0
    values = steps.cumsum() % 2**options.bits
    if options.is_signed:
        values -= 2 ** (options.bits - 1)
    if options.width != 3:
        return values.astype(dtype)
    order = "big" if options.msb else "little"
    octets = b"".join(int(value).to_bytes(3, order, signed=options.is_signed) for value in values)
    return numpy.frombuffer(octets, "V3")


def choices():
    """Each type with options that it has."""
    for dtype, block in itertools.product(TYPES, BLOCKS):
        width = numpy.dtype(dtype).itemsize
        declared = [{"is_signed": sign, "msb": msb} for sign in (False, True) for msb in (False, True)] if dtype == "V3" else [{}]
        for more, bits, interval in itertools.product(declared, {8 * width, 8 * width - 7, 8 * width - 3}, (1, 128)):
            yield dtype, {"bits": bits, "block": block, "interval": interval, **more}


class Command(unittest.TestCase):
    def test_all_types_orders_and_blocks(self):
        for dtype, words in choices():
            with self.subTest(dtype=dtype, **words):
                options = rice121.options_for(dtype, **words)
                samples = samples_of(options, dtype, 3 * options.block * options.interval // 2 + 5)
                code = rice121.encode(samples, **words)
                self.assertEqual(code, run(flags_of(options), samples.tobytes()))
                self.assertEqual(rice121.decode(code, samples.size, dtype, **words).tobytes(), samples.tobytes())
                self.assertEqual(rice121.decode_all(code, dtype, **words).tobytes(), run(["-d", *flags_of(options)], code))

    def test_padding_and_no_prediction(self):
        for pad, preprocess in itertools.product((False, True), repeat=2):
            words = {"bits": 10, "pad": pad, "preprocess": preprocess, "interval": 2}
            options = rice121.options_for("<u2", **words)
            samples = samples_of(options, "<u2", 1000)
            self.assertEqual(rice121.encode(samples, **words), run(flags_of(options), samples.tobytes()))

    def test_layouts(self):
        field = samples_of(rice121.options_for("<u2", bits=12), "<u2", 6000).reshape(20, 30, 10)
        layouts = [field, field.T, field[::2], field[:, ::-1], field[..., 3], field[1:2], field[:0], numpy.asfortranarray(field), field[3, 4, 5]]
        readonly = field.copy()
        readonly.flags.writeable = False
        for samples in (*layouts, readonly, readonly.T):
            plain = numpy.ascontiguousarray(samples)
            code = rice121.encode(samples, bits=12)
            self.assertEqual(code, run(flags_of(rice121.options_for("<u2", bits=12)), plain.tobytes()))
            out = numpy.zeros_like(samples)
            self.assertIs(rice121.decode(code, out.size, "<u2", out=out, bits=12), out)
            self.assertTrue((out == samples).all())

    def test_three_bytes_as_rows(self):
        rows = numpy.arange(300, dtype="u1").reshape(100, 3)
        code = rice121.encode(rows, three=True, msb=True)
        self.assertEqual(code, rice121.encode(rows.reshape(-1).view("V3"), msb=True))
        self.assertTrue((rice121.decode(code, 100, "u1", three=True, msb=True) == rows).all())
        self.assertEqual(rice121.decode_all(code, "u1", three=True, msb=True)[:100].tobytes(), rows.tobytes())

    def test_whatever_has_bytes(self):
        code = rice121.encode(b"abcdabcd")
        for data in (bytearray(b"abcdabcd"), memoryview(b"abcdabcd"), memoryview(b"a-b-c-d-a-b-c-d-")[::2]):
            self.assertEqual(rice121.encode(data), code)
        for data in (bytearray(code), memoryview(code), memoryview(bytes(x for y in code for x in (y, 0)))[::2], numpy.frombuffer(code, "u1")):
            self.assertEqual(rice121.decode(data, 8, "u1").tobytes(), b"abcdabcd")
        self.assertEqual(rice121.encode(numpy.zeros((0, 3), "i4")), b"")
        self.assertEqual(rice121.encode(b""), b"")
        self.assertEqual(rice121.decode(b"", 0, "u1").size, 0)

    def test_any_block(self):
        samples = samples_of(rice121.options_for("<u2"), "<u2", 10000)
        for block in range(2, 65, 2):
            code = rice121.encode(samples, block=block, any_block=True)
            self.assertTrue((rice121.decode(code, samples.size, "<u2", block=block, any_block=True) == samples).all(), block)
            if block in BLOCKS:
                self.assertEqual(code, rice121.encode(samples, block=block))


if __name__ == "__main__":
    unittest.main()
