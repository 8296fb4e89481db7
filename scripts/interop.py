#!/usr/bin/env python3
"""Exchanges codes between a program and libaec's: each must decode the other's codes, and the codes must be equally long.

Then it shows each known difference once.

usage: interop.py OURS THEIRS
"""
import itertools
import os
import random
import subprocess
import sys
import tempfile
from concurrent.futures import ProcessPoolExecutor

BITS = [1, 4, 7, 8, 10, 12, 16, 17, 20, 24, 32]
BLOCKS = [8, 16, 32, 64]
INTERVALS = [1, 2, 64, 65, 128, 4096]


def width_of(bits, flags):
    if "-3" in flags and 17 <= bits <= 24:
        return 3
    return 1 if bits <= 8 else 2 if bits <= 16 else 4


def samples_of(bits, count, width, order):
    """Samples that stand still, walk slowly and jump, as bytes."""
    generator = random.Random(bits * count)
    level, data = 0, bytearray()
    for i in range(count):
        reach = [0, 1, 0, 3, 40, 1 << bits][i * 12 // count % 6]
        level = (level + generator.randint(-reach, reach)) % (1 << bits)
        data += level.to_bytes(width, order)
    return bytes(data)


def settings():
    """The options of each exchange, with the bits per sample and the block size."""
    for bits, block, interval in itertools.product(BITS, BLOCKS, INTERVALS):
        for msb, bare in itertools.product([[], ["-m"]], [[], ["-N"]]):
            for three in [[], ["-3"]] if 17 <= bits <= 24 else [[]]:
                flags = msb + bare + three
                words = ["-n", str(bits), "-j", str(block), "-r", str(interval), *flags]
                yield words, bits, block
                if bits == 8 * width_of(bits, flags):
                    yield words + ["-s"], bits, block


def code(program, words, data):
    """What a program makes of a file, with its status and message."""
    with open("in", "wb") as file:
        file.write(data)
    with open("out", "wb"):
        pass
    done = subprocess.run([program, *words, "in", "out"], stdout=subprocess.PIPE, stderr=subprocess.STDOUT)
    with open("out", "rb") as file:
        return file.read(), done.returncode, done.stdout.decode().strip()


def exchange(setting):
    """Exchanges one code; answers what is wrong, and whether the codes are the same."""
    words, bits, block = setting
    count = 67 * block + 5  # more than a segment, and a block that is not full
    width = width_of(bits, words)
    data = samples_of(bits, count, width, "big" if "-m" in words else "little")
    ours, theirs = code(OURS, words, data)[0], code(THEIRS, words, data)[0]
    wrong = []
    if len(ours) != len(theirs):
        wrong.append(f"{len(ours)} bytes here, {len(theirs)} there")
    if code(THEIRS, ["-d", *words], ours)[0][: len(data)] != data:
        wrong.append("they do not decode our code")
    if code(OURS, ["-d", "--samples", str(count), *words], theirs)[0] != data:
        wrong.append("we do not decode their code")
    padded = code(OURS, ["-p", *words], data)[0]
    if code(THEIRS, ["-d", "-p", *words], padded)[0][: len(data)] != data:
        wrong.append("they do not decode our code with padded intervals")
    return [f"interop: {text}: {' '.join(words)}" for text in wrong], ours == theirs


# What differs: its name, options, input, what they write, what we write and say, in this order.
DIFFERENCES = [
    (
        "two splits are equally short: they take the other",
        "",
        "181a0012151704090102010201030000",
        "8310270b1ad2963f7cce80",
        "8310270b1ad29402da75c0",
        "",
    ),
    ("signed samples of 4 bits: they want them without their sign", "-n 4 -s", "08*8", "0880", "", "sample 0 is out of range"),
    ("and write them with it, as we do", "-d -n 4 -s", "0880", "f8*8", "f8*8", ""),
    ("without preprocessing they write them without it", "-d -N -n 4 -s", "f1 11*3 00", "08*8", "f8*8", ""),
    ("they pad no interval with -p", "-p -r 1", "05*16", "005802c0", "00580058", ""),
    ("and read intervals that are padded", "-d -p -r 1", "00580058", "05*16", "05*16", ""),
    ("no samples: they write a byte", "", "", "00", "", ""),
    ("a sample that is cut: they drop it", "-n 10", "050005", "000b", "", "input ends inside sample 1"),
    ("a sample with a high bit: they code it", "-n 4", "10", "1080", "", "sample 0 is out of range"),
    ("a code that is cut: they give what there is", "-d", "2009", "00", "", "code ends after 0 samples"),
    ("a run past its segment: they give it", "-d -r 128", "00*9 08", "00*512", "", "run at block 0 passes its segment"),
    ("a value at a reference place: they drop it", "-d", "105780", "05*8", "", "residual too large in block 0"),
    ("a residual too large: they give a sample too large", "-d -n 4", "200001fc", "00 10*7", "", "residual too large in block 0"),
]


def parsed_bytes(text):
    """The bytes of hexadecimal digits, where 05*8 is a byte eight times."""
    return b"".join(bytes.fromhex(part.split("*")[0]) * int((part + "*1").split("*")[1]) for part in text.split())


def differ(difference):
    """Shows a known difference; answers what is wrong with it."""
    name, options, data, theirs, ours, message = difference
    words = options.split()
    they_wrote = code(THEIRS, words, parsed_bytes(data))[0]
    we_wrote, _, we_said = code(OURS, words, parsed_bytes(data))
    print(f"  {name}: {they_wrote[:12].hex(' ') or '-'} there, {we_wrote[:12].hex(' ') or '-'} here{message and ', ' + message}")
    expected = (parsed_bytes(theirs), parsed_bytes(ours), message and "aec: " + message)
    return [] if (they_wrote, we_wrote, we_said) == expected else [f"interop: otherwise than known: {name}"]


def differ_in_streams():
    """Shows that a name - is a stream here and a file there; answers what is wrong with it."""
    data = {"input": b"", "stdout": subprocess.DEVNULL, "stderr": subprocess.DEVNULL}
    theirs, ours = (subprocess.run([program, "-", "-"], **data).returncode for program in (THEIRS, OURS))
    print(f"  the name -: status {theirs} there, where no file has it, {ours} here, where it is a stream")
    return [] if theirs != 0 and ours == 0 else ["interop: otherwise than known: the name -"]


def work_in(folder):
    os.chdir(tempfile.mkdtemp(dir=folder))


def main():
    with tempfile.TemporaryDirectory() as folder:
        with ProcessPoolExecutor(initializer=work_in, initargs=(folder,)) as pool:
            answers = list(pool.map(exchange, settings(), chunksize=16))
        wrong = [text for texts, _ in answers for text in texts]
        print("Known differences:")
        os.chdir(folder)
        wrong += [text for difference in DIFFERENCES for text in differ(difference)]
        wrong += differ_in_streams()
    for text in wrong:
        print(text)
    same = sum(is_same for _, is_same in answers)
    print(f"interop: {len(answers)} settings, {same} codes the same byte for byte, {len(wrong)} wrong")
    sys.exit(len(wrong) > 0)


OURS, THEIRS = (os.path.abspath(path) for path in sys.argv[1:])
if __name__ == "__main__":
    main()
