#!/usr/bin/env python3
"""Tries the vectors of the folder vectors/ with a program and, if libaec's reads them, with that too; or writes that folder.

Expected bytes have three origins. The list of the vectors names that of each:
  rows     scripts/rows.txt, whose bytes were worked out by hand or by another coder
  model    scripts/any_block.txt: the program's code has the length and the hash that another coder of the same definitions gave
  libaec   the code is the program's own, as long as libaec's, and libaec's decoder returns the samples

usage: vectors.py PROGRAM [THEIRS]           try them
       vectors.py --write PROGRAM THEIRS     write them
"""
import importlib.util
import os
import random
import re
import shutil
import subprocess
import sys
import tempfile
from typing import NamedTuple, Optional

FOLDER, LIST = "vectors", "list.tsv"
HEAD = "name\tdoes\toptions\tcount\tends\tlibaec\tfrom\n"
LONGEST = 4096  # bytes of the rows that become vectors


class Vector(NamedTuple):
    """A vector: `does` is encode, decode or both, `ends` done or the message, `libaec` what its program does."""

    name: str
    does: str
    options: str
    count: str
    ends: str
    libaec: str
    source: str

    def path(self, kind):
        return os.path.join(FOLDER, f"{self.name}.{kind}")

    def words(self):
        return [] if self.options == "-" else self.options.split()


def read(path):
    with open(path, "rb") as file:
        return file.read()


def write(path, data):
    with open(path, "wb") as file:
        file.write(data)


def run(program, words, source):
    """What a program makes of a file, and what it says."""
    with tempfile.TemporaryDirectory() as folder:
        dest = os.path.join(folder, "out")
        done = subprocess.run([program, *words, source, dest], capture_output=True, text=True)
        return read(dest) if os.path.exists(dest) else None, done.stderr.strip().replace("aec: ", "") if done.returncode else "done"


def faults(vector, program):
    """What a program does otherwise than a vector says."""
    if vector.does != "decode":
        if run(program, vector.words(), vector.path("samples")) != (read(vector.path("code")), vector.ends):
            yield "it encodes otherwise"
    if vector.does != "encode":
        count = [] if vector.count == "all" else ["--samples", vector.count]
        if run(program, ["-d", *vector.words(), *count], vector.path("code")) != (read(vector.path("samples")), vector.ends):
            yield "it decodes otherwise"


def taken_by(vector, theirs):
    """What libaec's program does with a vector: it reads the code, or reads it and writes one as long, or neither. What it takes in silence
    isn't asked. (It pads nothing.)"""
    if vector.ends != "done":
        return "-"
    samples, code = read(vector.path("samples")), read(vector.path("code"))
    back, _ = run(theirs, ["-d", *vector.words()], vector.path("code"))
    if (back or b"")[: len(samples)] != samples:
        return "no"
    if vector.does != "both":
        return "reads"
    again, _ = run(theirs, vector.words(), vector.path("samples"))
    return "both" if len(again or b"") == len(code) else "reads"


def script(name):
    """Another script of this folder, as a module."""
    found = importlib.util.spec_from_file_location(name, os.path.join("scripts", f"{name}.py"))
    module = importlib.util.module_from_spec(found)
    found.loader.exec_module(module)
    return module


def slug(text):
    return "-".join(re.findall(r"[a-z0-9]+", text.lower()))


def from_rows():
    """The cases of scripts/rows.txt in which samples or a code are given."""
    rows = script("rows")
    for case in rows.read_cases("scripts/rows.txt"):
        line, given, wanted = case.lines["aec"][0], case.bytes_of("in"), case.bytes_of("out")
        plain = case.status < 2 and line.endswith("- -") and not case.has("prints") and not case.has("begins")
        if not plain or max(len(given), len(wanted)) > LONGEST or re.search(r"-b|-- |-Nmn9", line):
            continue
        words, count = line[: -len("- -")].split(), "all"
        if "--samples" in words:
            at = words.index("--samples")
            count, words = words[at + 1], words[:at] + words[at + 2 :]
        decodes = "-d" in words
        options = " ".join(word for word in words if word != "-d") or "-"
        ends = case.text_of("says").strip().replace("aec: ", "") or "done"
        does = "decode" if decodes else "encode" if ends != "done" else "both"
        if does == "both":
            count = str(len(given) // rows.sample_width(rows.parsed_words(words)))
        yield Vector(slug(case.name), does, options, count, ends, "", "rows"), (wanted, given) if decodes else (given, wanted)


def spelled(numbers, width, order):
    return b"".join(number.to_bytes(width, order, signed=number < 0) for number in numbers)


def model_samples(block, bits, state, count=900):
    """The samples of scripts/any_block.c."""
    last, quiet = 0, 0
    for _ in range(count):
        state = (state * 1103515245 + 12345) % 2**32
        if quiet > 0:
            quiet -= 1
        else:
            if (state >> 16) % 50 == 0:
                quiet = (state >> 8 & 0xFFFFFF) % 300
            last = (last + (state >> 20) % 9) % 2**bits if (state >> 28) % 16 else state >> (32 - bits)
        yield last


def hashed(data):
    found = 2166136261
    for byte in data:
        found = (found ^ byte) * 16777619 % 2**32
    return found


def from_model(program):
    """The rows of scripts/any_block.txt whose block sizes are the standard's."""
    with open("scripts/any_block.txt") as file:
        rows = [list(map(int, line.split())) for line in file if not line.startswith("#")]
    for i, (block, bits, interval, preprocess, pad, length, hash_) in enumerate(rows):
        if block not in (8, 16, 32, 64):
            continue
        width = 1 if bits <= 8 else 2 if bits <= 16 else 4
        samples = spelled(model_samples(block, bits, 10 * block + i % 5), width, "little")
        words = ["-n", str(bits), "-j", str(block), "-r", str(interval)] + ["-N"] * (not preprocess) + ["-p"] * pad
        code = encoded(program, words, samples)
        if (len(code), hashed(code)) != (length, hash_):
            raise SystemExit(f"vectors: another code than the model's: {' '.join(words)}")
        yield Vector("model" + "".join(words), "both", " ".join(words), "900", "done", "", "model"), (samples, code)


def encoded(program, words, samples):
    with tempfile.TemporaryDirectory() as folder:
        write(os.path.join(folder, "samples"), samples)
        return run(program, words, os.path.join(folder, "samples"))[0]


def walk(bits, is_signed, count=200):
    """Samples that rest, go slowly, jump, and rest again."""
    generator = random.Random(bits)
    level, low = 1 << bits - 1, -(1 << bits - 1) if is_signed else 0
    for i in range(count):
        reach = [0, 1, 3, 40, 1 << bits, 0, 0, 2][i * 8 // count]
        level = (level + generator.randint(-reach, reach)) % (1 << bits)
        yield level + low


SETTINGS = [
    *(f"-n {bits}" for bits in (1, 2, 3, 4, 5, 6, 7, 8, 9, 12, 16, 17, 24, 25, 32)),
    *(f"-n 12 -j {block} -r {interval}" for block, interval in ((8, 1), (16, 3), (32, 64), (64, 4096))),
    *(f"-n 16 -j 16 -r 128 {flags}" for flags in ("-m", "-s", "-m -s", "-N", "-N -m", "-p", "-p -s")),
    *(f"-n 8 -j 8 -r 1 {flags}" for flags in ("-s", "-N", "-p", "-p -N")),
    *(f"-n {bits} -j 32 -r 2 {flags}" for bits in (20, 24) for flags in ("-3", "-3 -m", "-m")),
    "-n 32 -j 64 -r 2 -s", "-n 32 -j 64 -r 2 -m -N", "-n 24 -3 -s -j 16 -r 5", "-n 12 -s -j 16 -r 5",
]


def from_libaec(program):
    """One code for each option, width and form."""
    rows = script("rows")
    for line in SETTINGS:
        options = rows.parsed_words(line.split())
        numbers = list(walk(int(options["n"]), "s" in options))
        samples = spelled(numbers, rows.sample_width(options), "big" if "m" in options else "little")
        name = "walk" + line.replace(" -", "-").replace(" ", "")
        yield Vector(name, "both", line, str(len(numbers)), "done", "", "libaec"), (samples, encoded(program, line.split(), samples))


def write_all(program, theirs):
    kept = read(os.path.join(FOLDER, "README.md")) if os.path.exists(os.path.join(FOLDER, "README.md")) else b""
    shutil.rmtree(FOLDER, ignore_errors=True)
    os.mkdir(FOLDER)
    write(os.path.join(FOLDER, "README.md"), kept)
    lines, names = [HEAD], set()
    for vector, (samples, code) in [*from_rows(), *from_model(program), *from_libaec(program)]:
        while vector.name in names:
            vector = vector._replace(name=vector.name + "-again")
        names.add(vector.name)
        write(vector.path("samples"), samples)
        write(vector.path("code"), code)
        vector = vector._replace(libaec=taken_by(vector, theirs))
        if vector.source == "libaec" and vector.libaec == "no":
            raise SystemExit(f"vectors: libaec does not confirm {vector.options}")
        lines.append("\t".join(vector) + "\n")
    write(os.path.join(FOLDER, LIST), "".join(lines).encode())


def listed():
    head, *lines = read(os.path.join(FOLDER, LIST)).decode().splitlines()
    return [Vector(*line.split("\t")) for line in lines]


def main():
    words = [word for word in sys.argv[1:] if word != "--write"]
    program, theirs = os.path.abspath(words[0]), words[1] if len(words) > 1 else None
    os.chdir(os.path.join(os.path.dirname(os.path.abspath(__file__)), ".."))
    if "--write" in sys.argv:
        write_all(program, theirs)
    vectors, wrong = listed(), []
    for vector in vectors:
        wrong += [f"{vector.name}: {text}" for text in faults(vector, program)]
        if theirs and taken_by(vector, theirs) != vector.libaec:
            wrong.append(f"{vector.name}: libaec's program does otherwise than the list says")
    files = {os.path.join(FOLDER, name) for name in os.listdir(FOLDER)} - {os.path.join(FOLDER, name) for name in ("README.md", LIST)}
    wrong += [f"{path} belongs to no vector" for path in sorted(files - {v.path(kind) for v in vectors for kind in ("samples", "code")})]
    for text in wrong:
        print(f"vectors: {text}")
    taken = sum(vector.libaec in ("both", "reads") for vector in vectors)
    print(f"vectors: {len(vectors)}{f', of which libaec reads {taken}' if theirs else ''}, {len(wrong)} wrong")
    sys.exit(len(wrong) > 0)


if __name__ == "__main__":
    main()
