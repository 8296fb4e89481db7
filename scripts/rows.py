#!/usr/bin/env python3
"""Runs the cases of a data file with a program, and compares bytes, messages and statuses. If a shared library is given, it calls that too,
as the program does.

usage: rows.py PROGRAM ROWS [LIBRARY]
"""
import ctypes
import getopt
import os
import re
import subprocess
import sys
import tempfile
from typing import NamedTuple, Optional

FIELDS = ("aec", "in", "was", "out", "file", "prints", "says", "begins", "status", "bits", "steps")
ROOM = 1 << 16  # bytes that the library may write, more than any case has
FLAGS = {"three-bytes": "3", "no-preprocess": "N", "decompress": "d", "big-endian": "m", "pad": "p", "signed": "s"}
NUMBERS = {"block": "j", "bits": "n", "interval": "r"}


class Answer(NamedTuple):
    """What a run gave: standard output, the file out.bin, standard error and the status."""

    output: bytes
    file: Optional[bytes]
    errors: str
    status: int


def parsed_bytes(text):
    """The bytes of hexadecimal digits, where 05*8 and (00 ff)*4 repeat."""
    data = b""
    for group, byte, count in re.findall(r"(?:\(([^)]*)\)|([0-9a-f]{2}))(?:\*(\d+))?", text):
        data += bytes.fromhex(group or byte) * int(count or 1)
    return data


def parsed_words(words):
    """The options of a command line, by their letters, or by names where they have none."""
    long = ["samples=", *FLAGS, *(f"{name}=" for name in NUMBERS)]
    found, _ = getopt.gnu_getopt(words, "3Nb:dj:mn:pr:s", long)
    letters = {**FLAGS, **NUMBERS}
    names = [(name.lstrip("-"), value.lstrip("=")) for name, value in found]
    return {letters.get(name, name): value for name, value in names}


class Case:
    """A case of a data file: its name, and the lines of its fields."""

    def __init__(self, name):
        self.name = name
        self.lines = {field: [] for field in FIELDS}

    def has(self, field):
        return bool(self.lines[field])

    def bytes_of(self, field):
        return b"".join(map(parsed_bytes, self.lines[field]))

    def text_of(self, field):
        return "".join(line + "\n" for line in self.lines[field])

    def numbers(self, field):
        return [int(number) for line in self.lines[field] for number in line.split()]

    @property
    def status(self):
        return sum(self.numbers("status"))

    def wanted(self):
        output = self.bytes_of("out") + self.text_of("prints").encode()
        return Answer(output, self.bytes_of("file") if self.has("file") else None, self.text_of("says"), self.status)

    def wanted_of_files(self):
        """The same where the bytes go to a file, which is not made where the command line is refused."""
        return Answer(b"", None if self.status == 2 else self.bytes_of("out"), self.text_of("says"), self.status)


def read_cases(path):
    """The cases of a data file."""
    cases = []
    with open(path) as lines:
        for line in lines:
            line = line.rstrip("\n")
            if not line or line.startswith("#"):
                continue
            if not line.startswith(" "):
                cases.append(Case(line))
                continue
            field, _, text = line.strip().partition(" ")
            if field not in FIELDS or not cases:
                raise SystemExit(f"{path}: a line that belongs to no case: {line}")
            cases[-1].lines[field].append(text)
    return cases


def sample_width(options):
    """The bytes of a sample."""
    bits = int(options.get("n", 8))
    if "3" in options and 17 <= bits <= 24:
        return 3
    return 1 if bits <= 8 else 2 if bits <= 16 else 4


class Setting(ctypes.Structure):
    """`struct rice_setting`."""

    _fields_ = [(name, ctypes.c_uint32) for name in ("bits", "block", "interval")]
    _fields_ += [(name, ctypes.c_bool) for name in ("is_signed", "msb", "three", "preprocess", "pad", "any_block")]


class Report(ctypes.Structure):
    """`struct rice_report`."""

    _fields_ = [(name, ctypes.c_uint64) for name in ("samples", "bits", "steps", "written", "place")]


class Library:
    """The library for C, which is given options as the command is."""

    TEXTS = {
        1: "bits per sample must be 1 to 32",
        2: "block size must be 8, 16, 32 or 64",
        3: "interval must be 1 to 4096",
        4: "sample {} is out of range",
        5: "input ends inside sample {}",
        6: "code ends after {} samples",
        7: "run at block {} passes its segment",
        8: "residual too large in block {}",
        9: "no room in the output",
        10: "input is too long",
    }

    def __init__(self, path):
        self.calls = ctypes.CDLL(os.path.abspath(path))
        setting, memory, report = ctypes.POINTER(Setting), [ctypes.c_void_p, ctypes.c_size_t], ctypes.POINTER(Report)
        self.calls.rice_encode.argtypes = [setting, *memory, *memory, report]
        self.calls.rice_decode.argtypes = [setting, ctypes.c_uint64, *memory, *memory, report]
        self.calls.rice_decode_all.argtypes = [setting, *memory, *memory, report]

    def setting(self, options):
        numbers = (int(options.get(name, default)) for name, default in (("n", 8), ("j", 8), ("r", 2)))
        return Setting(*numbers, "s" in options, "m" in options, "3" in options, "N" not in options, "p" in options, False)

    def call(self, options, given):
        """Returns what the command would answer, and the report."""
        calls, setting, report = self.calls, self.setting(options), Report()
        samples, code = ctypes.create_string_buffer(given, max(len(given), 1)), ctypes.create_string_buffer(ROOM)
        bytes_and_room = (samples, len(given), code, ROOM, report)
        if "d" not in options:
            status = calls.rice_encode(setting, *bytes_and_room)
        elif "samples" in options:
            status = calls.rice_decode(setting, int(options["samples"]), *bytes_and_room)
        else:
            status = calls.rice_decode_all(setting, *bytes_and_room)
        errors = f"aec: {self.TEXTS[status].format(report.place)}\n" if status else ""
        return Answer(code.raw[: report.written], None, errors, 0 if status == 0 else 2 if status <= 3 else 1), report


class Rows:
    def __init__(self, program, library, folder):
        self.program = os.path.abspath(program)
        self.library = library
        self.folder = folder
        self.runs = 0
        self.failures = 0

    def run(self, words, given, from_file=b"", was=b""):
        """Runs the program where only the file in.bin is, and out.bin if it held something before."""
        self.runs += 1
        source, dest = (os.path.join(self.folder, name) for name in ("in.bin", "out.bin"))
        for path, held in ((source, from_file), (dest, was)):
            if path == source or held:
                with open(path, "wb") as file:
                    file.write(held)
        done = subprocess.run([self.program, *words], input=given, capture_output=True, cwd=self.folder)
        written = None
        if os.path.exists(dest):
            with open(dest, "rb") as file:
                written = file.read()
            os.remove(dest)
        return Answer(done.stdout, written, done.stderr.decode(), done.returncode)

    def compare(self, name, got, wanted, begins=""):
        if begins:
            wanted = wanted._replace(errors=got.errors if got.errors.startswith(begins) else begins)
        if got != wanted:
            self.failures += 1
            print(f"differs: {name}", f"got    {got}"[:1000], f"wanted {wanted}"[:1000], sep="\n  ")

    def check(self, case):
        """Runs each command line of a case."""
        given, begins = case.bytes_of("in"), case.text_of("begins")[:-1]
        for line in case.lines["aec"]:
            words, name = line.split(), f"{case.name}: aec {line}"
            self.compare(name, self.run(words, given, given, case.bytes_of("was")), case.wanted(), begins)
            if words[-2:] != ["-", "-"] or words.count("-") > 2 or case.has("prints"):
                continue
            files = self.run([*words[:-2], "in.bin", "out.bin"], b"", given)
            self.compare(f"{name} (files)", files, case.wanted_of_files(), begins)
            if not begins and "--test" not in words:
                self.check_bytes(name, case, words, given)

    def check_bytes(self, name, case, words, given):
        """Tries a case with the library, and back."""
        options = parsed_words(words)
        if self.library and ("d" in options or "samples" not in options):
            self.check_library(name, case, options, given)
        if "d" not in options and case.status == 0:
            back = self.run(["-d", "--samples", str(len(given) // sample_width(options)), *words], case.bytes_of("out"))
            self.compare(f"{name} (decoded)", back, Answer(given, None, "", 0))

    def check_library(self, name, case, options, given):
        """Tries a case with the library, and the numbers that it reports."""
        self.runs += 1
        answer, report = self.library.call(options, given)
        self.compare(f"{name} (library)", answer, case.wanted())
        samples = len(answer.output if "d" in options else given) // sample_width(options)
        is_whole = "d" in options or case.status == 0
        bits, steps = case.numbers("bits") or [report.bits], case.numbers("steps") or [report.steps]
        counts = bits == [report.bits] and steps[0] <= report.steps <= steps[-1]
        if not counts or (is_whole and report.samples != samples):
            self.failures += 1
            print(f"differs: {name} (library)\n  reports {report.samples} samples, {report.bits} bits, {report.steps} steps")


def main():
    program, path, *library = sys.argv[1:]
    cases = read_cases(path)
    with tempfile.TemporaryDirectory() as folder:
        rows = Rows(program, Library(*library) if library else None, folder)
        for case in cases:
            rows.check(case)
    without = "" if library else ", without the library"
    print(f"rows: {len(cases)} cases, {rows.runs} runs{without}, {rows.failures} differ")
    sys.exit(rows.failures > 0)


if __name__ == "__main__":
    main()
