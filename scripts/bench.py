#!/usr/bin/env python3
"""Compares ./aec with Debian's aec (package libaec-tools), and the library with libaec, on generated data. All decode what ours has coded.

Prints a table in Markdown: for each row the CPU time of each program (user and system), the least of all runs of some rounds. With valgrind
it adds the instructions for each byte of the samples. With the program of bench_library.c it adds the speeds of both libraries, from memory
to memory. Below are the least and the geometric mean of the ratios, with the means of the rounds.

usage: bench.py [--mispredictions] [--more | --real] [--only TEXT] [--library PROGRAM] OURS THEIRS [MEBIBYTES]
"""
import argparse
import concurrent.futures
import dataclasses
import math
import os
import random
import resource
import shutil
import subprocess
import sys
import tempfile

ROUNDS = 3
RUNS = 9  # of each program in each round
COUNTED = 1 << 20  # bytes of samples that callgrind is given
DIRECTIONS = ("encode", "decode")


def zeros(size, width, generator):
    return bytes(size)


def noise(size, width, generator):
    return generator.randbytes(size)


def shade(i, generator):
    """A point of an image: smooth shades with a little noise, in lines of 1,024."""
    x, y = i % 1024, i // 1024
    value = 128 + 60 * math.sin(x / 37) + 40 * math.sin((x + 3 * y) / 91) + generator.gauss(0, 3)
    return min(255, max(0, int(value)))


def image(size, width, generator):
    return bytes(shade(i, generator) for i in range(size))


def signed_image(size, width, generator):
    return bytes((shade(i, generator) - 128) % 256 for i in range(size))


def walk(size, width, generator):
    """A random walk, which a predictor follows."""
    top = (1 << (8 * width)) - 1
    value = top // 2
    samples = bytearray()
    for _ in range(size // width):
        value = min(top, max(0, value + int(generator.gauss(0, 40))))
        samples += value.to_bytes(width, "little")
    return bytes(samples)


def signed_walk(size, width, generator):
    """The same around zero."""
    half = 1 << (8 * width - 1)
    value = 0
    samples = bytearray()
    for _ in range(size // width):
        value = min(half - 1, max(-half, value + int(generator.gauss(0, 40))))
        samples += value.to_bytes(width, "little", signed=True)
    return bytes(samples)


def waves(size, width, generator):
    """Smooth waves with a little noise."""
    half = 1 << (8 * width - 1)
    samples = bytearray()
    for i in range(size // width):
        value = half + 0.6 * half * math.sin(i / 300) + generator.gauss(0, half / 4000)
        samples += int(value).to_bytes(width, "little")
    return bytes(samples)


def signed_waves(size, width, generator):
    """The same around zero."""
    half = 1 << (8 * width - 1)
    samples = bytearray()
    for i in range(size // width):
        value = 0.6 * half * math.sin(i / 300) + generator.gauss(0, half / 4000)
        samples += int(value).to_bytes(width, "little", signed=True)
    return bytes(samples)


def poisson(mean, generator):
    """A draw of the Poisson distribution, by products of equal chances."""
    count, left = -1, 1.0
    while left > math.exp(-mean):
        left *= generator.random()
        count += 1
    return count


def photons(size, width, generator):
    """Few photons at each place, counted in 16 bits."""
    samples = bytearray()
    for i in range(size // width):
        samples += poisson(0.25 + 0.15 * math.sin(i / 900), generator).to_bytes(width, "little")
    return bytes(samples)


def sparse(size, width, generator):
    """Zeros with a few events."""
    samples = bytearray(size)
    at = 0
    while (at := at + int(generator.expovariate(1 / 500)) + 1) < size:
        samples[at] = min(255, 1 + int(generator.expovariate(1 / 6)))
    return bytes(samples)


def detector(size, width, generator):
    """Frames of a detector of 10 bits: a pedestal, noise of reading, and a few bright places."""
    samples = bytearray()
    for i in range(size // width):
        value = 120 + 30 * math.sin(i % 640 / 101) + generator.gauss(0, 5)
        if generator.random() < 0.002:
            value += generator.expovariate(1 / 300)
        samples += min(1023, max(0, int(value))).to_bytes(width, "little")
    return bytes(samples)


def seismic(size, width, generator):
    """A trace of 24 bits: a resonance that noise drives, with a quake now and then."""
    before, last, drive = 0.0, 0.0, 400.0
    samples = bytearray()
    for i in range(size // width):
        drive = 400.0 + (drive - 400.0) * 0.999
        if generator.random() < 0.00005:
            drive = 60000.0
        before, last = last, 1.9 * last - 0.95 * before + generator.gauss(0, drive)
        value = min((1 << 23) - 1, max(-(1 << 23), int(last)))
        samples += value.to_bytes(width, "little", signed=True)
    return bytes(samples)


def image_of(bits):
    """The image in few shades."""
    return lambda size, width, generator: bytes(shade(i, generator) >> (8 - bits) for i in range(size))


def dark(bits, level, deviation):
    """White noise at a low level."""

    def make(size, width, generator):
        values = (int(level + generator.gauss(0, deviation)) for _ in range(size // width))
        return b"".join(min((1 << bits) - 1, max(0, value)).to_bytes(width, "little") for value in values)

    return make


def smooth(bits, order="little"):
    """Slow waves with a little noise."""

    def make(size, width, generator):
        half = 1 << (bits - 1)
        values = (int(half * (1 + 0.6 * math.sin(i / 300)) + generator.gauss(0, half / 400)) for i in range(size // width))
        return b"".join(value.to_bytes(width, order) for value in values)

    return make


ROWS = [
    ("8-bit zeros", zeros, 1, ["-r", "128"]),
    ("8-bit sparse", sparse, 1, ["-j", "16", "-r", "128"]),
    ("8-bit image", image, 1, []),
    ("8-bit image", image, 1, ["-j", "8", "-r", "128"]),
    ("8-bit image", image, 1, ["-j", "16", "-r", "128"]),
    ("8-bit image", image, 1, ["-j", "64", "-r", "4096"]),
    ("8-bit signed", signed_image, 1, ["-s", "-j", "16", "-r", "128"]),
    ("8-bit noise", noise, 1, ["-j", "16", "-r", "128"]),
    ("10-bit detector", detector, 2, ["-n", "10", "-j", "16", "-r", "128"]),
    ("16-bit photons", photons, 2, ["-n", "16", "-j", "16", "-r", "128"]),
    ("16-bit walk", walk, 2, ["-n", "16", "-j", "16", "-r", "128"]),
    ("16-bit signed", signed_walk, 2, ["-n", "16", "-s", "-j", "16", "-r", "128"]),
    ("24-bit seismic", seismic, 3, ["-n", "24", "-3", "-s"]),
    ("32-bit waves", waves, 4, ["-n", "32", "-j", "32", "-r", "128"]),
    ("32-bit signed", signed_waves, 4, ["-n", "32", "-s", "-j", "64"]),
    ("32-bit noise", noise, 4, ["-n", "32", "-j", "32", "-r", "128"]),
    ("8-bit noise", noise, 1, ["-N"]),
    ("16-bit noise", noise, 2, ["-N", "-n", "16"]),
    ("32-bit noise", noise, 4, ["-N", "-n", "32"]),
]

# Settings and data beside these: few bits, widths between those above, other orders of bytes, intervals and blocks.
MORE = [
    *((f"{n}-bit image", image_of(n), 1, ["-n", str(n), "-j", j, "-r", "64"]) for n in (1, 2, 3, 4) for j in ("8", "16")),
    *((f"{n}-bit image", image_of(n), 1, ["-n", str(n), "-j", j, "-r", "64"]) for n, j in ((5, "16"), (6, "32"), (7, "64"))),
    *(("8-bit image", image, 1, words.split()) for words in ("-r 1", "-j 16 -r 3", "-j 32 -r 64 -p")),
    *((f"8-bit level {level}", dark(8, level, level / 4), 1, ["-j", j, "-r", "64"]) for level in (2, 5, 12) for j in ("8", "16", "64")),
    *((f"{n}-bit level 5", dark(n, 5, 1.2), 2, ["-n", str(n), "-j", "8", "-r", "64"]) for n in (9, 12)),
    *((f"{n}-bit smooth", smooth(n), 2, ["-n", str(n), "-j", j, "-r", "64"]) for n, j in ((9, "8"), (12, "16"), (14, "64"))),
    ("12-bit smooth", smooth(12, "big"), 2, ["-n", "12", "-m", "-j", "32", "-r", "128"]),
    ("16-bit smooth", smooth(15, "big"), 2, ["-n", "16", "-m", "-s", "-j", "16", "-r", "64"]),
    ("20-bit smooth", smooth(20), 4, ["-n", "20", "-j", "16", "-r", "64"]),
    ("32-bit smooth", smooth(32, "big"), 4, ["-n", "32", "-m", "-j", "16", "-r", "64"]),
]


def real_rows():
    """Rows of the real samples that bench_others.py compares, which wants /usr/bin/python3 and the Python package."""
    import bench_others

    rows = []
    for name, kind in bench_others.KINDS.items():
        samples = kind()
        bits, data = bench_others.bits_of(samples), bench_others.copies(samples).tobytes()
        for words in ("-j 8 -r 2", "-j 16 -r 128", "-j 32 -r 128", "-j 64 -r 128"):
            rows.append((f"{bits}-bit {name}", lambda size, width, generator, data=data: data[:size], samples.itemsize, ["-n", str(bits), *words.split()]))
    return rows


@dataclasses.dataclass
class Row:
    """A row of samples with options, in files of a folder, and what is measured of it by direction."""

    name: str
    make: object
    width: int
    options: list
    folder: str
    # For each round the CPU times of both programs in seconds, and where they are measured those of both libraries, and of pulls.
    times: dict = dataclasses.field(default_factory=lambda: {direction: [] for direction in DIRECTIONS})
    # What callgrind counts of both programs.
    counts: dict = dataclasses.field(default_factory=dict)

    @property
    def title(self):
        return f"{self.name}, `{' '.join(self.options)}`" if self.options else f"{self.name}, defaults"

    def path(self, name):
        return os.path.join(self.folder, name)

    def write(self, kind, samples):
        """Writes samples, and their code."""
        with open(self.path(kind), "wb") as file:
            file.write(samples)
        subprocess.run([OPTIONS.ours, *self.options, self.path(kind), self.path(kind + ".code")], check=True)

    def prepare(self):
        """Writes few samples, and none."""
        os.mkdir(self.folder)
        self.write("small", self.make(COUNTED // self.width * self.width, self.width, random.Random(1)))
        self.write("empty", b"")

    def command(self, direction, program, kind, out):
        if direction == "encode":
            return [program, *self.options, self.path(kind), self.path(out)]
        return [program, "-d", *self.options, self.path(kind + ".code"), self.path(out)]

    def time(self, size):
        """Measures the times of a round, over the few samples again and again."""
        with open(self.path("small"), "rb") as file:
            small = file.read()
        self.write("large", (small * -(-size // len(small)))[: size // self.width * self.width])
        libraries = library_times(self.options, self.path("large")) if OPTIONS.library else {}
        for direction in DIRECTIONS:
            programs = cpu_times([self.command(direction, program, "large", "out") for program in (OPTIONS.ours, OPTIONS.theirs)])
            self.times[direction].append(programs + libraries.get(direction, []))
        for name in ("large", "large.code", "out"):
            os.remove(self.path(name))

    def count(self):
        for direction in DIRECTIONS:
            self.counts[direction] = counted(lambda *words: self.command(direction, *words))

    def least(self, direction):
        return [min(times) for times in zip(*self.times[direction])]


def on_one_processor(call):
    """Returns what a call returns that runs on one processor, so that none of its programs is moved to another."""
    processors = os.sched_getaffinity(0)
    os.sched_setaffinity(0, {max(processors)})
    try:
        return call()
    finally:
        os.sched_setaffinity(0, processors)


def cpu_times(commands):
    """The least CPU time of some runs of each command, in seconds. The commands run in turn, so that a busy machine slows all."""
    best = [math.inf] * len(commands)

    def run():
        for _ in range(RUNS):
            for i, command in enumerate(commands):
                before = resource.getrusage(resource.RUSAGE_CHILDREN)
                subprocess.run(command, check=True)
                after = resource.getrusage(resource.RUSAGE_CHILDREN)
                best[i] = min(best[i], after.ru_utime + after.ru_stime - before.ru_utime - before.ru_stime)

    on_one_processor(run)
    return best


def library_times(options, path):
    """The least CPU times of both libraries, by direction, and with decoding that of pulls, in seconds."""
    value = lambda flag, default: options[options.index(flag) + 1] if flag in options else default
    numbers = [value("-n", "8"), value("-j", "8"), value("-r", "2"), *(str(int(it)) for it in ("-N" not in options, "-s" in options, "-3" in options))]
    command = [OPTIONS.library, *numbers, path]
    found = on_one_processor(lambda: subprocess.run(command, check=True, capture_output=True, text=True)).stdout
    times = [float(word) for word in found.split()[:5]]
    return {"encode": times[:2], "decode": times[2:]}


def events(command, mispredictions):
    """How many instructions a command executes, and how many of its jumps a simple predictor misses."""
    with tempfile.NamedTemporaryFile("r") as out:
        grind = ["valgrind", "--tool=callgrind", f"--callgrind-out-file={out.name}"]
        if mispredictions:
            grind.append("--branch-sim=yes")
        subprocess.run(grind + command, check=True, stderr=subprocess.DEVNULL)
        names, counts = [], []
        for line in open(out.name):
            if line.startswith("events:"):
                names = line.split()[1:]
            if line.startswith(("summary:", "totals:")):
                counts = [int(count) for count in line.split()[1:]]
    found = dict(zip(names, counts))
    return [found["Ir"], found.get("Bcm", 0) + found.get("Bim", 0)]


def counted(command_of):
    """The events of each program for each byte of samples, less those for no samples."""
    runs = [(program, kind) for program in (OPTIONS.ours, OPTIONS.theirs) for kind in ("empty", "small")]
    with concurrent.futures.ThreadPoolExecutor(len(os.sched_getaffinity(0))) as pool:
        commands = [command_of(program, kind, f"out{i}") for i, (program, kind) in enumerate(runs)]
        found = list(pool.map(lambda command: events(command, OPTIONS.mispredictions), commands))
    return [[(full - empty) / COUNTED for empty, full in zip(*found[i : i + 2])] for i in (0, 2)]


def line(row, direction, size):
    """A line of the table."""
    programs, libraries = row.least(direction)[:2], row.least(direction)[2:]
    cells = [f"{row.title}, {direction}"] + [f"{seconds:.3f} s ({size / seconds / 1e6:.0f} MB/s)" for seconds in programs]
    counts = row.counts.get(direction)
    for i in range(2 if OPTIONS.mispredictions else 1):
        cells += [f"{count[i]:{('.1f', '.3f')[i]}}" for count in counts] if counts else ["-", "-"]
    speeds = [f"{size / seconds / 1e6:.0f} MB/s" for seconds in libraries]
    if speeds:
        cells += [speeds[0] + (f" ({speeds[2]})" if speeds[2:] else ""), speeds[1]]
    return "| " + " | ".join(cells) + " |"


def mean(ratios):
    return math.exp(sum(map(math.log, ratios)) / len(ratios))


def summary(direction, what, ratios, rounds=()):
    """A line on the ratios of all rows, and on those of each round."""
    spread = f" ({', '.join(f'{mean(it):.2f}' for it in rounds)} by rounds)" if rounds else ""
    return f"- {direction}, {what}: {min(ratios):.2f} at least, {mean(ratios):.2f} in the geometric mean{spread}"


def print_summaries(rows):
    print("\nHow many times as fast as Debian's `aec` and libaec, and how many times fewer instructions than `aec`:\n")
    for direction in DIRECTIONS:
        for what, i in [("CPU time", 0), *([("the library", 2)] if OPTIONS.library else [])]:
            ratios = [least[i + 1] / least[i] for least in (row.least(direction) for row in rows)]
            rounds = [[row.times[direction][j][i + 1] / row.times[direction][j][i] for row in rows] for j in range(ROUNDS)]
            print(summary(direction, what, ratios, rounds))
        if all(row.counts for row in rows):
            print(summary(direction, "instructions", [row.counts[direction][1][0] / row.counts[direction][0][0] for row in rows]))


def main():
    size = OPTIONS.mebibytes << 20
    with tempfile.TemporaryDirectory() as folder:
        found = real_rows() if OPTIONS.real else MORE if OPTIONS.more else ROWS
        rows = [Row(*words, os.path.join(folder, str(i))) for i, words in enumerate(found)]
        rows = [row for row in rows if OPTIONS.only in row.title]
        if not rows:
            sys.exit("bench: no row has that in its title")
        for row in rows:
            row.prepare()
        for number in range(ROUNDS):
            print(f"bench: round {number + 1} of {ROUNDS}", file=sys.stderr)
            for row in rows:
                row.time(size)
        heads = ["data, options", "aec here: CPU time", "Debian's aec: CPU time", "here: instructions a byte", "Debian's"]
        heads += ["here: mispredictions a byte", "Debian's"] * OPTIONS.mispredictions
        heads += ["the library here (in pieces)", "libaec"] if OPTIONS.library else []
        print("| " + " | ".join(heads) + " |\n|" + "---|" * len(heads))
        for row in rows:
            if shutil.which("valgrind"):
                row.count()
            for direction in DIRECTIONS:
                print(line(row, direction, size), flush=True)
    print_summaries(rows)


def options():
    parser = argparse.ArgumentParser(description="Compares two programs aec, and both libraries.")
    parser.add_argument("--mispredictions", action="store_true", help="count the jumps that a simple predictor misses")
    others = parser.add_mutually_exclusive_group()
    others.add_argument("--more", action="store_true", help="measure settings and data that are in no row of the table, by the programs alone")
    others.add_argument("--real", action="store_true", help="measure the real samples of bench_others.py, by the programs alone")
    parser.add_argument("--only", metavar="TEXT", default="", help="measure only the rows whose titles contain TEXT")
    parser.add_argument("--library", metavar="PROGRAM", help="what bench_library.c is compiled to, to measure both libraries")
    parser.add_argument("ours")
    parser.add_argument("theirs")
    parser.add_argument("mebibytes", nargs="?", type=int, default=32)
    words = parser.parse_intermixed_args()
    if words.more or words.real:
        # What bench_library.c is compiled to knows neither the order of bytes nor padding.
        words.library = None
    return words


if __name__ == "__main__":
    OPTIONS = options()
    main()
