#!/usr/bin/env python3
"""Compresses a file with several block sizes, intervals and bits per sample, and compares sizes and speeds.

Prints a table, the shortest code first, and draws a picture. As bits per sample it tries the fewest that hold all samples, and as many
as their bytes have. Speeds are by CPU time, the best of some runs.

usage: choose.py PROGRAM FILE PICTURE.svg BYTES_PER_SAMPLE [OPTION]...
"""
import math
import os
import resource
import subprocess
import sys
import tempfile

from start import usage

BLOCKS = [8, 16, 32, 64]
INTERVALS = [2, 128, 4096]
RUNS = 9
LEAST, MOST = {1: (1, 8), 2: (9, 16), 3: (17, 24), 4: (17, 32)}, {1: 8, 2: 16, 3: 24, 4: 32}


def takes(bits):
    """Whether all samples have so many bits."""
    command = [PROGRAM, "-n", str(bits), *OPTIONS, FILE, os.devnull]
    return subprocess.run(command, stderr=subprocess.DEVNULL).returncode == 0


def speed(command):
    """Bytes of samples for each second of CPU time."""
    best = math.inf
    for _ in range(RUNS):
        before = resource.getrusage(resource.RUSAGE_CHILDREN)
        subprocess.run(command, check=True)
        after = resource.getrusage(resource.RUSAGE_CHILDREN)
        best = min(best, after.ru_utime + after.ru_stime - before.ru_utime - before.ru_stime)
    return SIZE / best


def trial(bits, block, interval, code):
    """The options of one trial, the size of its code, and the speeds both ways."""
    words = ["-n", str(bits), "-j", str(block), "-r", str(interval)]
    forth = speed([PROGRAM, *words, *OPTIONS, FILE, code])
    count = str(SIZE // WIDTH)
    back = speed([PROGRAM, "-d", *words, *OPTIONS, "--samples", count, code, os.devnull])
    return words, block, os.path.getsize(code), forth, back


def draw(trials, size, path):
    """A picture: a panel for each interval, and in it a mark for each trial, its size from left to right and its speed from below. The shape
    of a mark is the bits per sample, and the number beside it the block size."""
    import matplotlib

    matplotlib.use("svg")
    from matplotlib import pyplot

    pyplot.rcParams.update({"svg.fonttype": "none", "svg.hashsalt": "aec", "font.family": "sans-serif", "font.size": 9})
    figure, panels = pyplot.subplots(1, len(INTERVALS), figsize=(9, 3.6), sharex=True, sharey=True, layout="constrained")
    every = sorted({int(words[1]) for words, *_ in trials})
    for panel, interval in zip(panels, INTERVALS):
        for words, block, length, forth, _ in trials:
            if words[5] == str(interval):
                first = words[1] == str(every[0])
                place, fill = (100 * length / size, forth / 1e6), "white" if first else "black"
                panel.plot(*place, "o" if first else "s", color="black", markerfacecolor=fill)
                panel.annotate(str(block), place, xytext=(6, 4), textcoords="offset points")
        panel.set_title(f"-r {interval}")
        panel.grid(color="#ddd")
        panel.margins(0.12)
    panels[0].set_ylabel("compression, MB/s")
    panels[0].set_ylim(bottom=0)
    panels[1].set_xlabel("size of the code, in percent of the samples")
    kinds = (("o", "white"), ("s", "black"))
    marks = [pyplot.Line2D([], [], marker=mark, linestyle="", color="black", markerfacecolor=fill) for mark, fill in kinds]
    panels[0].legend(marks[: len(every)], [f"-n {bits}" for bits in every], loc="lower left", title="beside a mark: -j")
    figure.savefig(path, format="svg", metadata={"Date": None, "Creator": None})
    pyplot.close(figure)


def main():
    least, most = LEAST[WIDTH]
    fewest = next((bits for bits in range(least, most + 1) if takes(bits)), most)
    with tempfile.TemporaryDirectory() as folder:
        code = os.path.join(folder, "code")
        choices = [(n, j, r) for n in sorted({fewest, MOST[WIDTH]}) for j in BLOCKS for r in INTERVALS]
        trials = sorted((trial(*choice, code) for choice in choices), key=lambda each: each[2])
    print(f"{'options':24} {'bytes':>9} {'size':>7} {'compress':>12} {'decompress':>12}")
    for words, _, size, forth, back in trials:
        speeds = f"{forth / 1e6:7.0f} MB/s {back / 1e6:7.0f} MB/s"
        print(f"{' '.join(words):24} {size:9} {100 * size / SIZE:6.1f}% {speeds}")
    draw(trials, SIZE, PICTURE)


if __name__ == "__main__":
    if sys.argv[4:5] not in (["1"], ["2"], ["3"], ["4"]):
        usage()
    PROGRAM, FILE, PICTURE = sys.argv[1:4]
    WIDTH, OPTIONS = int(sys.argv[4]), sys.argv[5:] + (["-3"] if sys.argv[4] == "3" else [])
    try:
        SIZE = os.path.getsize(FILE)
        if not SIZE:
            sys.exit(f"{FILE}: it is empty")
        main()
    except OSError as error:
        sys.exit(f"{error.filename}: {error.strerror}")
    except subprocess.CalledProcessError as error:
        sys.exit(f"{' '.join(error.cmd)}: status {error.returncode}")
