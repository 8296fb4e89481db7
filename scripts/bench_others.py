#!/usr/bin/python3
"""Compares aec with other compressors on real samples of five kinds, from packages of Debian. Sizes are the same in each run; speeds depend
on this machine and its load.

A size is that of the samples alone. A speed is over 8 MiB of copies of them, each with another constant added, so that no copy repeats
another. (After xz's delta filter they do, so xz with that filter gets no speeds.) It is by CPU time, the best of some runs: for blosc that
of its call, for the others that of the program from file to file, by hyperfine. A second table has samples that bench.py generates, with the sizes of aec and zstd -1 and the speeds of decompression.

usage: bench_others.py PROGRAM [--json FILE]
"""
import filecmp
import gzip
import json
import os
import random
import shlex
import subprocess
import sys
import tempfile
import time

import numpy

from bench import ROWS, cpu_times, mean

COPIES = 8 << 20  # bytes
RUNS = 3
LEAST_TIME = 0.2  # seconds, for which short runs are repeated
SAMPLE_DATA = "/usr/share/matplotlib/mpl-data/sample_data/"
SCIPY = "/usr/lib/python3/dist-packages/scipy/misc/"
ASTROPY = "/usr/lib/python3/dist-packages/astropy/io/fits/tests/data/"
ECCODES = "/usr/share/eccodes/samples/"


def stars():
    """An astronomical frame, of astropy's tests."""
    from astropy.io import fits

    with fits.open(ASTROPY + "comp.fits") as file:
        return numpy.asarray(file[1].data, "<u2")


def temperature():
    """The temperature of the ground on the globe, of ecCodes' samples, as their GRIB2 message has it."""
    sys.path.insert(0, os.path.join(os.path.dirname(os.path.abspath(__file__)), "../recipes"))
    import grib

    (_, field), = grib.parts(grib.read(ECCODES + "gg_sfc_grib2.tmpl"))
    return grib.numbers_of(field).astype("<u2").reshape(-1, 80)


def heights():
    """Heights of the ground in metres, of matplotlib's samples."""
    return numpy.load(SAMPLE_DATA + "jacksboro_fault_dem.npz")["elevation"].astype("<u2")


def heart():
    """An electrocardiogram, of scipy's samples."""
    return numpy.load(SCIPY + "ecg.dat")["ecg"].astype("<u2").reshape(-1, 360)


def photograph():
    """A photograph in shades of grey, of scipy's samples."""
    import bz2

    with open(SCIPY + "face.dat", "rb") as file:
        shades = numpy.frombuffer(bz2.decompress(file.read()), "u1").reshape(768, 1024, 3)
    return (shades @ numpy.array([0.299, 0.587, 0.114])).astype("u1")


KINDS = {"star field": stars, "ground temperature": temperature, "heights": heights, "electrocardiogram": heart, "photograph": photograph}


def bits_of(samples):
    return int(samples.max()).bit_length()


def copies(samples):
    """Copies with constants added. Their bits are those of the samples."""
    number = -(-COPIES // samples.nbytes)
    most = 1 << bits_of(samples)
    return numpy.concatenate([((samples.astype("u4") + 37 * i) % most).astype(samples.dtype) for i in range(number)])


def write_fits(path, samples):
    from astropy.io import fits

    fits.PrimaryHDU(samples.astype("u1" if samples.itemsize == 1 else "u2")).writeto(path, overwrite=True)


class Files:
    """Samples as the programs want them: raw, and as FITS, of which fpack makes another file."""

    def __init__(self, folder, samples):
        self.samples, self.bits = samples, bits_of(samples)
        self.raw, self.packed, self.back, self.fits = (os.path.join(folder, name) for name in ("raw", "packed", "back", "raw.fits"))
        samples.tofile(self.raw)
        write_fits(self.fits, samples)

    def options(self):
        return ["-n", str(self.bits), "-j", "32", "-r", "128"]


def plain(*words):
    """A program from file to file, by its standard input and output."""
    def forth_and_back(files):
        return [*words, "-c", files.raw], [words[0], "-d", "-c", files.packed], True
    return forth_and_back


def xz_with_delta(files):
    """xz over differences of bytes, each from the byte at its place in the sample before."""
    return ["xz", f"--delta=dist={files.samples.itemsize}", "--lzma2=preset=6", "-c", files.raw], ["xz", "-d", "-c", files.packed], True


def aec(program):
    def forth_and_back(files):
        return [program, *files.options(), files.raw, files.packed], [program, "-d", *files.options(), files.packed, files.back], False
    return forth_and_back


def fpack(files):
    return ["fpack", "-S", files.fits], ["funpack", "-S", files.packed], True


def tools(program):
    return {"aec": aec(program), "libaec's aec": aec("/usr/bin/aec"), "fpack": fpack, "blosc -9, bitshuffle and zstd": None,
            "zstd -1": plain("zstd", "-q", "-1"), "zstd -19": plain("zstd", "-q", "-19"), "lz4": plain("lz4", "-q"),
            "bzip2": plain("bzip2"), "xz": plain("xz"), "xz, delta filter": xz_with_delta}


def run(words, to_standard, dest):
    """Runs a program once by hyperfine; answers its CPU time."""
    output = ["--output", dest if to_standard else "null"]
    with tempfile.NamedTemporaryFile("r", suffix=".json") as file:
        clock = ["hyperfine", "--shell=none", "--style=none", "--runs=1", f"--export-json={file.name}", *output]
        subprocess.run([*clock, shlex.join(words)], check=True, capture_output=True)
        found, = json.load(file)["results"]
    return found["user"] + found["system"]


def best(call):
    """The least time of some calls, of which short ones are more."""
    times = []
    while len(times) < RUNS or sum(times) < LEAST_TIME:
        times.append(call())
    return min(times)


def by_blosc(files, is_timed):
    import blosc

    blosc.set_nthreads(1)
    data = files.samples.tobytes()
    # (blosc cuts what is given into blocks by itself)
    pack = lambda: blosc.compress(data, files.samples.itemsize, clevel=9, shuffle=blosc.BITSHUFFLE, cname="zstd")
    code = pack()
    assert blosc.decompress(code) == data

    def seconds(call):
        start = time.process_time()
        call()
        return time.process_time() - start
    return len(code), *((best(lambda: seconds(pack)), best(lambda: seconds(lambda: blosc.decompress(code)))) if is_timed else (0, 0))


def measured(tool, files, is_timed):
    """The size, and the times there and back."""
    if tool is None:
        return by_blosc(files, is_timed)
    forth, back, to_standard = tool(files)
    if os.path.exists(files.packed):
        os.remove(files.packed)
    run(forth, to_standard, files.packed)
    size = os.path.getsize(files.packed)
    run(back, to_standard, files.back)
    check(tool, files)
    if not is_timed:
        return size, 0, 0
    return size, best(lambda: run(forth, to_standard, files.packed)), best(lambda: run(back, to_standard, files.back))


def check(tool, files):
    """That the samples come back: the raw file, or with more samples that fill a block; or the image."""
    with open(files.back, "rb") as back, open(files.raw, "rb") as raw:
        if tool is not fpack:
            data = raw.read()
            assert back.read(len(data)) == data
            return
    from astropy.io import fits

    assert numpy.array_equal(fits.getdata(files.back), files.samples)


def rows(program):
    """For each tool the sizes of the kinds, and the speeds there and back over all of them."""
    found = {name: {"sizes": {}, "forth": {}, "back": {}} for name in tools(program)}
    sizes = {}
    with tempfile.TemporaryDirectory() as folder:
        for kind, make in KINDS.items():
            samples = make()
            sizes[kind] = samples.nbytes
            for name, tool in tools(program).items():
                found[name]["sizes"][kind] = measured(tool, Files(folder, samples), False)[0]
            many = Files(folder, copies(samples))
            for name, tool in tools(program).items():
                if tool is xz_with_delta:
                    continue
                _, forth, back = measured(tool, many, True)
                found[name]["forth"][kind], found[name]["back"][kind] = (many.samples.nbytes / 1e6 / each for each in (forth, back))
    return sizes, found


GENERATED = ("8-bit image", "10-bit detector", "16-bit walk")


def print_generated(program):
    """Both decompress in turn, on one processor."""
    print("| 8 MiB, options | aec: bytes | zstd -1: bytes | aec: decompress, MB/s | zstd -1: decompress, MB/s |")
    print("|---|---|---|---|---|")
    with tempfile.TemporaryDirectory() as folder:
        raw, code, other, back, other_back = (os.path.join(folder, name) for name in ("raw", "code", "raw.zst", "back", "zst.back"))
        for name, make, width, options in ROWS:
            if name not in GENERATED or options[-4:] != ["-j", "16", "-r", "128"]:
                continue
            with open(raw, "wb") as file:
                file.write(make(COPIES, width, random.Random(1)))
            for command in ([program, *options, raw, code], ["zstd", "-q", "-1", "-f", raw, "-o", other]):
                subprocess.run(command, check=True)
            commands = [program, "-d", *options, code, back], ["zstd", "-q", "-d", "-f", other, "-o", other_back]
            times = [min(it) for it in zip(*(cpu_times(commands) for _ in range(RUNS)))]
            assert all(filecmp.cmp(raw, it, shallow=False) for it in (back, other_back))
            cells = [str(os.path.getsize(it)) for it in (code, other)] + [f"{COPIES / 1e6 / it:.0f}" for it in times]
            print(f"| {name}, `{' '.join(options)}` | {' | '.join(cells)} |", flush=True)


def main():
    program = os.path.abspath(sys.argv[1])
    with open("/proc/cpuinfo") as file:
        model = next(line.partition(": ")[2].strip() for line in file if line.startswith("model name"))
    print(f"Machine: {model}, load {os.getloadavg()[0]:.1f} of {os.cpu_count()} processors at the beginning")
    sizes, found = rows(program)
    print()
    print("| bytes of | " + " | ".join(KINDS) + " | compress, MB/s | decompress, MB/s |")
    print("|---|" + "---|" * (len(KINDS) + 2))
    print("| the samples | " + " | ".join(str(sizes[kind]) for kind in KINDS) + " | | |")
    for name, row in found.items():
        speeds = [f"{mean(row[way].values()):.0f}" if row[way] else "" for way in ("forth", "back")]
        print(f"| {name} | " + " | ".join(str(row["sizes"][kind]) for kind in KINDS) + f" | {' | '.join(speeds)} |", flush=True)
    print()
    print_generated(program)
    if "--json" in sys.argv:
        with open(sys.argv[sys.argv.index("--json") + 1], "w") as file:
            json.dump({"samples": sizes, "tools": found}, file, indent=1)
            file.write("\n")


if __name__ == "__main__":
    main()
