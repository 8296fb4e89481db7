#!/usr/bin/python3
"""Runs the recipes of docs/COOKBOOK.md with a program, as users do: in a virtual environment that has the wheel of out/python.

A block of the page that begins with `$ recipes/NAME` shows the output of that script, and of others after it. Times and speeds may differ.
scripts/recipes.txt has more such lines. They run in a folder with the recipes, the program as `./aec`, and the files of
scripts/recipe_files. Each line of the other blocks must be in a file of recipes/. Then it uses each recipe wrongly, and gives archive_check
files with a flipped byte.

usage: recipes.py PROGRAM
"""
import csv
import glob
import os
import re
import shutil
import subprocess
import sys
import tempfile
import time
import venv

import h5py

PAGE, MORE = "docs/COOKBOOK.md", "scripts/recipes.txt"
FOLDER = "recipes"


def blocks_of(page):
    """The lines of each fenced block."""
    with open(page) as file:
        return [block.splitlines() for block in re.findall(r"^```\w+\n(.*?)^```$", file.read(), re.M | re.S)]


def more_runs():
    """The lines of recipes that the page does not show."""
    with open(MORE) as file:
        return [line for line in file.read().splitlines() if not line.startswith("#")]


def plain(lines):
    """Lines without their times and speeds, and with single spaces."""
    return [" ".join(re.sub(r"[\d.]+(?= (?:s|MB/s)\b)", "#", line).split()) for line in lines]


def lines_of_scripts():
    lines = set()
    for name in filter(os.path.isfile, glob.glob(f"{FOLDER}/*")):
        with open(name) as file:
            lines |= {line.strip() for line in file}
    return lines


def runs_of(block):
    """The commands of a block, each with what it prints."""
    found = []
    for line in block:
        if line.startswith("$ "):
            found.append((line[2:], []))
        else:
            found[-1][1].append(line)
    return found


def prepare(folder, program):
    """Fills a folder in which recipes run, and makes it this process's own."""
    shutil.copytree(FOLDER, os.path.join(folder, FOLDER))
    os.symlink(program, os.path.join(folder, "aec"))
    subprocess.run(["scripts/recipe_files", folder], check=True)
    python = os.path.join(folder, "venv", "bin")
    venv.create(os.path.dirname(python), system_site_packages=True, symlinks=True)
    pip = [sys.executable, "-m", "pip", "--python", os.path.join(python, "python")]
    subprocess.run([*pip, "install", "-q", "--no-index", "--no-deps", *glob.glob("out/python/*.whl")], check=True)
    os.environ.pop("RICE_PYTHON", None)
    os.environ.update(PATH=f"{python}:{os.environ['PATH']}", RICE_COMPAT=os.path.abspath("compat/out"))
    os.chdir(folder)


def run(command, shown):
    """Runs a recipe; answers what is wrong."""
    start = time.monotonic()
    done = subprocess.run(["bash", "-c", command], capture_output=True, text=True)
    print(f"recipes: {command}: {time.monotonic() - start:.0f} s", flush=True)
    printed = done.stdout.splitlines()
    if done.returncode != 0:
        return [f"{command}: status {done.returncode}: {done.stderr.strip()}"]
    if plain(printed) != plain(shown):
        return [f"{command} prints otherwise than {PAGE} or {MORE} has it:"] + printed
    return []


def wrong_uses():
    """The recipes that answer wrong use otherwise than by their usage."""
    for recipe in sorted(path for path in glob.glob(f"{FOLDER}/*") if os.path.isfile(path) and os.access(path, os.X_OK)):
        done = subprocess.run([recipe, *"so no recipe is used".split()], capture_output=True, text=True)
        if done.returncode == 0 or "usage: " not in done.stderr or "Traceback" in done.stderr:
            yield f"{recipe}: wrong use has status {done.returncode}: {done.stderr.strip()}"


def read(path):
    with open(path, "rb") as file:
        return file.read()


# Flipped bytes: the kind of place, the byte, the bits of it that are flipped, and whether the format lets one see it. The second byte of a
# code of 16-bit samples lies in its reference sample, which may be any number: it is sound by another code.
def grib_flips(data):
    """Octets of the first message and of its sections, counted from 1, as WMO's manual on codes numbers them."""
    begins, at = {0: 0}, 16
    while data[at : at + 4] != b"7777":
        begins[data[at + 4]] = at
        at += int.from_bytes(data[at : at + 4], "big")
    octet = lambda section, number: begins[section] + number - 1
    return [
        ("magic", octet(0, 1), 1, True),
        ("header: edition", octet(0, 8), 1, True),
        ("header: length of the message", octet(0, 16), 1, True),
        ("header: length of section 3", octet(3, 4), 1, True),
        ("header: number of section 5", octet(5, 5), 1, True),
        ("header: number of values", octet(5, 9), 1, True),
        ("header: bits of a value, above 32", octet(5, 20), 128, True),
        ("header: reference value", octet(5, 15), 1, False),
        ("code: reference sample", octet(7, 7), 1, False),
        ("end", at + 3, 1, True),
    ]


def hdf5_places(path):
    """Where the object header of a dataset of 16-bit pixels is, and its first chunk."""
    with h5py.File(path) as file:
        return h5py.h5o.get_info(file["u2"].id).addr, file["u2"].id.get_chunk_info(0).byte_offset


def hdf5_flips(header, chunk):
    """Bytes of a superblock of version 0 and of an object header of version 1, which have no check sums, and of a chunk."""
    return [
        ("magic", 1, 1, True),
        ("header: version of the superblock", 8, 128, True),
        ("header: size of addresses", 13, 1, True),
        ("header: version of a dataset's header", header, 1, True),
        ("code: number of bytes before it", chunk, 1, True),
        ("code: reference sample", chunk + 5, 1, False),
        ("end: what the superblock has as such", 40, 2, True),
    ]


def netcdf_flips(header, chunk):
    """Bytes of a superblock and of object headers of version 2, each of which has a check sum."""
    return [
        ("magic", 1, 1, True),
        ("header: size of addresses", 9, 1, True),
        ("header: time of a dataset", header + 8, 1, True),
        ("code: number of bytes before it", chunk, 1, True),
        ("code: reference sample", chunk + 5, 1, False),
        ("end: what the superblock has as such", 28, 2, True),
    ]


def fits_flips(data, is_summed):
    """Characters of cards, samples, and what fills blocks, as the FITS standard has them. Check sums cover all of them."""
    extension = data.index(b"XTENSION")
    end = data.index(b"END" + b" " * 77, extension)
    return [
        ("magic", 0, 1, True),
        ("header: keyword of an extension", extension, 1, True),
        ("header: BITPIX, none of the standard's", data.index(b"BITPIX", extension) + 28, 1, True),
        ("header: a comment", data.index(b" / ", extension) + 3, 1, is_summed),
        ("header: END", end, 1, True),
        ("header: blanks after END", end + 90, 1, True),
        ("code: a sample", -(-(end + 80) // 2880) * 2880 + 101, 1, is_summed),
        ("end: zeros that fill the last block", len(data) - 1, 1, True),
    ]


def wrong_flips():
    """The flipped bytes that archive_check doesn't report, where the format lets it, or the other way round."""
    every = {
        "three.grib2": grib_flips(read("three.grib2")),
        "fields.h5": hdf5_flips(*hdf5_places("fields.h5")),
        "fields.nc": netcdf_flips(*hdf5_places("fields.nc")),
        "several.fits": fits_flips(read("several.fits"), False),
        "exposure.fits": fits_flips(read("exposure.fits"), True),
    }
    os.mkdir("flipped")
    wanted = {}
    for name, flips in every.items():
        for number, (place, at, bits, is_seen) in enumerate(flips):
            data, path = bytearray(read(name)), f"flipped/{number}.{name}"
            data[at] ^= bits
            with open(path, "wb") as file:
                file.write(data)
            wanted[path] = is_seen, f"{name}: {place}, byte {at}"
    subprocess.run([f"{FOLDER}/archive_check", "flipped", "flipped.csv"], capture_output=True)
    with open("flipped.csv", newline="") as file:
        reported = {row["file"]: row["message"] for row in csv.DictReader(file)}
    for path, (is_seen, what) in wanted.items():
        print(f"recipes: {what}: {reported.get(path, 'sound, by another code or value')}")
        if (path in reported) != is_seen:
            yield f"{what}: {'is not reported' if is_seen else 'is reported, where the format lets nobody see it'}"


def main():
    program = os.path.abspath(sys.argv[1])
    os.chdir(os.path.join(os.path.dirname(os.path.abspath(__file__)), ".."))
    known, blocks, wrong, count = lines_of_scripts(), [*blocks_of(PAGE), more_runs()], [], 0
    with tempfile.TemporaryDirectory() as folder:
        prepare(folder, program)
        for block in blocks:
            if not block[0].startswith("$ recipes/"):
                wrong += [f"no script has the line: {line}" for line in block if line.strip() and line.strip() not in known]
                continue
            for command, shown in runs_of(block):
                count += 1
                wrong += run(command, shown)
        wrong += [*wrong_uses(), *wrong_flips()]
    for text in wrong:
        print(f"recipes: {text}")
    print(f"recipes: {count} commands, {len(wrong)} wrong")
    sys.exit(len(wrong) > 0)


main()
