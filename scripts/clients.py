#!/usr/bin/python3
"""Runs programs that use libaec on Debian's libaec and on the libraries of compat/. Both read what each writes. Values and sizes must be
equal, and compat's libraries must compress all that Debian's compress.

usage: clients.py FOLDER
"""
import hashlib
import itertools
import os
import subprocess
import sys
import tempfile

THEIRS, OURS = "theirs", "ours"
SIDES = (THEIRS, OURS)
HERE = os.path.dirname(os.path.abspath(__file__))
EVEN = range(2, 33, 2)


class Wrong(Exception):
    pass


def environment(side):
    words = dict(os.environ)
    words.pop("LD_LIBRARY_PATH", None)
    if side == OURS:
        words["LD_LIBRARY_PATH"] = FOLDER
    return words


def run(side, *words):
    """What a program prints, on the libraries of one side."""
    done = subprocess.run([str(word) for word in words], env=environment(side), capture_output=True)
    if done.returncode != 0:
        raise Wrong(f"{' '.join(map(str, words))}, on {side}: status {done.returncode}: {done.stderr.decode()[-300:]}")
    return done.stdout


def python(side, job, *words):
    """What a function of this file prints, in a process of its own."""
    return run(side, sys.executable, os.path.abspath(__file__), "--job", FOLDER if side == OURS else "-", job.__name__, *words)


def must(fact, text):
    if not fact:
        raise Wrong(text)


def same(texts, title):
    must(len(set(texts)) == 1, f"{title}: values differ")


def size(path):
    return os.path.getsize(path)


def content(path):
    with open(path, "rb") as file:
        return file.read()


def check_library(folder):
    """Whether this process has the libaec that it should."""
    with open("/proc/self/maps") as file:
        loaded = {line.split()[-1] for line in file if "libaec.so" in line}
    must(loaded and all((os.path.dirname(path) == folder) == (folder != "-") for path in loaded), f"another libaec: {loaded}")


# GRIB2 by ecCodes from Python


def grib_cases():
    packings = [(32, 128), (16, 64), (8, 1), (64, 4096)]
    return [(kind, bits, *packing) for kind in ("waves", "plateau", "noise") for bits in range(1, 25) for packing in packings]


def grib_field(kind):
    import numpy

    y, x = numpy.mgrid[0:61, 0:90]
    waves = 280 + 20 * numpy.sin(x / 14) * numpy.cos(y / 9)
    noise = ((x * 7919 + y * 104729) % 1009) / 1009
    return {"waves": waves + noise / 10, "plateau": numpy.maximum(waves, 285) + (noise > 0.99), "noise": noise}[kind]


def grib_write(path):
    import eccodes

    with open(path, "wb") as file:
        for kind, bits, block, interval in grib_cases():
            field = grib_field(kind)
            handle = eccodes.codes_grib_new_from_samples("regular_ll_sfc_grib2")
            for key, value in (("Ni", field.shape[1]), ("Nj", field.shape[0]), ("packingType", "grid_ccsds"), ("bitsPerValue", bits),
                               ("ccsdsBlockSize", block), ("ccsdsRsi", interval)):
                eccodes.codes_set(handle, key, value)
            eccodes.codes_set_values(handle, field.ravel())
            eccodes.codes_write(handle, file)
            eccodes.codes_release(handle)


def grib_read(path):
    """Prints of each message its length, its packing, and its values."""
    import eccodes
    import numpy

    with open(path, "rb") as file:
        for kind, bits, block, interval in grib_cases():
            handle = eccodes.codes_grib_new_from_file(file)
            keys = [eccodes.codes_get(handle, key) for key in ("packingType", "bitsPerValue", "ccsdsBlockSize", "ccsdsRsi")]
            must(keys == ["grid_ccsds", bits, block, interval], f"another packing: {keys}")
            values = eccodes.codes_get_values(handle)
            field = grib_field(kind).ravel()
            must(numpy.abs(values - field).max() <= 1.01 * (field.max() - field.min()) / (2**bits - 1) + 1e-5, "values are far")
            print(eccodes.codes_get_message_size(handle), hashlib.sha256(values.tobytes()).hexdigest())


def eccodes_python():
    for side in SIDES:
        python(side, grib_write, f"{side}.grib2")
    printed = {(w, r): python(r, grib_read, f"{w}.grib2") for w, r in itertools.product(SIDES, SIDES)}
    same(printed.values(), "messages")
    return f"{len(grib_cases())} messages of 1 to 24 bits, sizes equal"


def eccodes_tools():
    cases = 0
    python(THEIRS, grib_write, "all.grib2")
    for bits in (8, 12, 16):
        run(THEIRS, "grib_set", "-r", "-s", f"packingType=grid_simple,bitsPerValue={bits}", "-w", "count=70", "all.grib2", "simple.grib2")
        for side in SIDES:
            run(side, "grib_set", "-r", "-s", "packingType=grid_ccsds", "simple.grib2", f"set.{side}")
            run(side, "grib_copy", f"set.{side}", f"copy.{side}")
            must(content(f"copy.{side}") == content(f"set.{side}"), "grib_copy changes a message")
        must(size(f"set.{THEIRS}") == size(f"set.{OURS}"), "grib_set: sizes differ")
        must(b"grid_ccsds" in run(OURS, "grib_get", "-p", "packingType", f"set.{OURS}"), "grib_set packs otherwise")
        for words in (("grib_get_data",), ("grib_get", "-p", "max,min,average,numberOfValues")):
            same([run(r, *words, f"set.{w}") for w, r in itertools.product(SIDES, SIDES)], words[0])
            cases += 4
        for w, r in itertools.product(SIDES, SIDES):
            run(r, "grib_set", "-r", "-s", "packingType=grid_simple", f"set.{w}", "back.grib2")
            run(r, "grib_compare", "-c", "data:n", "simple.grib2", "back.grib2")
            cases += 1
    return f"grib_set, grib_copy, grib_get, grib_get_data, grib_compare: {cases} readings"


# HDF5 from Python

SHAPES = [(24, 64), (10, 50), (9, 33), (500,), (3, 5, 17)]


def types():
    return ["u1", "i1"] + [order + kind for kind in ("u2", "i2", "u4", "i4", "u8", "i8", "f4", "f8") for order in "<>"]


def values_of(kind, shape):
    import numpy

    n = numpy.arange(numpy.prod(shape)).reshape(shape)
    values = numpy.floor(8 + 6 * numpy.sin(n / 50) + (n * 7919 % 4)) - (3 if kind[-2] == "i" else 0)
    values[..., -1] += 100
    return values.astype(kind)


def precise_types():
    """Integers that leave bits of their bytes unused."""
    return [(bits, sign) for bits in range(5, 25) for sign in (False, True)]


def precise(bits, sign):
    import h5py

    kind = getattr(h5py.h5t, f"STD_{'I' if sign else 'U'}{8 if bits <= 8 else 16 if bits <= 16 else 32}LE").copy()
    kind.set_precision(bits)
    return kind


def precise_values(bits, sign):
    import numpy

    n = numpy.arange(2000)
    values = (numpy.sin(n / 50) * 0.45 + 0.5) * (2**bits - 1) - (2 ** (bits - 1) if sign else 0)
    return values.astype(("i" if sign else "u") + str(1 if bits <= 8 else 2 if bits <= 16 else 4))


def hdf5_cases():
    return itertools.product(types(), ("nn", "ec"), EVEN, SHAPES)


def hdf5_write(path):
    import h5py

    with h5py.File(path, "w") as file:
        for case in hdf5_cases():
            kind, coding, block, shape = case
            file.create_dataset(repr(case), data=values_of(kind, shape), chunks=shape, compression="szip", compression_opts=(coding, block))
        for bits, sign in precise_types():
            settings = h5py.h5p.create(h5py.h5p.DATASET_CREATE)
            settings.set_chunk((1000,))
            settings.set_szip(h5py.h5z.SZIP_NN_OPTION_MASK, 8 + bits % 5 * 6)
            space = h5py.h5s.create_simple((2000,))
            data = h5py.h5d.create(file.id, f"{bits} {sign}".encode(), precise(bits, sign), space, settings)
            data.write(space, space, precise_values(bits, sign))


def chunks_of(data):
    return [data.id.get_chunk_info(i) for i in range(data.id.get_num_chunks())]


def hdf5_read(path):
    """Prints of each dataset its chunks, with their filters and sizes."""
    import h5py

    with h5py.File(path) as file:
        for case in hdf5_cases():
            kind, _, _, shape = case
            must(file[repr(case)][...].tobytes() == values_of(kind, shape).tobytes(), f"{case}: other values")
        for bits, sign in precise_types():
            must((file[f"{bits} {sign}"][...] == precise_values(bits, sign)).all(), f"{bits} bits: other values")
        for name in file:
            print(name, *((chunk.filter_mask, chunk.size) for chunk in chunks_of(file[name])))


def h5py_client():
    for side in SIDES:
        python(side, hdf5_write, f"{side}.h5")
    printed = {(w, r): python(r, hdf5_read, f"{w}.h5").decode().splitlines() for w, r in itertools.product(SIDES, SIDES)}
    for ours, theirs in zip(printed[OURS, OURS], printed[THEIRS, THEIRS]):
        must(ours == theirs, f"not the same filter and size: {ours}, {theirs}")
    must(all(lines == printed[OURS, OURS] for lines in printed.values()), "readers differ")
    lines = printed[OURS, OURS]
    plain = sum("(1, " in line for line in lines)
    must(10 * plain < len(lines), "too few chunks are compressed to tell")
    return f"{len(lines)} datasets of {len(types())} types and of 5 to 24 bits, sizes equal, {plain} that neither compresses"


# HDF5 and netCDF by their tools


def hdf5_plain(path):
    import h5py

    with h5py.File(path, "w") as file:
        for kind in ("u1", "<i2", ">u4", "<f4", "<f8"):
            file.create_dataset("x" + kind[-2:], data=values_of(kind, (60, 100)), chunks=(30, 50))


def hdf5_filters(path):
    """Prints whether all chunks are compressed."""
    import h5py

    with h5py.File(path) as file:
        data = [file[name] for name in file if isinstance(file[name], h5py.Dataset) and file[name].chunks and file[name].shape]
        for each in data:
            must(each.compression == "szip", "no SZIP filter")
            print(each.name, *(chunk.filter_mask for chunk in chunks_of(each)))
        must(data, "no dataset")


def all_compressed(paths):
    for path in paths:
        text = python(THEIRS, hdf5_filters, path).decode()
        must(all(word == "0" for line in text.splitlines() for word in line.split()[1:]), f"{path}: not compressed: {text}")


def hdf5_tools():
    cases = 0
    python(THEIRS, hdf5_plain, "plain.h5")
    for block, coding in itertools.product(EVEN, ("NN", "EC")):
        for side in SIDES:
            run(side, "h5repack", "-f", f"SZIP={block},{coding}", "plain.h5", f"repacked.{side}")
        must(size(f"repacked.{THEIRS}") == size(f"repacked.{OURS}"), f"h5repack SZIP={block},{coding}: sizes differ")
        same([python(THEIRS, hdf5_filters, f"repacked.{side}") for side in SIDES], "filters")
        for w, r in itertools.product(SIDES, SIDES):
            run(r, "h5diff", "plain.h5", f"repacked.{w}")
            cases += 1
    return f"h5repack, h5diff: {cases} readings, sizes equal"


CDL = "netcdf x {{ dimensions: y = 60; x = 100; variables: short s(y, x); float f(y, x); data: s = {}; f = {}; }}"


def netcdf_tools():
    numbers = [i * 37 % 50 + i // 60 for i in range(6000)]
    with open("x.cdl", "w") as file:
        file.write(CDL.format(", ".join(map(str, numbers)), ", ".join(f"{n / 4}f" for n in numbers)))
    run(THEIRS, "ncgen", "-4", "-o", "plain.nc", "x.cdl")
    wanted = run(THEIRS, "ncdump", "-n", "x", "plain.nc")
    cases = 0
    for block in EVEN:
        for side in SIDES:
            run(side, "nccopy", "-c", "y/20,x/50", "-F", f"*,4,32,{block}", "plain.nc", f"packed.{side}")
        must(size(f"packed.{THEIRS}") == size(f"packed.{OURS}"), f"nccopy: sizes differ for blocks of {block}")
        all_compressed([f"packed.{side}" for side in SIDES])
        same([wanted] + [run(r, "ncdump", "-n", "x", f"packed.{w}") for w, r in itertools.product(SIDES, SIDES)], "ncdump")
        cases += 4
    return f"nccopy, ncdump: {cases} readings, sizes equal"


def gdal():
    """Pixels of the last files of h5repack and nccopy."""
    cases = 0
    for name, source in (("packed", 'NETCDF:"{}":s'), ("repacked", 'HDF5:"{}"://xf4')):
        pixels = []
        for w, r in itertools.product(SIDES, SIDES):
            run(r, "gdal_translate", "-q", "-of", "ENVI", source.format(f"{name}.{w}"), "pixels")
            pixels.append(content("pixels"))
            cases += 1
        same(pixels, "gdal_translate")
        must(len(set(pixels[0])) > 10, "no pixels")
    return f"gdal_translate: {cases} readings"


def cdo():
    cases = 0
    for words in (("-f", "grb", "-z", "szip"), ("-f", "grb2", "-z", "aec")):
        for side in SIDES:
            run(side, "cdo", "-s", *words, "topo,r180x91", f"cdo.{side}")
        must(size(f"cdo.{THEIRS}") == size(f"cdo.{OURS}"), "cdo: sizes differ")
        run(THEIRS, "cdo", "-s", "-f", words[1], "topo,r180x91", "cdo.plain")
        must(size(f"cdo.{OURS}") < size("cdo.plain"), "cdo doesn't compress")
        same([run(r, "cdo", "-s", "output", f"cdo.{w}") for w, r in itertools.product(SIDES, SIDES)], "cdo")
        cases += 4
    return f"{cases} readings, sizes equal"


# Debian's aec


def samples_of(bits, count):
    width = 1 if bits <= 8 else 2 if bits <= 16 else 4
    numbers = ((i * i // 977 + i * 7919 % 11) * 2 ** max(bits - 12, 0) % 2**bits for i in range(count))
    return b"".join(number.to_bytes(width, "little") for number in numbers)


def read_back(words, path, wanted, sides=SIDES):
    for side in sides:
        run(side, "aec", "-d", *words, path, "back")
        must(content("back")[: len(wanted)] == wanted, f"aec {' '.join(words)}, {path} on {side}: other samples")


def aec():
    settings = [f"-n {n} -j {j} -r {r}{more}".split() for n, j, r, more in (
        (8, 8, 2, ""), (8, 8, 2, " -b 300"), (8, 16, 64, " -s"), (12, 16, 128, ""), (16, 32, 128, " -N"), (16, 64, 4096, " -m"),
        (4, 8, 3, ""), (1, 64, 10, ""), (24, 32, 16, ""), (32, 64, 128, ""), (32, 8, 1, " -s"), (20, 16, 4095, ""))]
    for words in settings:
        wanted = samples_of(int(words[1]), 60000)
        with open("samples", "wb") as file:
            file.write(wanted)
        for side in SIDES:
            run(side, "aec", *words, "samples", f"code.{side}")
        must(size(f"code.{OURS}") == size(f"code.{THEIRS}"), f"aec {' '.join(words)}: sizes differ")
        for side in SIDES:
            read_back(words, f"code.{side}", wanted)
    alone = ["-n 16 -j 16 -r 3 -p".split(), "-n 16 -j 64 -r 4096 -b 10000".split()]
    with open("samples", "wb") as file:
        file.write(samples_of(16, 60000))
    for words in alone:
        run(OURS, "aec", *words, "samples", "code")
        read_back(words, "code", content("samples"))
    return f"{len(settings)} settings, sizes equal; padded intervals and long ones in short pieces, which only ours writes"


def hdf5_cut(path):
    """Writes a file with a chunk that is cut."""
    import h5py

    with h5py.File(path, "w") as file:
        data = file.create_dataset("x", data=values_of("<i2", (50, 100)), chunks=(50, 100), compression="szip", compression_opts=("nn", 8))
        mask, chunk = data.id.read_direct_chunk((0, 0))
        data.id.write_direct_chunk((0, 0), chunk[:-100], mask)


def hdf5_is_refused(path):
    import h5py

    try:
        with h5py.File(path) as file:
            file["x"][...]
    except OSError:
        return
    raise Wrong("a chunk that is cut is read")


def succeeds(side, *words):
    try:
        run(side, *words)
    except Wrong:
        return False
    return True


def refusals():
    """What compat/ doesn't have, and what is wrong, is refused, with a status. Debian's libraries say nothing."""
    with open("samples", "wb") as file:
        file.write(bytes(range(16)) * 100)
    with open("loose", "wb") as file:
        file.write(bytes([7, 200] * 100))
    for words in (("-t", "-n", "4", "samples", "code"), ("-d", "-t", "-n", "4", "code", "back"), ("-n", "4", "loose", "code")):
        must(succeeds(THEIRS, "aec", *words), f"aec {words} isn't to be had")
        must(not succeeds(OURS, "aec", *words), f"aec {words} isn't refused")
    python(THEIRS, hdf5_cut, "cut.h5")
    python(OURS, hdf5_is_refused, "cut.h5")
    must(not succeeds(THEIRS, sys.executable, os.path.abspath(__file__), "--job", "-", "hdf5_is_refused", "cut.h5"), "HDF5 has been mended")
    return "restricted options, unsigned samples with unused bits, a chunk that is cut"


LAYOUT = r"""
#include <szlib.h>
#include <stdio.h>
#define SHOW(number) printf(#number " %ld\n", (long)(number));
#define STREAM(field) SHOW(offsetof(struct aec_stream, field))
#define CHUNK(field) SHOW(offsetof(SZ_com_t, field))
int main(void) {
    SHOW(sizeof(struct aec_stream)) STREAM(next_in) STREAM(avail_in) STREAM(total_in) STREAM(next_out) STREAM(avail_out) STREAM(total_out)
    STREAM(bits_per_sample) STREAM(block_size) STREAM(rsi) STREAM(flags) STREAM(state)
    SHOW(AEC_DATA_SIGNED) SHOW(AEC_DATA_3BYTE) SHOW(AEC_DATA_MSB) SHOW(AEC_DATA_PREPROCESS) SHOW(AEC_RESTRICTED) SHOW(AEC_PAD_RSI)
    SHOW(AEC_NOT_ENFORCE) SHOW(AEC_OK) SHOW(AEC_CONF_ERROR) SHOW(AEC_STREAM_ERROR) SHOW(AEC_DATA_ERROR) SHOW(AEC_MEM_ERROR)
    SHOW(AEC_NO_FLUSH) SHOW(AEC_FLUSH)
    SHOW(sizeof(SZ_com_t)) CHUNK(options_mask) CHUNK(bits_per_pixel) CHUNK(pixels_per_block) CHUNK(pixels_per_scanline)
    SHOW(SZ_ALLOW_K13_OPTION_MASK) SHOW(SZ_CHIP_OPTION_MASK) SHOW(SZ_EC_OPTION_MASK) SHOW(SZ_LSB_OPTION_MASK) SHOW(SZ_MSB_OPTION_MASK)
    SHOW(SZ_NN_OPTION_MASK) SHOW(SZ_RAW_OPTION_MASK) SHOW(SZ_OK) SHOW(SZ_OUTBUFF_FULL) SHOW(SZ_NO_ENCODER_ERROR) SHOW(SZ_PARAM_ERROR)
    SHOW(SZ_MEM_ERROR) SHOW(SZ_MAX_PIXELS_PER_BLOCK) SHOW(SZ_MAX_BLOCKS_PER_SCANLINE) SHOW(SZ_MAX_PIXELS_PER_SCANLINE)
}
"""


def headers():
    """That the headers have the values and the layout of Debian's."""
    with open("layout.c", "w") as file:
        file.write(LAYOUT)
    shown = []
    for folder in ("/usr/include", os.path.join(HERE, "../compat")):
        run(THEIRS, os.environ.get("CC", "cc"), "-Wall", "-Wextra", "-Werror", "-I", folder, "layout.c", "-o", "layout")
        shown.append(run(THEIRS, os.path.abspath("layout")).decode().splitlines())
    for theirs, ours in zip(*shown):
        must(theirs == ours, f"a header says {ours}, where Debian's says {theirs}")
    return f"{len(shown[0])} values and places as in Debian's"


def libraries():
    """That the programs take the libraries of the folder."""
    for program in ("aec", "h5repack", "h5diff", "nccopy", "ncdump", "cdo", "gdal_translate", "grib_set", "grib_get_data"):
        path = subprocess.run(["which", program], capture_output=True, check=True, text=True).stdout.strip()
        lines = [line for line in run(OURS, "ldd", path).decode().splitlines() if "libaec.so" in line or "libsz.so" in line]
        must(lines and all(FOLDER + "/" in line for line in lines), f"{program} takes other libraries: {lines}")
    return "all programs take libaec and libsz of the folder"


CLIENTS = [("headers", headers), ("libraries", libraries), ("ecCodes from Python", eccodes_python), ("ecCodes", eccodes_tools),
           ("HDF5 from Python", h5py_client), ("HDF5", hdf5_tools), ("netCDF", netcdf_tools), ("GDAL", gdal), ("CDO", cdo), ("aec", aec), ("refused", refusals)]


def main():
    wrong = 0
    with tempfile.TemporaryDirectory() as folder:
        os.chdir(folder)
        for name, client in CLIENTS:
            try:
                print(f"clients: {name}: {client()}", flush=True)
            except Wrong as fault:
                print(f"clients: {name}: WRONG: {fault}", flush=True)
                wrong += 1
    print(f"clients: {len(CLIENTS)} groups, {wrong} wrong")
    sys.exit(wrong > 0)


if sys.argv[1] == "--job":
    FOLDER = sys.argv[2]
    try:
        globals()[sys.argv[3]](*sys.argv[4:])
        check_library(FOLDER)
    except Wrong as fault:
        sys.exit(str(fault))
else:
    FOLDER = os.path.realpath(sys.argv[1])
    main()
