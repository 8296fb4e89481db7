#!/usr/bin/python3
"""Draws the pictures of the documents, into docs/pictures. It draws measurements from docs/benchmarks and from the tables of pages, so that
a picture agrees with its table. Drawn twice, a picture is the same byte for byte.

Pictures are black and grey on white: readable in print, and a light panel on a dark page.

usage: pictures.py           draw them
       pictures.py --check   draw them elsewhere, and compare
"""
import filecmp
import os
import re
import sys
import tempfile

import matplotlib

matplotlib.use("svg")
from matplotlib import pyplot
from matplotlib.patches import Rectangle

ROOT = os.path.join(os.path.dirname(os.path.abspath(__file__)), "..")
FOLDER = "docs/pictures"
DARK, MIDDLE, LIGHT, PALE = "#333333", "#8a8a8a", "#c9c9c9", "#ededed"
STYLE = {"svg.fonttype": "none", "svg.hashsalt": "aec", "font.family": "sans-serif", "font.size": 10}


def canvas(width, height):
    """A figure whose units are those of the boxes in it, 100 to an inch."""
    figure = pyplot.figure(figsize=(width / 100, height / 100))
    axes = figure.add_axes((0, 0, 1, 1), xlim=(0, width), ylim=(0, height))
    axes.axis("off")
    return axes


def box(axes, x, y, width, height, text="", fill=PALE, size=10, color="black", edge="-"):
    axes.add_patch(Rectangle((x, y), width, height, facecolor=fill, edgecolor="black", linewidth=0.8, linestyle=edge))
    if text:
        axes.text(x + width / 2, y + height / 2, text, ha="center", va="center", size=size, color=color)


def label(axes, x, y, text, size=10, align="left", style="normal", weight="normal"):
    axes.text(x, y, text, ha=align, va="center", size=size, style=style, weight=weight)


def arrow(axes, start, end, style="-|>"):
    axes.annotate("", end, start, arrowprops={"arrowstyle": style, "color": "black", "linewidth": 0.9, "shrinkA": 0, "shrinkB": 0})


def brace(axes, left, right, below, above_left, above_right, above):
    """Two thin lines from a box to the part of the row above that it is."""
    for start, end in ((left, above_left), (right, above_right)):
        axes.plot([start, end], [below, above], color=MIDDLE, linewidth=0.8)


def way():
    """From samples to bits."""
    axes = canvas(900, 470)
    rows = [("samples", 420), ("blocks of 8 (-j 8)", 335), ("an interval (-r 128)", 250), ("a coded data set", 165), ("bytes", 80)]
    for text, y in rows:
        label(axes, 15, y, text, weight="bold")
    for i, value in enumerate([52, 53, 53, 55, 54, 54, 53, 52, 52, 51, 50, 50, 49, 49, 50, 51]):
        box(axes, 260 + 36 * i, 405, 36, 30, str(value), fill="white")
    label(axes, 845, 420, "…")
    for i in range(2):
        box(axes, 260 + 288 * i, 320, 288, 30, ["52  53 53 55 54 54 53 52", "52 51 50 50 49 49 50 51"][i], fill=[LIGHT, PALE][i])
        brace(axes, 260 + 288 * i, 548 + 288 * i, 350, 260 + 288 * i, 548 + 288 * i, 405)
    label(axes, 845, 335, "…")
    box(axes, 260, 235, 290, 30, "segment of 64 blocks", fill=LIGHT)
    box(axes, 550, 235, 290, 30, "segment of 64 blocks", fill=PALE)
    brace(axes, 260, 278, 265, 260, 548, 320)
    label(axes, 15, 218, "its first sample is sent as it is;\nruns of zeros end with a segment", size=9, style="italic")
    for x, width, text, fill in ((260, 90, "identifier\nof the option", DARK), (350, 130, "reference sample\n(52)", MIDDLE), (480, 360, "residuals: how far each sample is\nfrom the one before: 2 0 4 1 0 1 1", PALE)):
        box(axes, x, 145, width, 42, text, fill=fill, size=8.5, color="white" if fill == DARK else "black")
    brace(axes, 260, 840, 187, 260, 278, 235)
    label(axes, 15, 133, "the shortest of: no compression,\na split, second extension, a run", size=9, style="italic")
    for i, text in enumerate(["00100110", "10000110", "00010110", "101…", "…"]):
        box(axes, 260 + 116 * i, 65, 116, 30, text, fill="white")
    brace(axes, 260, 643, 95, 260, 840, 145)
    label(axes, 15, 52, "the next set follows at once", size=9, style="italic")
    label(axes, 15, 25, "Smooth samples have small residuals, and small residuals have few bits.", style="italic")


def fields():
    """The bytes 00 58 f2."""
    axes = canvas(900, 320)
    bits = "00000000" "01011000" "11110010"
    parts = [(4, "0000", "zero blocks", DARK), (8, "00000101", "reference: 5", LIGHT), (1, "1", "run of 1", MIDDLE),
             (4, "0001", "second extension", DARK), (3, "1 1 1", "pairs (0,0), 3 times", LIGHT), (3, "001", "pair (0,1)", MIDDLE), (1, "0", "fills the byte", "white")]
    for i, byte in enumerate(("00", "58", "f2")):
        box(axes, 100 + 232 * i, 250, 232, 32, byte, fill="white", size=13)
    for i, bit in enumerate(bits):
        box(axes, 100 + 29 * i, 205, 29, 32, bit, fill="white", size=12)
    at = 0
    for i, (length, _, text, fill) in enumerate(parts):
        left, width = 100 + 29 * at, 29 * length
        box(axes, left, 165, width, 26, fill=fill)
        low = 130 - 24 * (i % 3)
        axes.plot([left + width / 2] * 2, [165, low + 8], color=MIDDLE, linewidth=0.8)
        label(axes, left + width / 2, low, text, align="center", size=9.5)
        at += length
    box(axes, 100, 25, 377, 28, "first block: 5 5 5 5 5 5 5 5", fill=PALE)
    box(axes, 477, 25, 290, 28, "second block: 5 5 5 5 5 5 5 4", fill="white")
    for y, text in ((266, "bytes"), (221, "bits"), (178, "fields"), (39, "samples")):
        label(axes, 15, y, text, weight="bold")


def push():
    """What rice_push takes and leaves."""
    axes = canvas(900, 330)
    label(axes, 15, 285, "given to rice_push", weight="bold")
    for i in range(3):
        box(axes, 200 + 180 * i, 268, 180, 34, f"segment {i + 1}", fill=[LIGHT, PALE, LIGHT][i])
    box(axes, 740, 268, 110, 34, "the rest", fill="white", edge="--")
    label(axes, 15, 175, "written to code", weight="bold")
    box(axes, 200, 158, 350, 34, "all whole bytes of the code of segments 1 to 3", fill=PALE)
    box(axes, 550, 158, 36, 34, "101", fill=MIDDLE)
    arrow(axes, (470, 268), (380, 194))
    label(axes, 15, 75, "struct rice_feed\n(72 bytes)", weight="bold")
    box(axes, 200, 58, 386, 34, "setting, samples so far, last sample, place in the interval", fill="white", size=9.5)
    box(axes, 586, 58, 130, 34, "bits that wait: 101", fill=MIDDLE, size=9.5)
    arrow(axes, (568, 158), (640, 94))
    box(axes, 740, 158, 110, 34, "stays", fill="white", edge="--")
    label(axes, 850, 128, "with the caller: give it again,\nwith more samples after it", size=9, style="italic", align="right")
    arrow(axes, (795, 268), (795, 194))
    label(axes, 200, 20, "What is taken depends on the number of samples alone; rice_finish takes the rest.", style="italic")


def table_of(page, head):
    """The rows of a table, as lists of cells, by the beginning of its head."""
    with open(page) as file:
        lines = file.read().splitlines()
    at = next(i for i, line in enumerate(lines) if line.startswith(head))
    rows = []
    for line in lines[at + 2 :]:
        if not line.startswith("|"):
            break
        rows.append([cell.strip() for cell in line.strip("|").split("|")])
    return [cell.strip() for cell in lines[at].strip("|").split("|")], rows


def figures_of(name):
    """The head and the rows of a file of docs/benchmarks, as lists of cells."""
    with open(f"docs/benchmarks/{name}.tsv") as file:
        head, *rows = (line.rstrip("\n").split("\t") for line in file)
    return head, rows


def house():
    """The way of the data through the crates, in both directions, and which crate stands on which."""
    axes = canvas(900, 470)
    fills = {"rice_bits": PALE, "rice_samples": LIGHT, "rice_code": MIDDLE}
    ways = [
        ("encode", 395, "-|>", ("bytes", "levels of a\nblock", "residuals of a\nblock", "a coded\ndata set", "fields", "bits", "bytes"),
         ("Input", "ranks", "search", "options", "BitBuffer", "write_whole")),
        ("decode", 265, "<|-", ("bytes", "levels of a\nblock", "residuals of a\nblock", "a coded\ndata set", "words and\nsequences", "bits", "bytes"),
         ("write_all", "restoring", "options", "fields", "BitReader", "Intake")),
    ]
    owners = (None, "rice_samples", "rice_samples", "rice_code", "rice_code", "rice_bits", None)
    for name, y, style, stages, steps in ways:
        label(axes, 15, y + 45, name, weight="bold")
        for i, (text, owner) in enumerate(zip(stages, owners)):
            box(axes, 15 + 127 * i, y - 20, 92, 44, text, fill=fills.get(owner, "white"), size=9)
        for i, text in enumerate(steps):
            arrow(axes, (107 + 127 * i, y + 2), (142 + 127 * i, y + 2), style)
            label(axes, 124 + 127 * i, y - 32, text, size=8, align="center", style="italic")
    label(axes, 15, 205, "what is decoded in one pass goes from bits to bytes in lanes (rice_fast)", size=9, style="italic")
    label(axes, 15, 165, "which crate stands on which", weight="bold")
    for i, (name, text) in enumerate((("rice_bits", "bits, devices,\nmeter"), ("rice_samples", "samples,\nresiduals"), ("rice_code", "coder,\ndecoder"), ("rice_fast", "a block in\none pass"), ("rice_stream", "bytes to\nbytes"))):
        box(axes, 15 + 128 * i, 60, 100, 64, f"{name}\n{text}", fill=fills.get(name, "white"), size=9)
        if i:
            arrow(axes, (15 + 128 * i, 92), (115 + 128 * (i - 1), 92))
    box(axes, 335, 136, 280, 26, "aec_command: options, and their plan", fill="white", size=9)
    arrow(axes, (335, 149), (225, 125))
    arrow(axes, (660, 140), (616, 150))
    for y, name, text in ((100, "aec_run, aec_tool", "the command"), (36, "rice_calls, rice_c, rice_small", "libraries for C: compat and\nPython stand on rice_c")):
        box(axes, 660, y, 225, 52, f"{name}\n{text}", fill="white", size=9)
        arrow(axes, (660, y + 26), (627, 92))
    label(axes, 15, 20, "An arrow goes to what is used; what that stands on may be used too.", size=9, style="italic")


def memory():
    """The stack of a call, measured and stated."""
    _, table = table_of("docs/C.md", "| of | `librice.a`")
    number = lambda text: int(re.search(r"[\d,]+\d", text)[0].replace(",", ""))
    rows = [(*row[0].removeprefix("stack of ").split(", stated "), row[1]) for row in table if row[0].startswith("stack of ")]
    figure, axes = pyplot.subplots(figsize=(9, 2.6), layout="constrained")
    for i, (calls, stated, taken) in enumerate(reversed(rows)):
        axes.barh(i, number(stated), color="white", edgecolor="black", hatch="///", height=0.55)
        axes.barh(i, number(taken), color=MIDDLE, edgecolor="black", height=0.55)
        axes.text(number(stated) + 400, i, f"{number(taken):,} of {number(stated):,}", va="center")
    axes.set_yticks(range(len(rows)), [calls.replace("`", "") for calls, *_ in reversed(rows)])
    axes.set_xlim(0, 62000)
    axes.set_xlabel("bytes of stack: grey is what a call takes, and to the end of the bar what rice.h states")
    axes.spines[["top", "right"]].set_visible(False)


def places():
    """Where a code lies in a GRIB2 message and in an HDF5 chunk."""
    axes = canvas(900, 330)
    label(axes, 15, 300, "GRIB2 message", weight="bold")
    sections = [("0", 50), ("1", 50), ("3: grid", 90), ("4", 50), ("5: packing", 150), ("6: bit map", 100), ("7: data", 260), ("7777", 60)]
    x, found = 30, {}
    for text, width in sections:
        box(axes, x, 245, width, 32, text, fill=PALE if text in ("5: packing", "7: data") else "white")
        found[text] = x, width
        x += width
    left, width = found["5: packing"]
    box(axes, 30, 170, 380, 38, "octet 20: -n   22: flags   23: -j   24, 25: -r", fill=LIGHT, size=9.5)
    brace(axes, 30, 410, 208, left, left + width, 245)
    left, width = found["7: data"]
    box(axes, 450, 170, 90, 38, "5 octets", fill="white", size=9.5)
    box(axes, 540, 170, 310, 38, "the code", fill=DARK, color="white")
    brace(axes, 450, 850, 208, left, left + width, 245)
    label(axes, 15, 125, "HDF5 dataset with SZIP", weight="bold")
    box(axes, 30, 70, 380, 38, "filter's values: mask, -j, -n, pixels of a scanline", fill=LIGHT, size=9.5)
    label(axes, 30, 45, "-r is the pixels of a scanline, divided by those of a block", size=9, style="italic")
    box(axes, 450, 70, 90, 38, "4 bytes:\nthe size", fill="white", size=9)
    box(axes, 540, 70, 310, 38, "the code", fill=DARK, color="white")
    label(axes, 450, 45, "a chunk; of pixels of 32 and 64 bits the code has planes of bytes", size=9, style="italic")


def ratios():
    """How many times as fast as Debian's aec, by CPU time and by instructions, of each row."""
    _, rows = figures_of("programs")
    rate = lambda cell: float(cell.split("(")[1].split()[0])
    figure, panels = pyplot.subplots(1, 2, figsize=(10, 6), sharex=True, sharey=True, layout="constrained")
    for panel, way_ in zip(panels, ("encode", "decode")):
        chosen = [row for row in rows if row[0].endswith(f", {way_}")][::-1]
        clock = [rate(row[1]) / rate(row[2]) for row in chosen]
        counted = [float(row[4]) / float(row[3]) for row in chosen]
        places_ = range(len(chosen))
        panel.hlines(places_, clock, counted, color=LIGHT, linewidth=3)
        panel.plot(clock, places_, "o", color="black", label="CPU time")
        panel.plot(counted, places_, "s", color="black", markerfacecolor="white", label="instructions")
        panel.axvline(1, color="black", linewidth=0.8)
        panel.set_yticks(places_, [row[0].removesuffix(f", {way_}").replace("`", "") for row in chosen])
        panel.set_title(way_)
        panel.grid(axis="x", color="#ddd")
        panel.set_xscale("log")
        panel.set_xlim(0.9, 25)
        panel.set_xticks([1, 2, 4, 8, 16], ["1", "2", "4", "8", "16"])
        panel.minorticks_off()
    panels[1].legend(loc="upper center", bbox_to_anchor=(0.2, 1.13), ncols=2, frameon=False)
    figure.supxlabel("times as fast as Debian's aec, and times fewer instructions; 1 is as fast", size=10)


def others():
    """Sizes and speeds of other compressors on the same samples."""
    head, rows = figures_of("others")
    kinds = head[1:-2]
    samples, tools = rows[0], rows[1:]
    number = lambda cell: float(cell.replace(",", "").replace("*", ""))
    figure, panels = pyplot.subplots(1, 2, figsize=(10.5, 4.6), layout="constrained", width_ratios=[3, 2])
    fills = [DARK, MIDDLE, LIGHT, PALE, "white"]
    for j, kind in enumerate(kinds):
        sizes = [100 * number(row[1 + j]) / number(samples[1 + j]) for row in tools]
        panels[0].barh([i - 0.3 + 0.15 * j for i in range(len(tools))], sizes, 0.15, color=fills[j], edgecolor="black", linewidth=0.5, label=kind)
    panels[0].set_yticks(range(len(tools)), [row[0] for row in tools])
    panels[0].invert_yaxis()
    panels[0].set_xlabel("size, in percent of the samples; shorter is better")
    panels[0].set_xlim(0, 175)
    panels[0].legend(fontsize=9, loc="upper right")
    for row in (row for row in tools if row[-1]):
        there, back = number(row[-2]), number(row[-1])
        panels[1].plot(there, back, "o", color="black")
        panels[1].annotate(row[0], (there, back), xytext=(5, -11 if row[0] in ("fpack", "zstd -1") else 3), textcoords="offset points", size=8.5)
    panels[1].set_xscale("log")
    panels[1].set_yscale("log")
    panels[1].set_xlim(0.5, 5000)
    panels[1].set_ylim(3, 1500)
    panels[1].set_xlabel("compress, MB/s; to the right is faster")
    panels[1].set_ylabel("decompress, MB/s; higher is faster")
    panels[1].grid(color="#ddd", which="major")


def choosing():
    """The options that recipes/choose.py tries, by what it prints."""
    sys.path.insert(0, "recipes")
    import choose

    with open("scripts/recipes.txt") as file:
        shown = file.read().partition("$ recipes/choose ./aec\n")[2].partition("\n$ ")[0].splitlines()[1:]
    trials = []
    for line in shown:
        options, length, forth, back = re.match(r"(-n.*?)  +(\d+) +[\d.]+% +(\d+) MB/s +(\d+) MB/s", line).groups()
        words = options.split()
        trials.append((words, int(words[3]), int(length), float(forth) * 1e6, float(back) * 1e6))
    choose.draw(trials, 8 << 20, os.path.join(OUT, "choosing.svg"))


PICTURES = {"way": way, "bytes": fields, "push": push, "house": house, "memory": memory, "places": places, "benchmarks": ratios, "others": others}


def draw_all():
    for name, draw in PICTURES.items():
        pyplot.rcParams.update(STYLE)
        draw()
        pyplot.savefig(os.path.join(OUT, f"{name}.svg"), metadata={"Date": None, "Creator": None})
        pyplot.close()
    choosing()


def main():
    global OUT
    os.chdir(ROOT)
    if "--check" not in sys.argv:
        OUT = FOLDER
        os.makedirs(OUT, exist_ok=True)
        draw_all()
        return
    with tempfile.TemporaryDirectory() as OUT:
        draw_all()
        names = sorted({*os.listdir(OUT), *os.listdir(FOLDER)})
        _, other, missing = filecmp.cmpfiles(OUT, FOLDER, names, shallow=False)
    for name in other + missing:
        print(f"pictures: {name} is not what the tables and docs/benchmarks give: scripts/pictures.py")
    print(f"pictures: {len(names)}, {len(other + missing)} wrong")
    sys.exit(len(other + missing) > 0)


if __name__ == "__main__":
    main()
