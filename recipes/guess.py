#!/usr/bin/env python3
"""Finds the lost options of a code: tries settings, and prints those that decode it to its end, the likeliest first.

The likeliest settings return the same bytes, or as many, when their samples are encoded again. Signed and unsigned samples may have the
same code, and so may two intervals. Then the reference samples decide, since they are near to the samples before them. If there are too
few of them, it prints all such settings. No code contains the order of bytes (-m). Whether 17 to 24 bits take three bytes (-3) needs the
size of the file.

usage: guess.py CODE [--size BYTES | --count N] [--all]
  --size BYTES   the bytes of the samples
  --count N      the number of the samples
  --all          try every interval, 1 to 4096, which takes minutes
"""
import argparse
import itertools
import sys
from typing import Any, List, NamedTuple, Optional

import start

import numpy
import rice121

from codes import kind_of, read

BLOCKS = [8, 16, 32, 64]
# The likely ones of them first.
BITS = sorted(range(1, 33), key=[8, 16, 12, 24, 32, 10, 14, 20, *range(1, 33)].index)
# The intervals that are tried unless all are: the likely ones first.
USUAL = [128, 2, 64, 1, 4096, 256, 512, 1024, 2048, 32, 16, 8, 4, 65, 3, 5, 6, 10, 12, 20, 24, 25, 48, 50, 96, 100, 192, 200, 384, 400, 500,
         768, 1000]
# Fronts of the code that a setting has to pass before the whole is tried, and the samples that are taken of one.
FRONTS = [1024, 32768]
MOST = 1 << 26
# How many settings go on to a longer front beside those that are as good as the best can be.
KEPT = 64
# The bits of code before a fault from which on they tell something.
ENOUGH = 256
# By how many binary digits the magnitudes of neighbouring blocks differ, at the median, in no samples that have a meaning.
ROUGH = 2
# As few blocks say nothing of that.
FEW = 8
# How many more references have to misfit before a guess is less likely than another.
SURE = 3


class Setting(NamedTuple):
    """What is tried."""

    bits: int
    block: int
    interval: int
    preprocess: bool = True
    pad: bool = False
    is_signed: bool = False
    three: bool = False

    @property
    def width(self):
        return 1 if self.bits <= 8 else 2 if self.bits <= 16 else 3 if self.three else 4

    def keywords(self):
        """The options of rice121. (Three bytes are four here: the code is the same.)"""
        return {name: getattr(self, name) for name in ("bits", "block", "interval", "preprocess", "pad")}

    @property
    def dtype(self):
        return ("i" if self.is_signed else "u") + str(min(4, self.width + self.three))

    def words(self):
        letters = {"-N": not self.preprocess, "-p": self.pad, "-s": self.is_signed, "-3": self.three}
        return " ".join(["-n", str(self.bits), "-j", str(self.block), "-r", str(self.interval), *filter(letters.get, letters)])


class Trial(NamedTuple):
    """What a setting makes of a code: samples, the bits that they have in it, by how many these are more than those of the same samples
    encoded again, whether the bytes are the same then, and what is wrong."""

    setting: Setting
    samples: Any
    bits: int
    excess: int
    is_same: bool
    fault: Optional[str]

    @property
    def is_rough(self):
        """Whether the magnitudes of blocks jump about, as they do where bytes that are no code happen to decode."""
        numbers, setting = self.samples.astype("i8"), self.setting
        steps = abs(numpy.diff(numbers)) if setting.preprocess else abs(numbers)
        blocks = steps[: len(steps) // setting.block * setting.block].reshape(-1, setting.block)
        jumps = abs(numpy.diff(numpy.log2(1 + blocks.mean(axis=1))))
        return len(jumps) >= FEW and float(numpy.median(jumps)) > ROUGH

    @property
    def waste(self):
        return max(0, self.excess) / max(1, self.bits)


class Guess(NamedTuple):
    """A trial of the whole code, other settings that give the same samples, and how many reference samples don't fit."""

    trial: Trial
    others: List[Setting]
    misfits: int


def tried(setting, code, count=None, is_front=False):
    """Tries a setting on a code, or on the front of one, which may end anywhere."""
    decoder = rice121.Decoder(setting.dtype, **setting.keywords())
    fault, samples = None, None
    try:
        samples = decoder.pull(code, MOST if count is None else count)
        if not is_front:
            fault = end_of(decoder, samples, code, count)
    except rice121.RiceError as error:
        fault, samples = str(error), error.partial if samples is None else samples
    if fault and decoder.bits < ENOUGH:
        return Trial(setting, samples, decoder.bits, 0, False, fault)
    again = rice121.encode(samples, **setting.keywords())
    excess = decoder.bits - 8 * len(again)
    is_same = not is_front and again.rstrip(b"\0") == code.rstrip(b"\0")
    return Trial(setting, samples, decoder.bits, 0 if -8 < excess <= 0 else excess, is_same, fault)


def end_of(decoder, samples, code, count):
    """What is wrong with the end of a code."""
    if count is None:
        decoder.close()
        return None
    if len(samples) < count:
        return f"code ends after {len(samples)} samples"
    byte, bit = divmod(decoder.bits, 8)
    rest = bytes([code[byte] & (255 >> bit)]) + code[byte + 1 :] if byte < len(code) else b""
    return f"more code after {count} samples" if any(rest) else None


def settings(pads, intervals):
    for bits, block, interval, preprocess in itertools.product(BITS, BLOCKS, intervals, (True, False)):
        for pad in pads:
            yield Setting(bits, block, interval, preprocess, pad)


def with_counts(found, size, count):
    """The settings with the number of their samples, as far as it is known. A size says whether samples have three bytes."""
    for setting in found:
        for three in (False, True) if size is not None and 17 <= setting.bits <= 24 else (False,):
            setting = setting._replace(three=three)
            if size is None:
                yield setting, count
            elif size % setting.width == 0:
                yield setting, size // setting.width


class Search:
    """The trials of the whole code that have no fault, and of the others the one that got furthest with a code that is none too long."""

    def __init__(self, code, size, count):
        self.code, self.size, self.count = code, size, count
        self.whole, self.furthest = [], None

    def look_at(self, trial):
        """Keeps a trial that has a fault, if it tells more than those before."""
        if trial.excess <= 0 and tells(trial) and (self.furthest is None or trial.bits // 64 > self.furthest.bits // 64):
            self.furthest = trial

    def promising(self, found, front):
        """The settings that go on after a front: those whose samples have no fewer bits when they are encoded again, and the best of
        the others."""
        good = []
        for setting in found:
            trial = tried(setting, self.code[:front], MOST // 64, True)
            if trial.fault:
                self.look_at(trial)
            else:
                good.append((trial.waste, trial.excess, setting))
        good.sort(key=lambda it: it[0])
        return [setting for i, (_, excess, setting) in enumerate(good) if i < KEPT or excess <= 64]

    def go(self, pads, intervals):
        found = settings(pads, intervals)
        for front in FRONTS:
            if len(self.code) > front:
                found = self.promising(found, front)
        for setting, count in with_counts(found, self.size, self.count):
            trial = tried(setting, self.code, count)
            if trial.fault:
                self.look_at(trial)
            else:
                # (those that give the same samples share them)
                same = (other.samples for other in self.whole if numpy.array_equal(other.samples, trial.samples))
                self.whole.append(trial._replace(samples=next(same, trial.samples)))


def tells(trial):
    """Whether what was decoded before a fault can't be by chance."""
    return trial.bits >= ENOUGH and len(trial.samples) > FEW * trial.setting.block and not trial.is_rough


def residuals(before, samples, setting):
    """The residuals of samples, by those before them."""
    least, greatest = (-(1 << setting.bits - 1), (1 << setting.bits - 1) - 1) if setting.is_signed else (0, (1 << setting.bits) - 1)
    steps = samples - before
    near = numpy.minimum(before - least, greatest - before)
    folded = numpy.where(steps >= 0, 2 * steps, -2 * steps - 1)
    return numpy.where(abs(steps) <= near, folded, near + abs(steps))


def misfits(trial):
    """How many reference samples are much further from the samples before them than the samples around them are."""
    numbers, setting = trial.samples.astype("i8"), trial.setting
    places = numpy.arange(setting.interval * setting.block, len(numbers), setting.interval * setting.block)
    if not setting.preprocess or not len(places):
        return 0
    steps = residuals(numbers[:-1], numbers[1:], setting)  # that of sample i stands at i - 1
    around = [steps[numpy.clip(places - 1 + offset, 0, len(steps) - 1)] for offset in (*range(-6, 0), *range(1, 7))]
    return int((steps[places - 1] > 64 * (1 + numpy.median(around, axis=0))).sum())


def with_signs(trial, code, count):
    """A trial, and one whose samples are signed where these are others."""
    other = tried(trial.setting._replace(is_signed=True), code, count)
    used = trial.samples.dtype.type((1 << trial.setting.bits) - 1)
    if not trial.setting.preprocess or numpy.array_equal(other.samples.view(trial.samples.dtype) & used, trial.samples):
        return [trial]
    return [trial, other]


def grouped(trials, intervals):
    """Trials that give the same samples by codes of the same length, in groups; the likeliest setting first in each."""
    groups = {}
    for trial in sorted(trials, key=lambda trial: (BITS.index(trial.setting.bits), intervals.index(trial.setting.interval))):
        setting = trial.setting
        key = trial.is_same, trial.excess, setting.preprocess, setting.three, setting.is_signed, trial.samples.astype("u4").tobytes()
        groups.setdefault(key, []).append(trial)
    return groups.values()


def guesses(code, size=None, count=None, intervals=USUAL):
    """Returns the guesses, the likeliest first, and the trial that got furthest before a fault, if any did."""
    search = Search(code, size, count)
    for pads in ((False,), (True,)):
        if not any(trial.excess <= 0 for trial in search.whole):
            search.go(pads, intervals)
    is_counted = size is not None or count is not None
    whole = [each for trial in search.whole for each in with_signs(trial, code, len(trial.samples) if is_counted else None)]
    found = [Guess(first, [other.setting for other in others], misfits(first)) for first, *others in grouped(whole, intervals)]
    return sorted(found, key=rank), search.furthest


def rank(guess):
    trial = guess.trial
    return trial.excess > 0, trial.is_rough, not trial.is_same, trial.excess, guess.misfits // SURE


def likeliest(found):
    """The guesses among which nothing in the code decides: they give a code of the same length, and references fit as well."""
    first = found[0]
    goodness = lambda trial: (trial.is_rough, trial.is_same, trial.excess)
    is_as_good = lambda guess: goodness(guess.trial) == goodness(first.trial)
    return [guess for guess in found if is_as_good(guess) and guess.misfits < 2 * first.misfits + SURE]


def show(guess, is_counted):
    trial, setting = guess.trial, guess.trial.setting
    again = "the same code again" if trial.is_same else "a code of the same length again" if trial.excess <= 0 else \
        f"encoded again {trial.excess // 8} bytes shorter"
    count = f" --samples {len(trial.samples)}" if is_counted else ""
    print(f"aec -d {setting.words()}{count}: {'' if is_counted else f'at most {len(trial.samples)} samples, '}{again}")
    for name, letter in (("bits", "-n"), ("interval", "-r")):
        other = sorted({getattr(each, name) for each in guess.others} - {getattr(setting, name)})
        if other:
            print(f"  the same samples with {letter} {', '.join(map(str, other))}")


def show_all(found, is_counted):
    first = likeliest(found)
    for guess in first:
        show(guess, is_counted)
    if first[0].trial.is_rough:
        print("The magnitudes of its blocks jump about, as they do where bytes are no code at all.")
    if len(first) > 1:
        print("The code does not tell which of these it was: each has the very same code, of other samples.")
    less = [guess for guess in found if guess not in first and guess.trial.excess <= 0 and not guess.trial.is_rough]
    if less:
        print("Less likely, by their reference samples, or by bytes that are others than those of their code:")
    for guess in less:
        show(guess, is_counted)


def main():
    parser = argparse.ArgumentParser(description=__doc__.partition("\n")[0])
    parser.add_argument("code")
    parser.add_argument("--size", type=int, help="the bytes of the samples")
    parser.add_argument("--count", type=int, help="the number of the samples")
    parser.add_argument("--all", action="store_true", help="try every interval, 1 to 4096")
    given = parser.parse_args()
    try:
        code, kind = read(given.code), kind_of(given.code)
    except OSError as error:
        sys.exit(f"{error.filename}: {error.strerror}")
    if kind:
        print(f"{given.code} begins as {kind}{f', which recipes/{kind.lower()}.py reads' if kind in ('GRIB', 'HDF5', 'FITS') else ''}")
    intervals = USUAL + [r for r in range(1, 4097) if r not in USUAL] if given.all else USUAL
    found, furthest = guesses(code, given.size, given.count, intervals)
    if found:
        show_all(found, given.size is not None or given.count is not None)
    else:
        print("no setting that was tried decodes it to its end")
        if furthest:
            before = f"the {len(furthest.samples)} samples before have the same code"
            print(f"the furthest is {furthest.setting.words()}: {furthest.fault}; {before}")
    sys.exit(not found)


if __name__ == "__main__":
    main()
