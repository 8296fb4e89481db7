#!/usr/bin/python3
"""Has recipes/guess.py find the options of codes of a program and of libaec: those that scripts/interop.py exchanges, of at least 1,000
samples. No code contains the order of bytes or the choice of three bytes, so it tries one of the settings with the same code.

The first setting found must give the same samples as the right one. If guess.py reports several settings with the same code, the right
one must be among them, and the samples of the others must have the very same code.

usage: guesses.py OURS THEIRS [EVERY]
  EVERY   try one setting in EVERY, not all
"""
import os
import sys
import tempfile
from concurrent.futures import ProcessPoolExecutor

HERE = os.path.dirname(os.path.abspath(__file__))
sys.path[:0] = [HERE, os.path.join(HERE, "../recipes")]
OURS, THEIRS = (os.path.abspath(path) for path in sys.argv[1:3])
sys.argv[1:] = [OURS, THEIRS, *sys.argv[3:]]
EVERY = int(sys.argv.pop()) if len(sys.argv) > 3 else 1

import guess
import interop
import numpy
import rice121


def settings():
    """Those of the exchange whose codes differ."""
    for words, bits, block in interop.settings():
        if "-m" not in words and "-3" not in words:
            yield words, bits, block


def code_of(program, words, data):
    return interop.code(program, words, data)[0]


def patterns(samples, bits):
    """The bits of samples, which are the same however these are read."""
    return samples.astype("i8") & ((1 << bits) - 1)


def why_wrong(found, code, words, bits, block, count):
    """What is wrong with the guesses among which the code does not decide, or None; and whether the first of them is right."""
    if not found:
        return "finds nothing", False
    width, interval = interop.width_of(bits, words), int(words[words.index("-r") + 1])
    kind = ("i" if "-s" in words else "u") + str(width)
    samples = rice121.decode(code, count, kind, bits=bits, block=block, interval=interval, preprocess="-N" not in words)
    likely = [it.trial for it in guess.likeliest(found)]
    if not all(trial.is_same or trial.excess <= 0 for trial in likely):
        return "says a setting whose code is longer", False
    right = [trial.setting.width == width and numpy.array_equal(patterns(samples, bits), patterns(trial.samples, bits)) for trial in likely]
    return None if any(right) else "says " + ", ".join(trial.setting.words() for trial in likely), right[0]


def attempt(setting):
    """What is wrong with the guesses of one setting; and of each code how many guesses are as likely as the first, and whether that is right."""
    words, bits, block = setting
    count = max(1000, 67 * block) + 5
    data = interop.samples_of(bits, count, interop.width_of(bits, words), "little")
    wrong, likely = [], []
    for code in {code_of(program, words, data) for program in (OURS, THEIRS)}:
        found, _ = guess.guesses(code, size=len(data))
        why, is_first = why_wrong(found, code, words, bits, block, count)
        wrong += [f"guesses: {' '.join(words)}: {why}"] if why else []
        likely.append((len(guess.likeliest(found)) if found else 0, is_first))
    return wrong, likely


def main():
    chosen = list(settings())[::EVERY]
    with tempfile.TemporaryDirectory() as folder:
        workers = max(1, int(os.environ.get("GUESSES_JOBS", os.cpu_count())))
        with ProcessPoolExecutor(workers, initializer=interop.work_in, initargs=(folder,)) as pool:
            answers = list(pool.map(attempt, chosen, chunksize=4))
    wrong = [text for texts, _ in answers for text in texts]
    likely = [pair for _, pairs in answers for pair in pairs]
    for text in wrong:
        print(text)
    alone, first = sum(number == 1 for number, _ in likely), sum(is_first for _, is_first in likely)
    print(f"guesses: {len(chosen)} settings, {len(likely)} codes: the right one is first of {first}, and of {len(likely) - first} among those that "
          f"have the very same code; {alone} codes have one; {len(wrong)} wrong")
    sys.exit(len(wrong) > 0)


if __name__ == "__main__":
    main()
