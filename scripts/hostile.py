#!/usr/bin/env python3
"""Gives a program codes that are cut, flipped, random or long, and judges each answer.

Each run must end by itself with status 0 or 1 and one of the known messages. It must write no more samples than requested, and than the
message says. It must stay within its memory, by a limit on its address space, and within a CPU time linear in its input and output. A
test of a flipped code must answer as decoding it did.

usage: hostile.py PROGRAM RANDOM_INPUTS
"""
import os
import random
import re
import shutil
import signal
import subprocess
import sys
import tempfile
from concurrent.futures import ProcessPoolExecutor
from dataclasses import dataclass

MEMORY = 8 << 20  # bytes
LONG = 1 << 20  # bytes
SAMPLES_PER_BIT = 456  # no bit of a code stands for more
BASE_TIME = 0.25  # seconds
BYTE_TIME = 1e-6  # seconds

DECODING = re.compile(
    r"aec: (?:code ends after (?P<samples>\d+) samples"
    r"|run at block (?P<run>\d+) passes its segment"
    r"|residual too large in block (?P<large>\d+))\n"
)
TESTED = re.compile(r"(?P<fault>aec: .*) \(block (?P<block>\d+), bit (?P<bit>\d+), byte (?P<byte>\d+) of the code\)\n")
FOUND = re.compile(r"(?P<samples>\d+) samples, (?P<bits>\d+) bits(?:; (?:a|no) 1 is left)?\n")
ENCODING = re.compile(r"aec: (?:sample \d+ is out of range|input ends inside sample \d+)\n")


@dataclass(frozen=True)
class Setting:
    bits: int = 8
    block: int = 8
    interval: int = 2
    flags: str = ""

    def words(self):
        return ["-n", str(self.bits), "-j", str(self.block), "-r", str(self.interval), *(f"-{flag}" for flag in self.flags)]

    def width(self):
        if "3" in self.flags and 17 <= self.bits <= 24:
            return 3
        return 1 if self.bits <= 8 else 2 if self.bits <= 16 else 4

    def spell(self, sample):
        """The bytes of a sample, given by its n-bit pattern."""
        if "s" in self.flags and sample >> (self.bits - 1):
            sample |= (1 << 8 * self.width()) - (1 << self.bits)
        return sample.to_bytes(self.width(), "big" if "m" in self.flags else "little")


@dataclass
class Answer:
    output: bytes
    errors: str
    status: int
    seconds: float


# A few codes, which are cut and flipped: their settings and numbers of samples.
CODES = [
    (Setting(), 60),
    (Setting(interval=64), 300),
    (Setting(bits=1, interval=128), 400),
    (Setting(bits=4, block=16, flags="s"), 80),
    (Setting(bits=12, flags="N"), 30),
    (Setting(bits=16, block=16, interval=3, flags="ms"), 40),
    (Setting(interval=1, flags="p"), 70),
    (Setting(bits=20, block=32, interval=1, flags="3"), 70),
    (Setting(bits=32, block=64, interval=4096), 20),
]


def random_setting(generator):
    flags = "".join(flag for flag in "3Nmps" if generator.random() < 0.4)
    interval = generator.choice([1, 2, 3, 63, 64, 65, 128, 4096, generator.randint(1, 4096)])
    return Setting(generator.randint(1, 32), generator.choice([8, 16, 32, 64]), interval, flags)


def run_once(words, given):
    """Runs the program over two files in the current folder, within its limits."""
    with open("in", "wb") as file:
        file.write(given)
    with open("out", "wb"):
        pass
    command = [shutil.which("prlimit"), f"--as={MEMORY}", "--cpu=20", PROGRAM, *words, "in", "out"]
    streams = [(os.POSIX_SPAWN_OPEN, 2, "errors", os.O_WRONLY | os.O_CREAT | os.O_TRUNC, 0o600)]
    child = os.posix_spawn(command[0], command, os.environ, file_actions=streams)
    _, status, usage = os.wait4(child, 0)
    with open("out", "rb") as out, open("errors", errors="replace") as errors:
        return Answer(out.read(), errors.read(), os.waitstatus_to_exitcode(status), usage.ru_utime + usage.ru_stime)


def is_slow(answer, given):
    return answer.seconds > BASE_TIME + BYTE_TIME * (len(given) + len(answer.output))


def run(words, given):
    """The fastest of up to three runs: a busy machine counts time to a program that did not use it."""
    answer = run_once(words, given)
    for _ in range(2):
        if is_slow(answer, given):
            answer = min(answer, run_once(words, given), key=lambda each: each.seconds)
    return answer


def faults_of_any(answer, known, given):
    """What is wrong with an answer, whatever was asked for."""
    if answer.status not in (0, 1):
        yield f"status {answer.status}"
    if (answer.errors == "") != (answer.status == 0) or (answer.errors and not known.fullmatch(answer.errors)):
        yield f"status {answer.status} with the message {answer.errors!r}"
    if is_slow(answer, given):
        yield f"{answer.seconds} seconds"


def faults_of_decoding(answer, setting, count, given):
    """What is wrong with an answer to a code."""
    yield from faults_of_any(answer, DECODING, given)
    samples, rest = divmod(len(answer.output), setting.width())
    reported = DECODING.fullmatch(answer.errors)
    if rest:
        yield "a part of a sample"
    if samples > SAMPLES_PER_BIT * 8 * len(given):
        yield f"{samples} samples from {len(given)} bytes"
    if count is not None and (samples > count or (answer.status == 0 and samples < count)):
        yield f"{samples} samples where {count} were asked for"
    if reported and reported["samples"] and int(reported["samples"]) != samples:
        yield f"{answer.errors!r} with {samples} samples"
    block = reported and (reported["run"] or reported["large"])
    if block and int(block) * setting.block != samples:
        yield f"{answer.errors!r} with {samples} samples"


def faults_of_test(words, answer, setting, given):
    """What is wrong with a test of a code, which has to answer as decoding did, to write nothing, and to name a place of the code."""
    with open("in", "wb") as file:
        file.write(given)
    done = subprocess.run([PROGRAM, "--test", *words, "in"], capture_output=True, text=True)
    samples, bits = len(answer.output) // setting.width(), 8 * len(given)
    reported = FOUND.fullmatch(done.stdout) if answer.status == 0 else TESTED.fullmatch(done.stderr)
    if done.returncode != answer.status or not reported or (done.stdout == "") == (answer.status == 0):
        yield f"a test with status {done.returncode}, {done.stdout!r} and {done.stderr!r}"
    elif answer.status == 0 and (int(reported["samples"]) != samples or int(reported["bits"]) > bits or done.stderr):
        yield f"a test that found {done.stdout!r}"
    elif answer.status == 1 and (reported["fault"] + "\n" != answer.errors or int(reported["block"]) != samples // setting.block):
        yield f"a test with {done.stderr!r}"
    elif answer.status == 1 and (int(reported["byte"]) != int(reported["bit"]) // 8 or int(reported["bit"]) >= max(bits, 1)):
        yield f"a test with {done.stderr!r}"


def report(faults, words, given):
    """Prints what is wrong with a run; answers how many things."""
    faults = list(faults)
    for fault in faults:
        print(f"hostile: {fault}: aec {' '.join(words)}, input {given[:300].hex()}", flush=True)
    return len(faults)


def decode(setting, count, given, tests=False):
    words = ["-d", *setting.words()] + ([] if count is None else ["--samples", str(count)])
    answer = run(words, given)
    faults = [*faults_of_decoding(answer, setting, count, given), *(faults_of_test(words[1:], answer, setting, given) if tests else ())]
    return answer, report(faults, words, given)


def encode(setting, given):
    """Encodes, and decodes what is a code."""
    answer = run(setting.words(), given)
    wrong = report(faults_of_any(answer, ENCODING, given), setting.words(), given)
    if answer.status == 0:
        back, more = decode(setting, len(given) // setting.width(), answer.output)
        wrong += more + report(["another input"] if back.output != given else [], setting.words(), given)
    return answer.output, wrong


def smooth_samples(setting, number):
    """Samples of all tempers: still, slow, wild."""
    generator = random.Random(number)
    level, data = 0, b""
    for i in range(number):
        reach = [0, 0, 1, 3, 1 << setting.bits][i * 10 // number % 5]
        level = (level + generator.randint(-reach, reach)) % (1 << setting.bits)
        data += setting.spell(level)
    return data


def damage_code(place):
    """Every cut and every flipped bit of a code. Answers the runs and the faults."""
    setting, number = CODES[place]
    code, wrong = encode(setting, smooth_samples(setting, number))
    whole, more = decode(setting, None, code)
    wrong += more
    for end in range(len(code)):
        answer, more = decode(setting, None, code[:end])
        wrong += more + report([] if whole.output.startswith(answer.output) else ["no prefix"], setting.words(), code[:end])
    for bit in range(8 * len(code)):
        flipped = bytearray(code)
        flipped[bit // 8] ^= 0x80 >> bit % 8
        wrong += decode(setting, None if bit % 2 else number, bytes(flipped), tests=True)[1]
    return 17 * len(code) + 3, wrong


def try_random(seed):
    """A thousand random codes, and a tenth as many random inputs. Answers the runs and the faults."""
    generator = random.Random(seed)
    wrong = 0
    for _ in range(1000):
        given = generator.randbytes(generator.randint(0, 300))
        wrong += decode(random_setting(generator), generator.choice([None, 0, 1, 100]), given)[1]
    for _ in range(100):
        wrong += encode(random_setting(generator), generator.randbytes(generator.randint(0, 300)))[1]
    return 1100, wrong


def try_long(byte):
    """A long input of one byte under a few settings, as a code and as samples. Answers the runs and the faults."""
    settings = [Setting(), Setting(interval=4096, flags="N"), Setting(bits=16, block=64), Setting(bits=32, block=16)]
    given = bytes([byte]) * LONG
    wrong = 0
    for setting in settings:
        wrong += encode(setting, given)[1] + decode(setting, None, given)[1] + decode(setting, LONG, given)[1]
    return 4 * len(settings), wrong


def work_in(folder):
    signal.signal(signal.SIGINT, signal.SIG_IGN)
    os.chdir(tempfile.mkdtemp(dir=folder))


def main():
    inputs = int(sys.argv[2])
    with tempfile.TemporaryDirectory() as folder, ProcessPoolExecutor(initializer=work_in, initargs=(folder,)) as pool:
        jobs = [pool.submit(try_long, byte) for byte in (0x00, 0xFF)]
        jobs += [pool.submit(damage_code, place) for place in range(len(CODES))]
        jobs += [pool.submit(try_random, seed) for seed in range((inputs + 999) // 1000)]
        runs, wrong = (sum(numbers) for numbers in zip(*(job.result() for job in jobs)))
    print(f"hostile: {runs} runs, {wrong} faults")
    sys.exit(wrong > 0)


PROGRAM = os.path.abspath(sys.argv[1])
if __name__ == "__main__":
    main()
