#!/usr/bin/env python3
"""Makes wrong wrappers of readers, writers and the runtime, and checks that the tests refuse each.

A contract sees the bytes that a reader or a writer of `std` reports, and not its failures. So a wrapper that only reports a failure meets
all its clauses, and so does one that tries again: only the tests refuse them. The same holds for the command's system, since a runtime of
`std` reports nothing of its files. This script puts the wrong bodies into copies of the sources, and runs the tests there without proofs.

usage: wrong_wrappers.py
"""
import pathlib
import re
import shutil
import subprocess
import sys
import tempfile

ROOT = pathlib.Path(__file__).resolve().parent.parent
WRAP = "crates/rice_bits/src/device/over_std.rt"
BUFFERED = "crates/rice_bits/src/device/over_buf_writer.rt"
HOST = "crates/aec_run/src/host.rt"

READ = """\
        match self.reader.read(buf) {
            Ok(count) => Ok(count),
            Err(_) => {
                self.failures += 1;
                Err(ReadFault)
            }
        }
"""
WRITE = """\
        match self.writer.write(bytes) {
            Ok(count) if count > 0 => Ok(count),
            _ => {
                self.failures += 1;
                Err(WriteFault)
            }
        }
"""
READ_TWICE = """\
        if let Ok(count) = self.reader.read(buf) {
            return Ok(count);
        }
""" + READ
FAIL_READ = "        self.failures += 1;\n        Err(ReadFault)\n"
FAIL_WRITE = "        self.failures += 1;\n        Err(WriteFault)\n"

FLUSH = """\
        match dest.into_inner().flush() {
            Ok(()) => Ok(()),
            Err(_) => Err(WriteFault),
        }
"""
FLUSH_UNSEEN = "        let _ = dest.into_inner().flush();\n        Ok(())\n"
REOPEN = "        let (source, _) = self.open(name)?;\n        Ok(source)\n"
FAIL_REOPEN = "        Err(OpenFault)\n"

# The bodies that are wrong in one copy, with the crate of the tests: of each what is wrong, the file, the body as it stands, the wrong
# one, and a test that refuses it. Each of these tests refuses one of them alone.
WRONG = [
    ("rice_base_tests", [
        ("FromReader never reads", WRAP, READ, FAIL_READ, "bits::devices_over_readers"),
        ("FromWriter never writes", WRAP, WRITE, FAIL_WRITE, "bits::devices_over_writers"),
        ("FromBufWriter never writes", BUFFERED, WRITE, FAIL_WRITE, "bits::devices_over_buffers"),
    ]),
    ("rice_base_tests", [("FromReader tries again", WRAP, READ, READ_TWICE, "bits::devices_over_readers")]),
    ("aec_tool", [("Host opens the root", HOST, "open_to_read(self.rt, name)", 'open_to_read(self.rt, "/")', "tests::commands::reads_and_writes_files")]),
    ("aec_tool", [("Host creates no file", HOST, "options.open(rt, name)", "File::open(rt, name)", "tests::commands::reads_and_writes_files")]),
    ("aec_tool", [
        ("Host passes over a failed flush", HOST, FLUSH, FLUSH_UNSEEN, "tests::commands::tells_that_the_flush_failed"),
        ("Host opens no file once more", HOST, REOPEN, FAIL_REOPEN, "tests::commands::tells_that_a_file_can_not_be_opened_once_more"),
    ]),
]


def failed_tests(folder, crate):
    """Runs the tests of a crate in a folder, and returns the names of those that fail."""
    run = subprocess.run(["rt", "try", "--test"], cwd=folder / "crates" / crate, capture_output=True, text=True)
    if "test result:" not in run.stdout:
        sys.exit(f"wrappers: the tests did not run: {run.stdout}{run.stderr}")
    return re.findall(r"^test (\S+) \.\.\. FAILED", run.stdout, re.MULTILINE)


def turn(folder, name, file, body, wrong):
    """Puts a wrong body into the sources in a folder."""
    source = folder / file
    text = source.read_text()
    if text.count(body) != 1:
        sys.exit(f"wrappers: {name}: the body does not stand once in {file}")
    source.write_text(text.replace(body, wrong))


def main():
    for crate, bodies in WRONG:
        with tempfile.TemporaryDirectory() as where:
            folder = pathlib.Path(where)
            shutil.copytree(ROOT / "crates", folder / "crates", ignore=shutil.ignore_patterns("out"))
            for top in ("crates.txt", "HANDLES"):
                shutil.copy(ROOT / top, folder / top)
            for name, file, body, wrong, _ in bodies:
                turn(folder, name, file, body, wrong)
            failed = failed_tests(folder, crate)
            for name, *_, test in bodies:
                if test not in failed:
                    sys.exit(f"wrappers: {name}: {test} was to fail, and these did: {failed}")
                print(f"wrappers: {name}: refused by {test}", flush=True)


main()
