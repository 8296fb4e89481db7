#!/usr/bin/python3
"""Types command lines with tabs into bash and zsh, and compares the words that they become.

In each shell `aec` is a function that prints its words, after the completions of a prefix are loaded. The offers of tabs, read off the
screen, must have each option of the program's help.

usage: completions.py PROGRAM PREFIX
"""
import os
import re
import shutil
import subprocess
import sys
import tempfile

import pexpect

PATIENCE = 20  # seconds
READY = "ready-now"
HIDDEN = "ready''-now"  # what a shell shows as READY when it has run, and not where it is typed
PROMPT = "next: "  # a shell that shows it takes keys one by one

START = {
    "bash": (
        ["bash", "--norc", "--noprofile", "-i"],
        "source {prefix}/share/bash-completion/completions/aec; bind 'set bell-style none'; bind 'set page-completions off'",
    ),
    "zsh": (
        ["zsh", "-f", "-i"],
        "unsetopt beep; fpath=({prefix}/share/zsh/site-functions $fpath); autoload -U compinit; compinit -u -D",
    ),
}
PRINTS = "aec() { printf '<%s>' \"$@\"; echo; }"

# What is typed after `aec `, with tabs, and the words that it becomes.
CASES = [
    ("--sam\t5 x y", "<--samples><5><x><y>"),
    ("--vers\t", "<--version>"),
    ("--verb\t fr\t y", "<--verbose><frame.raw><y>"),
    ("--te\t fr\t", "<--test><frame.raw>"),
    ("--h\t", "<--help>"),
    ("-j 1\t fr\t y", "<-j><16><frame.raw><y>"),
    ("-n 2\t fr\t y", "<-n><24><frame.raw><y>"),
    ("-r 12\t -d fr\t y", "<-r><128><-d><frame.raw><y>"),
    ("-n 16 fr\t ou\t", "<-n><16><frame.raw><out.aec>"),
]


class Shell:
    """A shell that works in a folder, with its keyboard and its screen."""

    def __init__(self, name, prefix, folder):
        (program, *words), start = START[name]
        environment = {**os.environ, "TERM": "dumb", "PS1": PROMPT, "HOME": folder}
        self.child = pexpect.spawn(program, words, cwd=folder, env=environment, encoding="utf-8", codec_errors="replace", timeout=PATIENCE)
        self.child.delaybeforesend = None
        self.wait_for(PROMPT)
        self.child.send(f"{start.format(prefix=prefix)}; {PRINTS}; COLUMNS=200; echo {HIDDEN}\n")
        self.answer(READY)

    def wait_for(self, text):
        """What the screen shows next, up to a text, or all of it where that does not come."""
        self.child.expect_exact([text, pexpect.TIMEOUT])
        return self.child.before + (self.child.after if self.child.after == text else "")

    def answer(self, text):
        """What the screen shows up to a text, once the shell waits again."""
        shown = self.wait_for(text)
        self.wait_for(PROMPT)
        return shown

    def words(self, keys):
        """The words that a command line becomes."""
        self.child.send(f"aec {keys}\n")
        shown = re.findall(r"(?m)^(?:<[^<>\r\n]*>)+(?=\r)", self.answer(">\r\n"))
        return shown[-1] if shown else "nothing"

    def offers(self, keys):
        """What two tabs show after a command line that is then given up."""
        self.child.send(f"aec {keys}\t\t\x15echo {HIDDEN}\n")
        return self.answer(READY)

    def close(self):
        self.child.send("exit\n")
        self.child.expect([pexpect.EOF, pexpect.TIMEOUT])
        self.child.close()


def options_of(program):
    """The options of a program, by its help."""
    reported = subprocess.run([program, "--help"], capture_output=True, text=True, check=True).stdout
    lines = [line.split("  ")[0] for line in re.findall(r"(?m)^ +(-.*)$", reported)]
    return [option for line in lines for option in re.findall(r"--?[A-Za-z0-9][\w-]*", line)]


def try_shell(name, program, prefix, folder):
    """Tries one shell; answers what is wrong."""
    shell, wrong = Shell(name, prefix, folder), []
    for keys, wanted in CASES:
        words = shell.words(keys)
        if words != wanted:
            wrong.append(f"{name}: aec {keys!r} becomes {words}")
    offered = re.findall(r"(?<![\w-])--?\w[\w-]*", shell.offers("-"))
    wrong += [f"{name}: {option} is not offered" for option in options_of(program) if option not in offered]
    shell.close()
    return wrong


def main():
    program, prefix = (os.path.abspath(path) for path in sys.argv[1:])
    wrong = []
    for name in START:
        if shutil.which(name) is None:
            wrong.append(f"{name} is missing")
            continue
        with tempfile.TemporaryDirectory() as folder:
            for file in ("frame.raw", "out.aec"):
                open(os.path.join(folder, file), "w").close()
            wrong += try_shell(name, program, prefix, folder)
    for text in wrong:
        print(f"completions: {text}")
    print(f"completions: {len(START)} shells, {len(CASES)} lines in each, {len(wrong)} wrong")
    sys.exit(len(wrong) > 0)


main()
