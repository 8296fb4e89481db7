#!/usr/bin/env python3
"""Tries the links, paths, targets of make, commands, messages, figures and toolchains of the documents and the manual page.
(Options: scripts/options.py.) In the pages of FINISHED, it limits the lengths of sentences and of cells of tables. In the comments of
the C header and of public items of the crates, it limits those of sentences.

It runs commands that begin with `$` with the program, and compares their output. Of other commands it looks up the first word.

usage: documents.py PROGRAM
"""
import glob
import os
import random
import re
import shutil
import subprocess
import sys
import tempfile

FOLDERS = "crates|scripts|docs|recipes|man|completions|compat|python|vectors"
MANUAL = "man/aec.1"
HEADER = "include/rice.h"

# The pages whose sentences and cells keep to these limits.
PAGES = "ARCHITECTURE BENCHMARKS C CHANGES CODE COMPATIBILITY COOKBOOK DECISIONS PROOFS PROOFS-HOWTO PYTHON SPEED"
FINISHED = [MANUAL, "README.md", *(f"docs/{name}.md" for name in PAGES.split()), "python/README.md", HEADER]
MOST_WORDS, MOST_CHARACTERS = 30, 200


def read(path):
    with open(path) as file:
        return file.read()


def slug(heading):
    """The anchor that a heading gets."""
    return re.sub(r"[^\w\- ]", "", heading.lower()).replace(" ", "-")


def wrong_links(page):
    """The links that lead nowhere."""
    for link in re.findall(r"\]\(([^)\s]+)\)", read(page)):
        path, _, anchor = link.partition("#")
        if "://" in link:
            continue
        target = os.path.normpath(os.path.join(os.path.dirname(page), path)) if path else page
        if not os.path.exists(target):
            yield f"{page}: no file for the link {link}"
        elif anchor and anchor not in map(slug, re.findall(r"(?m)^#+ (.*)$", read(target))):
            yield f"{page}: no heading for the link {link}"


def wrong_names(page, targets):
    """The paths and the targets of make that are none."""
    text = read(page)
    for name in re.findall(rf"(?<![\w/.$-])(?:(?:{FOLDERS})/|\.ci/)[\w./*-]*[\w*]", text):
        pattern = name.replace("CRATE", "*")
        if not glob.glob(pattern) and not glob.glob(os.path.join(os.path.dirname(page), pattern)):
            yield f"{page}: no file {name}"
    for target in re.findall(r"(?m)(?:`|^ {4}|\$ )make ([a-z0-9-]+)", text):
        if target not in targets:
            yield f"{page}: no target {target} of make"


def wrong_commands(page):
    """The commands in indented lines whose first word is none. Those with `$` are run."""
    if not page.endswith(".md"):
        return
    text = re.sub(r"(?ms)^```.*?^```$", "", read(page))
    for block in re.findall(r"(?m)(?:^ {4}.*\n)+", text):
        if block.startswith("    $ ") or page == "docs/CODE.md":
            continue
        for line in block.splitlines():
            word = line.split()[0]
            if word not in ("aec", "rt") and not (os.path.exists(word) or shutil.which(word)):
                yield f"{page}: no command {word}"


def shell_blocks(page):
    """The lines of commands and of what they print."""
    if page == MANUAL:
        return re.findall(r"(?ms)^\.Bd -literal.*?\n(.*?)^\.Ed$", read(page))
    return [re.sub(r"(?m)^    ", "", block) for block in re.findall(r"(?m)^ {4}\$ .*\n(?: {4}.*\n)*", read(page))]


def run(script):
    """Runs lines of a shell in a folder that has the files of the examples."""
    generator = random.Random(1)
    with tempfile.TemporaryDirectory() as folder:
        os.symlink(shutil.which("aec"), os.path.join(folder, "aec"))
        for name, data in (
            ("frame.raw", generator.randbytes(131072)),
            ("sensor.raw", generator.randbytes(90000)),
            ("samples.bin", generator.randbytes(10000)),
            ("camera.raw", bytes(10000)),
        ):
            with open(os.path.join(folder, name), "wb") as file:
                file.write(data)
        return subprocess.run(["bash", "-e", "-o", "pipefail", "-c", script], cwd=folder, capture_output=True, text=True)


def wrong_output(page):
    """The commands of a page that fail or print otherwise."""
    lines = "".join(shell_blocks(page)).splitlines()
    done = run("\n".join(line[2:] for line in lines if line.startswith("$ ")))
    shown = "".join(line + "\n" for line in lines if not line.startswith("$ "))
    if done.returncode != 0 or done.stdout != shown:
        yield f"{page}: its commands print {done.stdout!r}, with status {done.returncode} and {done.stderr!r}"


def wrong_examples(help_text):
    """The examples of the help that fail."""
    done = run(help_text.partition("Examples:\n")[2])
    if done.returncode != 0:
        yield f"help: its examples fail with {done.stderr!r}"


def wrong_messages():
    """The messages of scripts/rows.txt and of the sources that the manual does not explain."""
    numbered = lambda text: re.sub(r"\b\d+\b|\{\w+\}", "N", re.sub(r"\{(name|fault|reason)\}", lambda found: found[1].upper(), text))
    explained = {numbered(text) for text in re.findall(r'(?m)^\.It "(.*)"$', read(MANUAL))}
    messages = set(re.findall(r"(?m)^  says aec: (.*)$", read("scripts/rows.txt")))
    messages = {re.sub(r"^(cannot \w+) .*", r"\1 NAME", re.sub(r"^.*(?= \(block)", "FAULT", text)) for text in messages}
    for crate in ("aec_command", "aec_run", "rice_stream"):
        for path in glob.glob(f"crates/{crate}/src/**/*.rt", recursive=True):
            texts = dict(re.findall(r'const (\w+): &str =\s*"([^"]+)";', read(path)))
            messages |= set(re.findall(r'#\[error\("([^"]+)"\)\]', read(path)))
            messages |= {texts[name] for name in re.findall(r'#\[error\("\{text\}", text = (\w+)\)\]', read(path))}
    for message in sorted(messages):
        if numbered(message) not in explained:
            yield f"{MANUAL}: the message {message!r} is not explained"


def doc_comments(path):
    """The doc comments of a file and of its public items, also of the methods of a trait and of the variants of an enum."""
    text = read(path)
    block = r"(?m)((?:^ *///.*\n)+)(?:^ *#\[.*\n)*"
    bodies = re.findall(r"(?m)^( *)pub (?:trait|enum) .*\{\n((?:.*\n)*?)\1\}", text)
    blocks = re.findall(r"(?m)(?:^//!.*\n)+", text) + re.findall(block + r"(?= *pub )", text)
    blocks += [found for _, body in bodies for found in re.findall(block, body)]
    return re.sub(r"(?m)^ *//[/!] ?", "", "\n".join(blocks))


def prose(page):
    """The lines of a page without code: each a heading, a paragraph, an item or a row of a table. Code in a line is one word."""
    if page == HEADER:
        comments = "\n\n".join(re.findall(r"(?s)/\*(.*?)\*/", read(page)))
        items = re.sub(r"(?m)^ \* {2,3}(?=- |RICE_)", "\n\n", comments)
        return re.sub(r"(?<!\n)\n(?!\n)", " ", re.sub(r"(?m)^ \* *", "", items)).splitlines()
    text = doc_comments(page) if page.endswith(".rt") else read(page)
    text = re.sub(r"(?ms)^```.*?^```$|^\.Bd.*?^\.Ed$", "", text)
    if page.endswith(".rt"):
        text = re.sub(r"(?<!\n)\n(?!\n|- | {4})", " ", text)
    if page == MANUAL:
        text = re.sub(r"(?m)^\.(?:Pp|S[hs]|It|Bl|El|Dl)\b.*$", "\n", text.partition(".Sh DESCRIPTION\n")[2])
        text = re.sub(r"(?<!\n)\n(?!\n)", " ", re.sub(r"(?m)^\.\w\w ?", "", text))
    text = re.sub(r"`[^`]+`", "code", re.sub(r"!?\[([^]]*)\]\([^)]*\)", r"\1", text))
    return [line for line in text.splitlines() if not line.startswith("    ")]


def wrong_lengths(page):
    """The sentences and the cells that are too long."""
    for line in prose(page):
        if line.startswith("|"):
            cells = map(str.strip, re.split(r"(?<!\\)\|", line))
            long = [cell for cell in cells if len(cell) > MOST_CHARACTERS]
        else:
            sentences = re.split(r"(?<=[.!?])\s+|(?<=[.!?][\")*])\s+", line)
            long = [sentence for sentence in sentences if len(re.findall(r"\S*\w\S*", sentence)) > MOST_WORDS]
        yield from (f"{page}: too long: {text}" for text in long)


def wrong_figures():
    """The rows of tables of compressors that have other figures than the file of these."""
    rows = [line.split("\t") for line in read("docs/benchmarks/others.tsv").splitlines()]
    figures = {name: cells for name, *cells in rows}
    for page in ("README.md", "docs/BENCHMARKS.md"):
        for line in re.findall(r"(?m)^\|.*\|$", read(page)):
            name, *cells = map(str.strip, line.strip("|").split("|"))
            wrong = [cell for cell in cells if cell not in figures.get(name, cells)]
            yield from (f"{page}: docs/benchmarks/others.tsv does not have {cell} for {name}" for cell in wrong)


def wrong_toolchains():
    """The pages that name other versions of the toolchain than those that are known to pass."""
    known = read("docs/toolchains.txt").split()
    for page in ("README.md", "docs/PROOFS.md"):
        named = sorted(set(re.findall(r"rattle-kit-\w+", read(page))))
        if named != known:
            yield f"{page}: names the toolchains {named}, where docs/toolchains.txt has {known}"


def main():
    program = os.path.abspath(sys.argv[1])
    os.chdir(os.path.join(os.path.dirname(os.path.abspath(__file__)), ".."))
    pages = ["README.md", "vectors/README.md", *sorted(glob.glob("docs/*.md")), MANUAL]
    targets = re.findall(r"(?m)^([a-z0-9-]+):", read("Makefile"))
    help_text = subprocess.run([program, "--help"], capture_output=True, text=True, check=True).stdout
    wrong = [text for page in pages for text in (*wrong_links(page), *wrong_names(page, targets), *wrong_commands(page))]
    held = [*FINISHED, *sorted(glob.glob("crates/*/src/**/*.rt", recursive=True))]
    wrong += [*wrong_messages(), *wrong_figures(), *wrong_toolchains(), *(text for page in held for text in wrong_lengths(page))]
    with tempfile.TemporaryDirectory() as folder:
        os.symlink(program, os.path.join(folder, "aec"))
        os.environ["PATH"] = folder + ":" + os.environ["PATH"]
        wrong += [*wrong_output("README.md"), *wrong_output(MANUAL), *wrong_examples(help_text)]
    for text in wrong:
        print(f"documents: {text}")
    print(f"documents: {len(pages)} pages, {len(wrong)} wrong")
    sys.exit(len(wrong) > 0)


main()
