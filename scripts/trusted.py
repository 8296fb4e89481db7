#!/usr/bin/env python3
"""Lists the definitions on which the promises of `encode` and `decode` depend: those that their contracts name, and those that these name,
and so on. To trust the promises is to trust these, by files, and no other line of specs/. Fails if docs/TRUSTED.md differs.

usage: trusted.py           compare docs/TRUSTED.md with the sources
       trusted.py --write   write it
"""
import collections
import os
import re
import sys

PAGE = "docs/TRUSTED.md"
PROMISES = [("encode", "rice_stream", "src/encoding.rt"), ("decode", "rice_stream", "src/decoding.rt")]
HEAD = re.compile(r"( *)(?:(?:pub|abbrev|unfoldable|opaque|data|record) )*([^\s:(){}]+)(?: .*)? : ")
KEYWORD = re.compile(r" *(use|module|where|--|\)|\|)")
USE = re.compile(r"(?m)^(?:ghost )?(?:pub )?use (Rattle\.\w+\.specs(?:\.[\w.]+)?)\.\{(.*?)\}", re.S)
WORD = re.compile(r"[^\s(){}\[\],;.]+")
TOP = """# What a reader trusts

`scripts/trusted.py --write` makes this page, and `scripts/trusted.py` compares it with the sources.

The contracts of `encode` and `decode` ([encoding.rt](../crates/rice_stream/src/encoding.rt),
[decoding.rt](../crates/rice_stream/src/decoding.rt)) use definitions. The tables list, by file, these and all `specs/` definitions on which
they depend. To trust the contracts, read these definitions, and [PROOFS.md](PROOFS.md#what-is-trusted) on the toolchain. Read also:

- the types of `crates/rice_stream/src/outcome.rt`;
- the `ghost` lines of the type `Setting` (`crates/rice_samples/src/setting.rt`), and the definitions behind them;
- the contracts of `Intake` and `Outlet` (`crates/rice_bits/src/device.rt`), and the definitions behind them.

No other definition in `specs/` or `proofs/` changes what the contracts mean. The toolchain defines `length`, `take`, `All` and similar words.
"""


def read(path):
    with open(path, encoding="utf-8") as file:
        return file.read()


def module_file(module):
    """The file of a module of this repository's definitions, where it has one."""
    crate, path = re.fullmatch(r"Rattle\.(\w+)\.specs\.([\w.]+)", module).groups()
    file = f"crates/{crate}/specs/{path.replace('.', '/')}.antt"
    return file if os.path.isfile(file) else None


def imports(text):
    """The module of each name that a text takes from another. Names of several modules may share a line."""
    found = {}
    for module, names in USE.findall(text):
        for name in names.split(","):
            *inner, word = name.split(" as ")[-1].strip().split(".")
            found[word] = ".".join([module, *inner])
    return found


def definitions(text):
    """The texts of a file's definitions by name. A definition goes on to the next one that is as far in."""
    found, name, depth = collections.defaultdict(list), None, 0
    for line in text.split("\n"):
        head = HEAD.match(line)
        if head and not KEYWORD.match(line) and (name is None or len(head[1]) <= depth):
            name, depth = head[2], len(head[1])
        elif line.strip() and KEYWORD.match(line) and len(line) - len(line.lstrip()) <= depth:
            name = None
        if name:
            found[name].append(line.split("--")[0])
    return {name: "\n".join(lines) for name, lines in found.items()}


def contract(crate, file, name):
    """The head of a function, with its clauses."""
    head = re.search(rf"(?ms)^pub fn {name}\b.*?^{{$", read(f"crates/{crate}/{file}"))[0]
    return re.sub(r"//.*", "", head)


def trusted(name, crate, file):
    """The definitions that a contract rests on, by file."""
    found = collections.defaultdict(set)
    known = imports(read(f"crates/{crate}/{file}"))
    left = [(known[word], word) for word in WORD.findall(contract(crate, file, name)) if word in known]
    while left:
        module, word = left.pop()
        path = module_file(module)
        if not path or word in found[path]:
            continue
        text = read(path)
        own, others = definitions(text), imports(text)
        if word not in own:
            continue
        found[path].add(word)
        for used in set(WORD.findall(own[word])) - {word}:
            left += [(module, used)] if used in own else [(others[used], used)] if used in others else []
    return {path: words for path, words in found.items() if words}


def page():
    lines = [TOP]
    for name, crate, file in PROMISES:
        found = trusted(name, crate, file)
        count = sum(map(len, found.values()))
        lines += [f"## `{name}`\n", f"{count} definitions in {len(found)} files.\n", "| file | definitions |", "|---|---|"]
        for path in sorted(found):
            words = ", ".join(f"`{word}`" for word in sorted(found[path]))
            lines.append(f"| [{path.removeprefix('crates/')}](../{path}) | {words} |")
        lines.append("")
    return "\n".join(lines)


def main(words):
    os.chdir(os.path.join(os.path.dirname(os.path.realpath(__file__)), ".."))
    made = page()
    if words == ["--write"]:
        with open(PAGE, "w", encoding="utf-8") as file:
            file.write(made)
        return 0
    if not os.path.isfile(PAGE) or read(PAGE) != made:
        print(f"trusted: {PAGE} is not what the sources say: scripts/trusted.py --write", file=sys.stderr)
        return 1
    print("trusted:", "; ".join(f"{name}: {sum(map(len, trusted(name, crate, file).values()))} definitions" for name, crate, file in PROMISES))
    return 0


if __name__ == "__main__":
    sys.exit(main(sys.argv[1:]))
