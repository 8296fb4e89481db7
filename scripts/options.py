#!/usr/bin/env python3
"""Compares all lists of the program's options with scripts/options.txt: its help, the manual page, README's table and the completions for
bash and zsh. Fails on any difference.

usage: options.py PROGRAM   compare
       options.py --write   write README's table and the completions
"""
import os
import re
import subprocess
import sys

LIST, README, MANUAL = "scripts/options.txt", "README.md", "man/aec.1"
BASH, ZSH = "completions/aec.bash", "completions/_aec"
HEAD = "| option | meaning (default) |\n|---|---|\n"


class Option:
    """An option: its letter, its long name and the name of its value, each empty where it has none; and what is said of it."""

    def __init__(self, line):
        words = line.replace(",", "").split()
        found = [word for word in words if word.startswith("-")]
        self.value = "".join(word for word in words if not word.startswith("-"))
        self.letter = next((name for name in found if not name.startswith("--")), "")
        self.long = next((name for name in found if name.startswith("--")), "")
        self.help = self.meaning = self.default = self.offers = ""

    @property
    def names(self):
        return [name for name in (self.letter, self.long) if name]

    @property
    def lower(self):
        """The help as a part of a sentence."""
        return self.help[0].lower() + self.help[1:]

    @property
    def ends(self):
        """Whether nothing else is done beside it."""
        return self.long in ("--help", "--version")

    def help_names(self):
        value = f" <{self.value}>" if self.value else ""
        return ("  " + ", ".join(self.names) if self.letter else "      " + self.long) + value

    def help_text(self):
        return self.help + (f" [default: {self.default}]" if self.default else "")

    def row(self):
        """The row of README."""
        names = [f"`{name}`" for name in self.names]
        if self.value:
            names[-1] = f"`{self.names[-1]} {self.value}`"
        return f"| {', '.join(names)} | {self.meaning or self.lower}{f' ({self.default})' if self.default else ''} |\n"

    def item(self):
        """The item of the manual."""
        value = f" Ar {self.value.lower()}" if self.value else ""
        return f"Fl {' , '.join(name[1:] for name in self.names)}{value}"

    def zsh(self):
        value = f":{self.value.lower()}:{f'({self.offers})' if self.offers else ''}" if self.value else ""
        names = f"'{self.names[0]}"
        if len(self.names) > 1:
            apart = "- *" if self.ends else " ".join(self.names)
            names = f"'({apart})'{{{','.join(self.names)}}}'"
        return f"    {names}[{self.lower}]{value}' \\\n"


def read(path):
    with open(path) as file:
        return file.read()


def options():
    found = []
    for line in read(LIST).splitlines():
        if line.startswith("-"):
            found.append(Option(line))
        elif line.startswith("  "):
            field, _, text = line.strip().partition(" ")
            setattr(found[-1], field, text)
    return found


def help_lines(listed):
    width = max(len(option.help_names()) for option in listed) + 2
    return [option.help_names().ljust(width) + option.help_text() for option in listed]


def table(listed):
    return HEAD + "".join(option.row() for option in listed)


def zsh(listed):
    lines = "".join(option.zsh() for option in listed)
    return f"#compdef aec\n# Completion of aec(1) in zsh.\n_arguments -s -S \\\n{lines}    '1:source:_files' \\\n    '2:dest:_files'\n"


def bash(listed):
    free = " | ".join(name for option in listed if option.value and not option.offers for name in option.names)
    cases = "".join(f"        {' | '.join(option.names)}) words='{option.offers}' ;;\n" for option in listed if option.offers)
    every = " ".join(name for option in listed for name in option.names)
    return f"""# Completion of aec(1) in bash.
_aec() {{
    local word=${{COMP_WORDS[COMP_CWORD]}} words=
    case ${{COMP_WORDS[COMP_CWORD - 1]}} in
        {free}) return ;;
{cases}        *)
            if [[ $word == -* ]]; then
                words='{every}'
            else
                compopt -o default
            fi
            ;;
    esac
    COMPREPLY=($(compgen -W "$words" -- "$word"))
}}
complete -o nosort -F _aec aec
"""


def written(listed):
    """The files that are written from the list, and what they have then."""
    before, head, rest = read(README).partition(HEAD)
    rest = rest[re.match(r"(?:\|.*\n)*", rest).end() :]
    yield README, before + (table(listed) if head else "") + rest
    yield ZSH, zsh(listed)
    yield BASH, bash(listed)


def synopsis_letters(listed):
    """The letters of the manual's synopsis: those without a value together, but for -d, and those with one by themselves."""
    plain = "".join(option.letter[1:] for option in listed if option.letter and not option.value and not option.ends and option.letter != "-d")
    return plain, [f"Fl {(option.letter or option.long)[1:]} Ar {option.value.lower()}" for option in listed if option.value]


def wrong(listed, program):
    reported = subprocess.run([program, "--help"], capture_output=True, text=True, check=True).stdout
    found = re.findall(r"(?m)^ +-.*$", reported.partition("Options:\n")[2].partition("\n\n")[0])
    for line in set(found) ^ set(help_lines(listed)):
        yield f"the help {'has' if line in found else 'lacks'}: {line}"
    if found != help_lines(listed):
        yield "the help has another order"
    manual = read(MANUAL)
    items = re.findall(r"(?m)^\.It (Fl .*)$", manual.partition("The options are:")[2].partition(".El")[0])
    if items != [option.item() for option in listed]:
        yield f"{MANUAL}: its options are {items}"
    synopsis = manual.partition(".Sh SYNOPSIS")[2].partition(".Sh DESCRIPTION")[0]
    together, apart = synopsis_letters(listed)
    for part in synopsis.split(".Nm aec\n")[1:4]:
        if sorted(re.search(r"\.Op Fl (\w+)\n", part)[1]) != sorted(together):
            yield f"{MANUAL}: its synopsis has not the options {together} together"
        wanted = {text for text in apart if ".Fl d\n" in part or ".Fl -test\n" in part or "samples Ar n" not in text}
        if set(re.findall(r"\.Op (Fl \S+ Ar \S+)", part)) != wanted:
            yield f"{MANUAL}: its synopsis has not the options {sorted(wanted)}"
    for path, text in written(listed):
        if read(path) != text:
            yield f"{path} is not as the list has it: scripts/options.py --write"
        if path == README and HEAD not in text:
            yield f"{README} has no table of options"


def main():
    program = os.path.abspath(sys.argv[1])
    os.chdir(os.path.join(os.path.dirname(os.path.abspath(__file__)), ".."))
    listed = options()
    if sys.argv[1] == "--write":
        for path, text in written(listed):
            with open(path, "w") as file:
                file.write(text)
        return
    faults = list(wrong(listed, program))
    for text in faults:
        print(f"options: {text}")
    print(f"options: {len(listed)} options in five lists, {len(faults)} differ")
    sys.exit(len(faults) > 0)


main()
