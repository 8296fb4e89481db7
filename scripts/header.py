#!/usr/bin/env python3
"""Compares include/rice.h with the library and with its crate.

The library's object must call only what the header says, and hold no memory that changes. The header must declare the exported functions,
with the parameters, the fields of structs and the numbers of statuses of the crate. It must compile as C and C++, of old standards and
new, and refuse machines for which the library is not built.

usage: header.py LIBRARY
"""
import glob
import os
import re
import subprocess
import sys

CALLED = {"memcpy", "memmove", "memset"}
STRUCTS = {"rice_setting": ["RiceSetting"], "rice_report": ["RiceReport"], "rice_feed": ["RiceFeed", "Seam"], "rice_drain": ["RiceDrain", "Stand"]}
LANGUAGES = [("cc", "c", standard) for standard in ("c99", "c11", "c17")] + [("c++", "c++", standard) for standard in ("c++98", "c++11", "c++17")]
# What the header wants, and flags of a compiler without it.
WANTED = {
    "pointers_of_eight_bytes": ["-m32", "-ffreestanding"],
    "the least significant byte first": ["-U__BYTE_ORDER__", "-D__BYTE_ORDER__=__ORDER_BIG_ENDIAN__"],
    "the_setting_of_the_library": ["-fpack-struct"],
}
NUMBERS = {"u32": "uint32_t", "u64": "uint64_t", "i64": "int64_t", "bool": "bool"}


def read(path):
    with open(path) as file:
        return file.read()


def snake(name):
    return re.sub(r"(?<=[a-z])(?=[A-Z])", "_", name).lower()


def symbols(library):
    """The symbols of an archive: their letters as `nm` has them, and their names."""
    lines = subprocess.run(["nm", library], capture_output=True, text=True, check=True).stdout.splitlines()
    return [(line.split()[-2], line.split()[-1]) for line in lines if len(line.split()) >= 2]


def wrong_object(library, declared):
    """What the object calls, holds or exports otherwise than the header says."""
    found = symbols(library)
    named = lambda letters: {name for letter, name in found if letter in letters}
    if named("Uwv") != CALLED:
        yield f"the object calls {sorted(named('Uwv'))}"
    if named("bBdDcCsSgG"):
        yield f"the object has memory that changes: {sorted(named('bBdDcCsSgG'))}"
    for name in sorted(named("TW") ^ declared):
        yield f"the function {name} is not in the header and the object both"


def c_types(kind):
    """The types in C of a parameter of this type of the crate, and what its name has after it."""
    changes, plain = kind.startswith("&mut "), kind.removeprefix("&mut ").removeprefix("&")
    const = "" if changes else "const "
    if plain == "[u8]":
        return [f"{const}uint8_t *", "size_t "]
    return [f"{const}struct {snake(plain)} *"] if kind.startswith("&") else [f"{NUMBERS[kind]} "]


def functions_of_header(header):
    """For each function the types of its parameters and of its result."""
    found = {}
    for result, name, parameters in re.findall(r"(?m)^(uint\d\d_t) (rice_\w+)\(([^)]*)\);", header):
        each_of = [" ".join(each.split()) for each in parameters.split(",") if each != "void"]
        found[name] = [re.sub(r"\w+$", "", each) for each in each_of] + [result]
    return found


def functions_of_crate(texts):
    found = {}
    for name, parameters, result in re.findall(r'extern "C" fn (\w+)\(([^)]*)\) -> (\w+)', texts):
        kinds = [each.split(":")[1].strip() for each in parameters.split(",") if each.strip()]
        found[name] = [kind for each in kinds for kind in c_types(each)] + [NUMBERS[result]]
    return found


def fields_of_header(header, name):
    body = re.search(rf"(?ms)^struct {name} \{{(.*?)^\}};", header)[1]
    return re.findall(r"(?m)^ +((?:struct )?\w+) (\w+);", body)


def fields_of_crate(texts, names):
    """The fields of structs that stand one in the other, as C has them."""
    for name in names:
        body = re.search(rf"(?ms)^#\[repr\(C\)\]\n(?:#[^\n]*\n)*pub struct {name} \{{(.*?)^\}}", texts)[1]
        for field, kind in re.findall(r"(?m)^ +pub (\w+): (\w+),", body):
            if kind not in names:
                yield NUMBERS.get(kind, f"struct {snake(kind)}"), field


def statuses(text, pattern):
    return {name.lower().replace("_", ""): int(number) for name, number in re.findall(pattern, text)}


def wrong_declarations(header, texts):
    ours, theirs = functions_of_crate(texts), functions_of_header(header)
    for name in sorted(ours.keys() | theirs.keys()):
        if ours.get(name) != theirs.get(name):
            yield f"{name}: {theirs.get(name)} in the header, {ours.get(name)} in the crate"
    for name, structs in STRUCTS.items():
        if fields_of_header(header, name) != list(fields_of_crate(texts, structs)):
            yield f"struct {name} has other fields in the header than in the crate"
    declared = statuses(header, r"(?m)^    RICE_(\w+) = (\d+)")
    if not declared or declared != statuses(texts, r"Status::(\w+) => (\d+),"):
        yield "the statuses have other numbers in the header than in the crate"


def wrong_version(header, texts, changelog):
    """The version of the header, and that of the library and of the Debian packages. What is installed has the header's."""
    numbers = [int(number) for number in re.findall(r"(?m)^#define RICE_VERSION_(?:MAJOR|MINOR|PATCH) (\d+)$", header)]
    text = ".".join(map(str, numbers))
    library = re.search(r"fn rice_version\(\) -> u32\s+ensures \{ result ≡ (\d+) \}", texts)
    if len(numbers) != 3 or not library or int(library[1]) != numbers[0] * 10000 + numbers[1] * 100 + numbers[2]:
        yield "the library has another version than the header"
    if f'#define RICE_VERSION_TEXT "{text}"\n' not in header or not changelog.startswith(f"rice-aec ({text}) "):
        yield "the texts of the version are others"


def errors(command, language, standard, flags=()):
    """What a compiler says of the header."""
    compiler = os.environ.get("CC", command) if command == "cc" else command
    words = [compiler, f"-std={standard}", *flags, "-pedantic", "-Wall", "-Wextra", "-Werror", "-Iinclude", "-fsyntax-only", "-x", language, "-"]
    return subprocess.run(words, input="#include <rice.h>\n", capture_output=True, text=True).stderr.strip()


def wrong_languages():
    """The standards by which the header is refused, and those by which it is taken without what it wants."""
    for command, language, standard in LANGUAGES:
        if said := errors(command, language, standard):
            yield f"{standard}: {said}"
        for wanted, flags in WANTED.items():
            if wanted not in errors(command, language, standard, flags):
                yield f"{standard}: the header does not ask for {wanted}"


def main():
    library = os.path.abspath(sys.argv[1])
    os.chdir(os.path.join(os.path.dirname(os.path.abspath(__file__)), ".."))
    header = read("include/rice.h")
    texts = "".join(map(read, sorted(glob.glob("crates/rice_c/src/*.rt") + glob.glob("crates/rice_calls/src/*.rt")))) + read("crates/rice_stream/src/seam.rt") + read("crates/rice_stream/src/stand.rt")
    wrong = [
        *wrong_object(library, set(functions_of_header(header))),
        *wrong_declarations(header, texts),
        *wrong_version(header, texts, read("debian/changelog")),
        *wrong_languages(),
    ]
    for text in wrong:
        print(f"header: {text}")
    print(f"header: {len(functions_of_header(header))} functions, {len(STRUCTS)} structs, {len(LANGUAGES)} standards, {len(wrong)} wrong")
    sys.exit(len(wrong) > 0)


main()
