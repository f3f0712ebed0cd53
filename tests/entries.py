#!/usr/bin/env python3
"""Holds together what is said of the entry points: name by name, argument by argument.

    tests/entries.py [ARCHIVE]

Three places say what an entry point takes and tells: include/strikes.h to hosts in C, the table in hosts/rust/src/entries.rs to hosts
in Rust, and the code that is proved, crates/strikes_c/src. All must have the same entry points, with the same arguments in the same
order: words or bytes that are read or that may be altered, numbers and out numbers. The symbols of ARCHIVE must be theirs too. And
every entry point must be brought up where it could be forgotten: by the wrapper, and by lists of calls, where the parts of a reading
call must be its arguments. Where stacks are measured there must be a value for every argument.

First the test is tried on itself: each of the faults below, put into one of the texts, must be found. Status 0 only if nothing differs.
"""

import re
import subprocess
import sys
from itertools import zip_longest
from pathlib import Path

ROOT = Path(__file__).resolve().parent.parent

HEADER = "include/strikes.h"
TABLE = "hosts/rust/src/entries.rs"
CODE = "crates/strikes_c/src"
WRAPPER = "hosts/rust/src/gateway.rs"
MACHINE = "hosts/machine/src/lib.rs"
LOOKS = "tests/calls/src/look.rs"
STACK = "tests/stack/stack.c"

# Arguments whose name is not the table's, with the table's; of one entry point alone where it is named.
OTHER_NAMES = {
    HEADER: {"register_number": "register", "class_number": "class"},  # `register` is a keyword of C, `class` one of C++
    CODE: {"fp": "fingerprint", "begin.number": "floor"},
}

# How the wrapper and the machine that runs lists of calls bring an entry point up.
USE = r"\braw::(\w+)"

# What an argument is, by its type in Rust and in Rattle. A run of exactly one word is a pointer alone, as an out number is.
KINDS = {
    "u64": "a number",
    "&mut u64": "an out number",
    "&mut [u64; 1]": "an out number",
    "&[u64]": "words that are read",
    "&mut [u64]": "words that may be altered",
    "&[u8]": "bytes that are read",
    "&mut [u8]": "bytes that may be altered",
}

# Faults that must be found: the text, what stands in it (a pattern, which may fit more than once), and what stands there instead.
FAULTS = [
    (HEADER, r"uint64_t stamp, uint64_t reading", "uint64_t reading, uint64_t stamp"),
    (HEADER, r"uint64_t register_number,\s+uint64_t fingerprint", "uint64_t fingerprint, uint64_t register_number"),
    (HEADER, r"const uint64_t \*words", "uint64_t *words"),
    (HEADER, r"const uint8_t \*bytes", "uint8_t *bytes"),
    (HEADER, r"uint8_t \*out\b", "uint64_t *out"),
    (HEADER, r"uint64_t \*out\b", "uint8_t *out"),
    (HEADER, r"uint64_t \*out, size_t out_length", "uint64_t *out"),
    (HEADER, r"uint64_t \*begun", "uint64_t begun"),
    (HEADER, r", uint64_t \*published", ""),
    (HEADER, r"size_t limits_length", "uint64_t limits_length"),
    (HEADER, r"uint64_t strikes_close", "void strikes_close"),
    (HEADER, r"uint64_t strikes_close[^;]*;", ""),
    (TABLE, r"\bclose\(.*;", ""),
    (TABLE, r"words: &mut \[u64\], reading", "words: &[u64], reading"),
    (TABLE, r"\(whole, read\)", "(read, whole)"),
    (TABLE, r"\(rule, class, verdict\)", "(rule, verdict, class)"),
    (TABLE, r"\(found, stamp\)", "(stamp, found)"),
    (TABLE, r"\bpending\(", "waiting("),
    (CODE, r"flag: u64,\s+floor: u64", "floor: u64, flag: u64"),
    (CODE, r"#\[unsafe\(no_mangle\)\]\s", ""),
    (CODE, r"bytes: &\[u8\]", "bytes: &[u64]"),
    (CODE, r"out: &mut \[u64\]", "out: &mut [u64; 1]"),
    (WRAPPER, r"raw::sweep", "raw::swept"),
    (MACHINE, r"raw::take_batch", "raw::take"),
    (LOOKS, r"Swept swept\(.*", ""),
    (LOOKS, r"\(register, fingerprint\)", "(fingerprint, register)"),
    (LOOKS, r"\(who: Who\)", "(who)"),
    (LOOKS, r"flag, who: Who\)", "who: Who, flag)"),
    (LOOKS, r"who: Who, wanted: Wanted\)", "wanted: Wanted, who: Who)"),
    (LOOKS, r", length: Length\)", ")"),
    (STACK, r"\bclass_number\b", "class"),
    (STACK, r"\bwanted\b", "verdict"),
    (STACK, r"\bstarts_length\b", "starts"),
]


class Unread(Exception):
    """A text that is not as it is expected to be."""


def plain(text):
    """With single blanks alone."""
    return " ".join(text.split())


def parts(text):
    """What stands between commas."""
    return [plain(part) for part in text.split(",") if part.strip()]


def match(pattern, text, where):
    """The groups of a pattern that all of the text must fit."""
    found = re.fullmatch(pattern, plain(text))
    if not found:
        raise Unread(f"{where}: this is not understood: {plain(text)}")
    return found.groups()


def kind_of(kind, where):
    if kind not in KINDS:
        raise Unread(f"{where}: there is no such type: {kind}")
    return KINDS[kind]


def of_rust(arguments, where):
    """Arguments as `name: type`; one without a type is a number."""
    pairs = [match(r"(\w+)(?:: (.+))?", argument, where) for argument in parts(arguments)]
    return [(name, kind_of(kind or "u64", where)) for name, kind in pairs]


def out_numbers(names):
    return [(name, KINDS["&mut u64"]) for name in parts(names)]


def of_c(arguments, where):
    """Arguments in C: a pointer and its length are a run, a pointer alone is an out number."""
    left, read = parts(arguments), []
    while left:
        const, size, pointer, name = match(r"(const )?uint(8|64)_t (\*?)(\w+)", left.pop(0), where)
        kind = f"u{size}"
        if left and left[0] == f"size_t {name}_length":
            left.pop(0)
            kind = f"[{kind}]"
        if pointer:
            kind = ("&" if const else "&mut ") + kind
        read.append((name, kind_of(kind, where)))
    return read


def of_header(text):
    text = re.sub(r"/\*.*?\*/|^#.*?$", "", text, flags=re.S | re.M)
    text = re.sub(r'extern "C" \{(.*)\}', r"\1", text, flags=re.S)
    found = [match(r"uint64_t strikes_(\w+)\((.*)\)", one, HEADER) for one in text.split(";") if one.strip()]
    return {name: of_c(arguments, f"{HEADER}, {name}") for name, arguments in found}


def of_table(text):
    lines = re.sub(r"//.*", "", text.split("$make! {")[-1].split("}")[0])
    found = [match(r"(\w+)\((.*)\) -> \((.*)\)", one, TABLE) for one in lines.split(";") if one.strip()]
    return {name: of_rust(arguments, f"{TABLE}, {name}") + out_numbers(outs) for name, arguments, outs in found}


def of_looks(text):
    """What reading calls hand to their entry points beside settings and words, by name; a deliverer is two numbers, a wanted verdict one,
    a length an output."""
    lines = re.findall(r"^ +[A-Z]\w* (\w+)\((.*)\) -> \w+;$", text, flags=re.M)
    handed = {"who: Who": "kind, number", "wanted: Wanted": "wanted", "length: Length": "out"}
    return {name: parts(re.sub("|".join(handed), lambda part: handed[part[0]], said)) for name, said in lines}


def members(text):
    """The values of tests/stack/stack.c."""
    (struct,) = match(r".* static struct \{([^}]*)\} next = .*", text, STACK)
    return set(re.findall(r"\w+", struct))


def of_code(text):
    text = re.sub(r"//.*", "", text)
    found = re.findall(r'#\[unsafe\(no_mangle\)\]\s+pub extern "C" fn strikes_(\w+)\(([^()]*)\)\s+->\s+u64\b', text)
    for word in ["no_mangle", 'extern "C"']:
        if text.count(word) != len(found):
            raise Unread(f"{CODE}: `{word}` stands before something else than an entry point that returns u64")
    return {name: of_rust(arguments, f"{CODE}, {name}") for name, arguments in found}


def named(arguments, kind):
    return [name for name, of in arguments if of == KINDS[kind]]


def handed(arguments):
    """The names of what is handed in C: numbers, and runs with their lengths."""
    numbers, outs = named(arguments, "u64"), named(arguments, "&mut u64")
    each = [[name] if name in numbers else [name, f"{name}_length"] for name, _ in arguments if name not in outs]
    return sum(each, [])


def in_words(place, entry, arguments):
    """The arguments as text, under the names that they have in the table."""
    names = OTHER_NAMES.get(place, {})
    return [f"`{names.get(f'{entry}.{name}', names.get(name, name))}`, {kind}" for name, kind in arguments]


def missing(place, has, wanted, where):
    """A line for each name that a place lacks and another has."""
    return [f"{name} is in {where} and not in {place}" for name in sorted(wanted - has)]


def apart(place, entries, table):
    """Where the entry points of a place are not those of the table."""
    found = missing(place, set(entries), set(table), TABLE) + missing(TABLE, set(table), set(entries), place)
    for entry in sorted(set(entries) & set(table)):
        here, there = in_words(place, entry, entries[entry]), in_words(TABLE, entry, table[entry])
        for at, (a, b) in enumerate(zip_longest(here, there, fillvalue="nothing"), 1):
            if a != b:
                found.append(f"{entry}, argument {at}: {place} has {a}; {TABLE} has {b}")
    return found


def unused(texts, table):
    """The entry points that are forgotten, and reading calls whose parts are not what the entry point takes."""
    wrapper, machine, looks = set(re.findall(USE, texts[WRAPPER])), set(re.findall(USE, texts[MACHINE])), of_looks(texts[LOOKS])
    found = missing(WRAPPER, wrapper, set(table) - {"words_needed"}, TABLE)  # which is in settings.rs
    found += missing(f"{MACHINE} or {LOOKS}", machine | set(looks), set(table), TABLE)
    for name in sorted(set(looks) & set(table)):
        outs = named(table[name], "&mut u64")
        here, there = looks[name], [argument for argument, _ in table[name] if argument not in ["settings", "words", *outs]]
        if here != there:
            found.append(f"{name}: {LOOKS} has {', '.join(here)}; {TABLE} has {', '.join(there)}")
    return found


def differences(texts, exported=None):
    """All that differs among the texts, and between them and the symbols that are exported."""
    try:
        table = of_table(texts[TABLE])
        header = of_header(texts[HEADER])
        found = apart(HEADER, header, table) + apart(CODE, of_code(texts[CODE]), table)
        arguments = {name for entry in header.values() for name in handed(entry)}
        found += missing(STACK, members(texts[STACK]), arguments, HEADER)
    except Unread as why:
        return [str(why)]
    found += unused(texts, table)
    if exported is not None:
        found += missing("the archive", exported, set(table), TABLE) + missing(TABLE, set(table), exported, "the archive")
    return found


def unnoticed(texts):
    """The faults that are not found."""
    told = []
    for place, old, new in FAULTS:
        with_fault = re.sub(old, new, texts[place])
        if with_fault == texts[place]:
            told.append(f"{place} has nothing like '{old}', for a fault that must be found")
        elif not differences({**texts, place: with_fault}):
            told.append(f"{place}: a fault is not found: '{new}' for '{old}'")
    names = set(of_table(texts[TABLE]))
    for what, exported in [("few", names - {"judge"}), ("many", names | {"jugde"})]:
        if not differences(texts, exported):
            told.append(f"the archive: a symbol too {what} is not found")
    return told


def read(place):
    path = ROOT / place
    files = sorted(path.glob("**/*.rt")) if path.is_dir() else [path]
    return "\n".join(file.read_text() for file in files)


def exports(archive):
    """The names behind `strikes_` that an archive exports."""
    symbols = subprocess.run(["nm", "-g", "--defined-only", archive], check=True, capture_output=True, text=True).stdout
    return set(re.findall(r" strikes_(\w+)$", symbols, flags=re.M))


def main(arguments):
    texts = {place: read(place) for place in [HEADER, TABLE, CODE, WRAPPER, MACHINE, LOOKS, STACK]}
    exported = exports(arguments[0]) if arguments else None
    found = differences(texts, exported) or unnoticed(texts)
    for line in found:
        print(f"entries: {line}", file=sys.stderr)
    if not found:
        also = "" if exported is None else ", and the archive exports them"
        print(f"entries: {len(of_table(texts[TABLE]))} entry points, the same in header, table and code{also}")
    return 1 if found else 0


if __name__ == "__main__":
    sys.exit(main(sys.argv[1:]))
