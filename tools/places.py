#!/usr/bin/env python3
"""Lists the places of the sources that docs/DESIGN-PASS.md counts: where code says by hand what the language has a form for.

    tools/places.py             the files as they lie here
    tools/places.py COMMIT      the files of a commit

A line for each place, under its point, and then how many. It finds candidates; which of them stay, and why, is said beside them in the
source and in docs/DESIGN-PASS.md."""
import re
import subprocess
import sys
from pathlib import Path

ROOT = Path(__file__).resolve().parent.parent
ITEM = re.compile(r"^(?:    )?(?:pub(?:\([a-z]+\))? )?(?:extern \"C\" )?(fn|struct|enum|trait|impl|const) ?([A-Za-z_0-9]*)")

# Parameters that travel together, and how many functions have to share them to count.
TOGETHER = {
    "run and extent": r"extent: RegisterExtent",
    "most slots and positions": r"slots: usize,\s*ring: usize|wide: usize,\s*ring: usize",
    "buckets from and through": r"from: Bucket,\s*through: Bucket",
    "a ticket's six numbers": r"fp: u64,\s*stamp: u64,\s*reading: u64,\s*flag: u64",
    "totals": r"entries: u64,\s*holders: u64,\s*units: u64",
    "words, settings and bytes of a replay": r"words: &mut \[u64\],\s*kept: &mut",
    "kind and number": r"kind: u64,\s*number: u64",
}
SHARED = 3

# Functions that do by hand what the library has a method, or a derive a form, for.
BY_HAND = r"^(same_\w+|larger|smaller|capped_\w+|least|most|newest|(copy|clear)_words|move_(down|up)|is_granted|put_one|is_power_of_two)$"


def files(commit):
    """The sources, as pairs of name and text."""
    if commit is None:
        return [(str(p.relative_to(ROOT)), p.read_text()) for p in sorted(ROOT.glob("crates/*/src/*.rt"))]
    git = lambda *args: subprocess.run(["git", "-C", ROOT, *args], capture_output=True, text=True, check=True).stdout
    names = [n for n in git("ls-tree", "-r", "--name-only", commit, "crates").split() if re.fullmatch(r"crates/\w+/src/\w+\.rt", n)]
    return [(n, git("show", f"{commit}:{n}")) for n in names]


def items(commit):
    """Functions, types and constants: file, kind, name and text without comments."""
    found = []
    for file, text in files(commit):
        for line in text.split("\n"):
            if line.strip().startswith("//"):
                continue
            head = ITEM.match(line)
            if head:
                found.append([file, head.group(1), head.group(2), ""])
            if found and found[-1][0] == file:
                found[-1][3] += line + "\n"
    return found


def parameters(text):
    return text.split("{", 1)[0].split("\n    requires", 1)[0].split("\n    ensures", 1)[0]


def shape(text):
    """A function's text with its names numbered in order of appearance and its numbers and their types alike: twins have one shape."""
    names = {}
    kept = {"fn", "pub", "let", "mut", "if", "else", "return", "while", "for", "in", "match", "ensures", "requires", "as", "bool"}
    out = []
    for token in re.findall(r"[A-Za-z_][A-Za-z_0-9]*|\d[\d_a-fx]*|\S", text.replace("pub ", "")):
        if re.match(r"\d", token):
            out.append("0")
        elif token in ("u8", "u64", "usize"):
            out.append("u")
        elif re.match(r"[A-Za-z_]", token) and token not in kept:
            out.append(str(names.setdefault(token, len(names))) + "n")
        else:
            out.append(token)
    return " ".join(out)


def variants(text):
    return re.findall(r"^    ([A-Z]\w*)(\(.*\))?,$", text, re.M)


def places(all_items):
    functions = [i for i in all_items if i[1] == "fn"]
    point = {}

    def add(name, found):
        point.setdefault(name, []).extend(found)

    for file, kind, name, text in all_items:
        where = f"{file} {kind} {name}"
        if kind == "enum" and len(variants(text)) == 2 and any(v[1] for v in variants(text)):
            add("1 enums of the shape of Option or Result", [where])
        if kind == "enum" and len(variants(text)) > 2 and sum(bool(v[1]) for v in variants(text)) == 1:
            add("1 enums with one value among more than two", [where])
        if kind == "struct":
            add("1 flags in a struct", [f"{where}.{f}" for f in re.findall(r"(\w+): bool", text)])
        if re.search(r"refusal: u64|\.refusal\b|Refused\(", text):
            add("1 refusals as numbers", [where])
        if kind == "fn" and re.search(r"\b(kind|code|class|wanted|flag|number): u64", parameters(text)):
            add("1 kinds as numbers", [where])
        add("3 loops by hand", [f"{where}: {w.strip()}" for w in re.findall(r"^ *while .*", text, re.M)])
        if kind == "fn" and re.match(BY_HAND, name):
            add("4 by hand", [where])
        if kind == "fn" and "=> true," in text and "=> false," in text:
            add("4 a match for yes and no", [where])
        add("4 a field by its own name twice", [f"{where}: {f}" for f in re.findall(r"^ *(\w+): \1,$", text, re.M)])
        if kind == "fn" and re.search(r"\[u(?:8|64); [\w]+\]|\[0(?:u64|u8)?; \w+\]", text):
            add("6 fixed buffers", [where])
        if kind == "fn" and re.search(r"(fn\(|dyn |impl Fn)", text):
            add("7 functions as values", [where])
    shapes = {}
    for file, kind, name, text in functions:
        if len(text.split()) >= 12:
            shapes.setdefault(shape(text), []).append(f"{file} {name}")
    add("2 twins", [", ".join(group) for group in shapes.values() if len(group) > 1])
    for name, pattern in TOGETHER.items():
        group = [f"{f} {n}" for f, k, n, text in functions if re.search(pattern, parameters(text))]
        if len(group) >= SHARED:
            add("5 parameters that travel together", [f"{name}: {g}" for g in group])
    return point


def main():
    found = places(items(sys.argv[1] if len(sys.argv) > 1 else None))
    for name in sorted(found):
        print(f"\n{name}")
        for place in found[name]:
            print(f"  {place}")
    print()
    for name in sorted(found):
        print(f"{len(found[name]):4} {name}")


if __name__ == "__main__":
    main()
