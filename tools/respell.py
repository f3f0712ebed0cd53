#!/usr/bin/env python3
"""Spells the repository's own definitions, lemmas and fields in snake case: `held-list` and `wideRow` become `held_list` and `wide_row`.

    python3 tools/respell.py [--list]

Run once at the top, after the library's names were turned. Own names are those that a file of specs/ or a file of lemmas (proofs/*.antt)
declares. They turn in those files, in the proofs of functions, in src/ and, between backticks, in .md files. A name that a file imports from
a library stays there, and so do the names of goals, which stand behind `tie.` and `goal.` and join their parts by a dash. --list writes nothing
and prints each name, its new spelling and the files in which that spelling stands already.
"""
import collections
import glob
import os
import re
import sys

NAME = r'[^\s(){}.;,@"«»`]+'
DECLARED = re.compile(r"(?m)^\s*(?:\| )?(?:(?:pub|abbrev|unfoldable|opaque) )*(%s(?: %s)*)(?: \{[^{}\n]*\})* :(?!:)" % (NAME, NAME))
HEADED = re.compile(r"(?m)^\s*(?:pub )?(?:abbrev |unfoldable |record |data )(?:pub )?(%s)" % NAME)
USE = re.compile(r"(?m)^\s*(?:ghost )?(?:pub )?use ([\w.+'-]+?)\.\{([^}]*)\}")
TOKEN = re.compile(NAME)
SPAN = re.compile(r"`[^`\n]+`")
FUNCTION = re.compile(r"\bfn (\w+)")


# `mid_of` is the library's: the law of a list's middle gets the name of what it is taken of.
OTHER = {"mid-of": "mid_of_append"}


def new(name):
    if name in OTHER:
        return OTHER[name]
    if re.fullmatch(r"[a-z]+(?:[A-Z][a-z]+)+", name):
        return re.sub(r"([A-Z])", lambda m: "_" + m.group(1).lower(), name)
    return name.replace("-", "_")


def is_old(name):
    return bool(re.search(r"^[A-Za-z].*\w-\w|^[A-Za-z]-\w", name) or re.fullmatch(r"[a-z]+(?:[A-Z][a-z]+)+", name))


def files():
    lemmas = sorted(glob.glob("crates/*/specs/**/*.antt", recursive=True) + glob.glob("crates/*/proofs/*.antt"))
    functions = sorted(set(glob.glob("crates/*/proofs/*/**/*.antt", recursive=True)))
    sources = sorted(glob.glob("crates/*/src/**/*.rt", recursive=True))
    return lemmas, functions, sources


def of_libraries(text, own_crates):
    """The names that a file imports from a library."""
    found = set()
    for path, names in USE.findall(text):
        parts = path.split(".")
        if parts[0] == "Rattle" and parts[1] in own_crates:
            continue
        for item in names.split(","):
            words = item.split()
            if words:
                found.add(words[-1])
    return found


def turn(text, names, stay):
    def one(m):
        name = m.group(0)
        before = text[max(0, m.start() - 5):m.start()]
        if name in names and name not in stay and not before.endswith(("tie.", "goal.")):
            return names[name]
        return name

    return TOKEN.sub(one, text)


def main(argv):
    lemmas, functions, sources = files()
    own_crates = set(os.listdir("crates"))
    texts = {p: open(p, encoding="utf-8").read() for p in lemmas + functions + sources}
    names = {}
    for p in lemmas:
        # what a file brings in under another name, and what a `let` or a lambda binds there
        for m in re.finditer(r" as (%s)" % NAME, texts[p]):
            if is_old(m.group(1)):
                names[m.group(1)] = new(m.group(1))
        for m in re.finditer(r"(?:\blet |λ )(%s(?: %s)*?)(?: :[^=]*)?(?: =|\.)" % (NAME, NAME), texts[p]):
            for name in m.group(1).split():
                if is_old(name) and name not in of_libraries(texts[p], own_crates):
                    names[name] = new(name)
        for m in DECLARED.finditer(texts[p]):
            for name in m.group(1).split():
                if is_old(name):
                    names[name] = new(name)
        for m in HEADED.finditer(texts[p]):
            if is_old(m.group(1)):
                names[m.group(1)] = new(m.group(1))
    meets = collections.defaultdict(list)
    for p, text in texts.items():
        stay = of_libraries(text, own_crates)
        tokens = set(TOKEN.findall("\n".join(l for l in text.split("\n") if not l.lstrip().startswith(("--", "//")))))
        for name in tokens & set(names):
            if name not in stay and names[name] in tokens:
                meets[name].append(p)
    if "--list" in argv:
        for name in sorted(names):
            print(name, names[name], *meets.get(name, []))
        return 0
    for p, text in texts.items():
        texts[p] = turn(text, names, of_libraries(text, own_crates))
    # Between backticks, in comments and in .md files, a name may have a spelling that is older still.
    known = set(names.values())
    for p in lemmas:
        for m in DECLARED.finditer(texts[p]):
            known.update(m.group(1).split())
        known.update(HEADED.findall(texts[p]))
    for p in sources:
        known.update(FUNCTION.findall(texts[p]))
    said = {p: open(p, encoding="utf-8").read() for p in glob.glob("*.md") + glob.glob("docs/**/*.md", recursive=True) + glob.glob("tests/**/*.md", recursive=True)}

    def span(m):
        return TOKEN.sub(lambda w: new(w.group(0)) if is_old(w.group(0)) and w.group(0) not in known and new(w.group(0)) in known else w.group(0), m.group(0))

    for p, text in list(texts.items()) + list(said.items()):
        got = "\n".join(SPAN.sub(span, l) if p in said or l.lstrip().startswith(("--", "//")) else l for l in text.split("\n"))
        with open(p, "w", encoding="utf-8") as f:
            f.write(got)
    return 0


if __name__ == "__main__":
    raise SystemExit(main(sys.argv[1:]))
