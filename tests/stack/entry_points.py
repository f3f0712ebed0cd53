#!/usr/bin/env python3
"""Prints entry_points.h for tests/stack/stack.c: each entry point of include/strikes.h with what it is handed."""

import sys
from pathlib import Path

sys.path.insert(0, str(Path(__file__).resolve().parent.parent))
from entries import HEADER, handed, named, of_header, read


def main():
    entries = of_header(read(HEADER))
    outs = {name: len(named(arguments, "&mut u64")) for name, arguments in entries.items()}
    print(f"#define OUT_NUMBERS {max(outs.values())}")
    print("#define ENTRY_POINTS(ENTRY) \\")
    for name, arguments in entries.items():
        values = [f"next.{argument}" for argument in handed(arguments)] + [f"&told[{at}]" for at in range(outs[name])]
        print(f"    ENTRY({name}, {', '.join(values)}) \\")
    print()


if __name__ == "__main__":
    main()
