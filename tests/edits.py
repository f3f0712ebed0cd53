#!/usr/bin/env python3
"""Shows at which fact the check refuses each must-fail edit.

    tests/edits.py [CRATE ...]

The proofs' gate counts an edit as refused whatever the reason. An edit whose refusal only says that a proof no longer fits the code,
since it cites a name that is gone, or that the code does not compile, shows nothing of the contract. Here each edit is tried by
`rt must-fail`, and the proof and the fact that fail first are told. Run after `rt check`, whose results the tries start from. Status 0
only if every edit can be tried and each fails at a fact. Whether it is the fact that the edit is to break is for a reader to see: a right
program in another shape can fail so too.
"""

import re
import subprocess
import sys
from pathlib import Path

ROOT = Path(__file__).resolve().parent.parent

# A refusal of the code's shape or of the proof's.
NO_FACT = re.compile(r"not in scope|has no field|has no `[^`]*` that can be named|error\[|was not admitted")

TRIED = re.compile(r"^rt: must-fail (\S+)\.edit: (.*)$")


def told(said):
    """Where the refusal was found, the fact that fails there, and what is said of it, cut off; none where it shows nothing."""
    found = re.search(r"refused, as it must be: (.*)", said)
    if not found or NO_FACT.search(found[1]):
        return None
    return re.sub(r"^\./", "", found[1])[:160]


def main():
    wanted = sys.argv[1:] or sorted(path.name for path in (ROOT / "crates").iterdir() if (path / "must-fail").is_dir())
    run = subprocess.run(["rt", "must-fail", "--anew", *wanted], cwd=ROOT, capture_output=True, text=True)
    tried = [match.groups() for match in map(TRIED.match, run.stdout.splitlines()) if match]
    bad = 0
    for name, said in tried:
        fact = told(said)
        bad += fact is None
        print(f"{name}: {fact}" if fact else f"{name} SHOWS NOTHING: {said[:160]}")
    there = sum(len(list((ROOT / "crates" / crate / "must-fail").glob("*.edit"))) for crate in wanted)
    print(f"{len(tried)} edits of {there}, {bad} that show nothing")
    sys.exit(bad != 0 or len(tried) != there)


if __name__ == "__main__":
    main()
