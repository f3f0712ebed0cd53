#!/usr/bin/env python3
"""Puts faults into a copy of the register's source, one at a time, and replays the recorded lists on it: each must be noticed.

    tests/product/faults.py [FAULT ...]

A fault is a list of edits, each a file, an anchor that must stand in it exactly once, and what stands in its place: the faults of
tests/oracle/faults.py, put into the register, and misreadings of what the Rust has not: the rule behind a verdict, and the smallest stamp
for one. The proofs would refuse each of them, so the copy is run by `rt try`, which proves nothing, and what
crates/replay writes is compared with its file `stdout`. The interpreter of `rt try` takes no list of this length, so that what counts is
the compiled program. Status 0 only if the source without a fault agrees and every fault is noticed.
"""

import shutil
import subprocess
import sys
import tempfile
from pathlib import Path

ROOT = Path(__file__).resolve().parent.parent.parent
# Outside the repository, whose every source must be in a crate that is proved.
FOLDER = tempfile.TemporaryDirectory()
COPY = Path(FOLDER.name) / "product"

DECIDE = "book/src/decide.rt"
SEEN = "register/src/peeking.rt"
TRIES = "seeking/src/tries.rt"
GENERATION = "generation/src/lib.rt"

FAULTS = {
    "no-floor-on-sweep": [
        ("register/src/rings.rt", "heading::raise_by(part, went);", ""),
    ],
    # A party within its equal part is turned away once the class has its limit.
    "equal-part-ignored": [(DECIDE, "if t / after.holders < own {", "if 0 < after.holders {")],
    # Parties past their equal part are let in up to twice the limit.
    "equal-part-untested": [(DECIDE, "if t / after.holders < own {", "if t < own {")],
    # Drawn before room is looked for, and not given back where there is none.
    "share-not-given-back": [
        ("taking/src/lib.rt", "    shares::enter(run, on, ticket, spot);\n    on_register::strike", "    on_register::strike"),
        ("taking/src/lib.rt", "    let room = on_register::room(run, on, ticket);",
         "    shares::enter(run, on, ticket, spot);\n    let room = on_register::room(run, on, ticket);"),
    ],
    "growth-forgets-one": [
        ("generation/src/slots.rt", "for word in old {", "for word in old.iter().skip(1) {"),
    ],
    # Room is looked for as if a held fingerprint wanted a slot of its own.
    "held-asks-for-room": [
        (GENERATION, "    let wanted = head.slots_for(known);\n    if wanted",
         "    let wanted = head.slots_for(false);\n    if wanted"),
    ],
    # A held fingerprint that is inserted again doubles the slots.
    "held-doubles-slots": [
        (GENERATION, "    let wanted = head.slots_for(known);\n    regrow", "    let wanted = head.slots_for(false);\n    regrow"),
    ],
    "restore-keeps-its-draws": [
        ("restoring/src/holding.rt", "give_back_all(run, on, h, draws);", "give_back_all(run, on, h, 0 * draws);"),
    ],
    # The floor rises to the dump's newest stamp alone, whatever is dropped.
    "old-floor-line": [("register/src/forgetting.rt", "heading::raise_by(part, went);", "")],
    "expire-by-the-reading-alone": [
        ("expiring/src/lib.rt", "let least = least::least_published(run, s, reading);", "let least = reading;"),
    ],
    "second-rounded-down": [
        ("numbers/src/spans.rt", "Second::from(Judged(bucket.0.saturating_mul(width)))",
         "Second((bucket.0.saturating_mul(width) / 1000).min(Second::LAST))"),
    ],
    "newest-not-kept": [(GENERATION, "newest: head.newest.max(entry.stamp),", "newest: entry.stamp,")],
    # An oldest stamp of 0 is taken for none.
    "oldest-zero-is-none": [
        (GENERATION, "    if head.held == 0 {\n        return stamp;", "    if head.oldest == 0 {\n        return stamp;"),
    ],
    "oldest-not-kept": [(GENERATION, "    head.oldest.min(stamp)\n", "    stamp\n")],
    "position-clash-overwritten": [
        (GENERATION, "(head.held != 0) {", "(head.held == 18446744073709551615) {"),
        (GENERATION, "    grow(part, known);\n    enter(",
         "    if part[Generation::BUCKET] != entry.bucket.0 {\n        drop_all(part);\n    }\n    grow(part, known);\n    enter("),
    ],
    # A number of a dump is read with two of its bytes exchanged.
    "bytes-exchanged": [
        ("dump/src/octets.rt", "        bytes[at + 3],\n        bytes[at + 4],\n",
         "        bytes[at + 4],\n        bytes[at + 3],\n"),
    ],
    "ahead-for-late": [
        ("register/src/judging.rt", "if past && verdict == Verdict::Late {", "if (past | true) && verdict == Verdict::Late {"),
    ],
    "twice-the-limit-and-one": [(DECIDE, "if 2 * t < after.units {", "if 2 * t + 1 < after.units {")],
    "twice-the-limit-less-one": [(DECIDE, "if 2 * t < after.units {", "if 2 * t <= after.units {")],
    "one-pair-too-many": [(DECIDE, "shares.pairs <= seen.pairs", "shares.pairs < seen.pairs")],
    "one-pair-too-few": [(DECIDE, "shares.pairs <= seen.pairs", "shares.pairs <= seen.pairs + 1")],
    # A ticket is explained by the floor of now, and not by the one that its sweep would leave.
    "explain-floor-before-sweep": [(SEEN, "Seen { floor, ..seen }", "Seen { floor: seen.floor, ..seen }")],
    # What lies before the sweep's end counts as gone, visited or not.
    "explain-gone-unvisited": [
        ("ring/src/peeking.rt",
         "(buckets.through.0 - 1 - head.bucket) % (position.shape.ring as u64)\n            < buckets.through.0 - buckets.from.0",
         "true"),
    ],
    "explain-own-before-feeders": [
        (SEEN, "Class::ALL.iter().copied().find(|class| holds_after",
         "[Class::Own, Class::Feeders, Class::Peers].iter().copied().find(|class| holds_after"),
    ],
    # The verdict stays, and so the rule alone tells.
    "explain-class-limit-for-feeders": [
        (DECIDE, "    if t / after.holders < own {\n        return Draw::EqualPart;",
         "    if t / after.holders < own {\n        return Draw::ClassLimit;"),
    ],
    "explain-slots-for-position": [
        ("taking/src/explaining.rt", "            Reason::from(room)\n",
         "            match room {\n                model::Room::Collides => Reason::Slots,\n                _ => Reason::from(room),\n            }\n"),
    ],
    # Judge's verdict for take's.
    "explain-judges-alone": [
        ("taking/src/explaining.rt", "Reason::Accepted => explain_share(run, on, seen, Ticket::of(on.extent.u, ask)),",
         "Reason::Accepted => Reason::Accepted,"),
    ],
    # A stamp that is not tried: each kind of them.
    "stamp-0-untried": [(TRIES, "&[0, start, past]", "&[start, past]")],
    "stamp-window-start-untried": [(TRIES, "&[0, start, past]", "&[0, past]")],
    "stamp-past-front-untried": [(TRIES, "&[0, start, past]", "&[0, start]")],
    "stamp-above-floor-untried": [(TRIES, "Some(floor) => better(run, q, floor.saturating_add(1), best),", "Some(_) => best,")],
    "stamp-window-two-buckets-short": [(TRIES, "for k in 0..spans::ring_of(u) {", "for k in 0..spans::ring_of(u) - 2 {")],
    "stamp-of-bucket-untried": [(TRIES, "&[first, after]", "&[after]")],
    "stamp-after-bucket-untried": [(TRIES, "&[first, after]", "&[first]")],
    # The last that is found, for the least.
    "stamp-last-found": [(TRIES, "    if !is_below(stamp, best) {\n        return best;\n    }\n", "")],
    # Take's verdict for take_batch's.
    "stamp-for-take": [("seeking/src/asking.rt", "register::ahead_for(past, ", "register::ahead_for(past & false, ")],
    "stamp-any-code": [("strikes/src/lib.rt", "Verdict::try_from(wanted)?", "Verdict::try_from(wanted).unwrap_or(Verdict::Unjudged)")],
}


def put_in(edits):
    """A fresh copy of the crates with the edits made."""
    shutil.rmtree(COPY, ignore_errors=True)
    COPY.mkdir(parents=True)
    shutil.copytree(ROOT / "crates", COPY / "crates", ignore=shutil.ignore_patterns("out"))
    shutil.copy(ROOT / "crates.txt", COPY)
    for file, anchor, instead in edits:
        path = COPY / "crates" / file
        text = path.read_text()
        if text.count(anchor) != 1:
            sys.exit(f"faults.py: {file}: '{anchor}' is there {text.count(anchor)} times, not once")
        path.write_text(text.replace(anchor, instead))


def tried():
    """Whether the compiled program ends and writes what is expected, and the first line in which it does not."""
    crate = COPY / "crates" / "replay"
    with open(crate / "stdin") as lists:
        run = subprocess.run(["rt", "try", "--steps", "1", "--seconds", "900"], cwd=crate, stdin=lists, capture_output=True, text=True)
    said = run.stderr.splitlines()
    if not any(line.startswith(("checked: ended", "checked: fault")) for line in said):
        sys.exit("faults.py: rt try did not run the program: " + run.stderr[:2000])
    expected, wrote = (crate / "stdout").read_text().splitlines(), run.stdout.splitlines()
    for at, (line, wanted) in enumerate(zip(wrote, expected)):
        if line != wanted:
            return False, f"line {at + 1}: {line[:60]} for {wanted[:60]}"
    ended = len(wrote) == len(expected) and "checked: ended status=0" in said
    return ended, "as recorded" if ended else f"{len(wrote)} lines of {len(expected)}: {said[-1][:80]}"


def main():
    put_in([])
    agrees, line = tried()
    if not agrees:
        sys.exit(f"without any fault the register differs already: {line}")
    wanted = sys.argv[1:] or list(FAULTS)
    missed = 0
    for fault in wanted:
        put_in(FAULTS[fault])
        agrees, line = tried()
        missed += agrees
        print(f"{fault}: {'NOT NOTICED' if agrees else 'noticed'}: {line[:160]}", flush=True)
    print(f"{len(wanted)} faults, {missed} not noticed")
    sys.exit(missed > 0)


if __name__ == "__main__":
    main()
