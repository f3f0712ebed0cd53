#!/usr/bin/env python3
"""Lays a patched copy of strikes.rs beside its stand-ins.

    patch.py SOURCE TARGET [FAULT]

Each edit names its anchor, a text that must stand in the file exactly once; where it does not,
nothing is written and the build stops. FAULT names one of the faults in faults.py, which is put
in the same way after the edits.
"""

import sys
from pathlib import Path

# What, why, the anchor, and what stands in its place.
EDITS = [
    (
        "place units",
        "The plan's two place costs are constants; the settings bring them. The Rust's own "
        "function still says which kind costs which, and its answer is exchanged.",
        "const fn place_entries(",
        "fn place_entries(who: Deliverer) -> usize { "
        "crate::stage::place_units(planned_place_entries(who)) } "
        "const fn planned_place_entries(",
    ),
    (
        "pairs",
        "A list of pairs asks for room only when it is full, and its room doubles and shrinks, "
        "so that E could not refuse at exactly E. Now a list of E asks as well.",
        "if place.expiring.len() == place.expiring.capacity() {",
        "if place.expiring.len() == place.expiring.capacity() "
        "|| crate::stage::pairs_used_up(place.expiring.len()) {",
    ),
    (
        "oldest stamp",
        "The Rust remembers a generation's newest stamp alone; a view tells the oldest as well.",
        "    newest_ms: u64,\n}",
        "    newest_ms: u64,\n    oldest_ms: u64,\n}",
    ),
    (
        "oldest stamp, inserted",
        "The first fingerprint brings it, whatever the stamp is, and each later one may lower it.",
        "self.newest_ms = self.newest_ms.max(signed_ms);",
        "self.oldest_ms = if !held && self.len == 1 { signed_ms } "
        "else { self.oldest_ms.min(signed_ms) };\n"
        "        self.newest_ms = self.newest_ms.max(signed_ms);",
    ),
    (
        "oldest stamp, dropped",
        "Nothing is held, so there is no oldest stamp.",
        "self.newest_ms = 0;",
        "self.newest_ms = 0;\n        self.oldest_ms = 0;",
    ),
    (
        "growth, inserted",
        "Slots grow for a fingerprint that is not held; the Rust grows them for any.",
        "let wanted = self.slots_for(self.len + 1);",
        "let wanted = self.slots_for(self.len + usize::from(!self.contains(fp)));",
    ),
    (
        "growth, room",
        "Where room is looked for, the same rule.",
        "generation.slots_for(generation.len + 1) * std::mem::size_of::<u64>(),",
        "generation.slots_for(generation.len + usize::from(!generation.contains(fp))) "
        "* std::mem::size_of::<u64>(),",
    ),
    (
        "room, for whom",
        "Room is looked for without the fingerprint; now it is told, as it is held.",
        "fn make_room(&mut self, ring: usize, expires: u64) -> Room {",
        "fn make_room(&mut self, ring: usize, expires: u64, fp: u64) -> Room {",
    ),
    (
        "room, by a hold",
        "The first of three places that look for room.",
        "match held.make_room(ring, expires) {",
        "match held.make_room(ring, expires, fp.max(1)) {",
    ),
    (
        "room, by a take",
        "The second of them.",
        "let at = match self.rings[class.index()].make_room(ring, expires) {",
        "let asked = self.fingerprint(hash);\n"
        "        let at = match self.rings[class.index()].make_room(ring, expires, asked) {",
    ),
    (
        "room, by a restore",
        "The third of them.",
        "held.make_room(ring, bucket) else {",
        "held.make_room(ring, bucket, fp.max(1)) else {",
    ),
    (
        "failure, what goes",
        "A generation that fails is dropped; its newest stamp is kept for the floor.",
        "held.drop_bucket(slot, bucket);",
        "let dropped = held.drop_bucket(slot, bucket);",
    ),
    (
        "failure, the floor",
        "The floor rises to what was dropped as well; the Rust raises it to the dump's newest alone.",
        "self.raise_floor(newest);",
        "self.raise_floor(newest.max(dropped.unwrap_or(0)));",
    ),
]

# Appended at the end: a module that reads private fields and alters nothing.
APPENDED = '\n#[path = "reading.rs"]\npub mod reading;\n'


def edited(text, what, anchor, replacement):
    """The text with its one anchor replaced; stops where there is none or a second one."""
    found = text.count(anchor)
    if found != 1:
        sys.exit(f"patch.py: {what}: the anchor '{anchor}' is there {found} times, not once")
    return text.replace(anchor, replacement)


def main():
    source, target, fault = Path(sys.argv[1]), Path(sys.argv[2]), sys.argv[3:]
    text = source.read_text()
    for what, _, anchor, replacement in EDITS:
        text = edited(text, what, anchor, replacement)
    if fault:
        from faults import FAULTS

        for anchor, replacement in FAULTS[fault[0]]:
            text = edited(text, fault[0], anchor, replacement)
    target.write_text(text + APPENDED)


if __name__ == "__main__":
    main()
