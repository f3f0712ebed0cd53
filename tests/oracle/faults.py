"""Faults to put into a copy of the patched Rust, to see that the recorded lists notice each.

A fault is a list of edits, each an anchor that must stand in the file exactly once and what
stands in its place (patch.py puts them in).
"""

FAULTS = {
    "no-floor-on-sweep": [
        ("= held.sweep(from, through) {", "= held.sweep(from, through).filter(|_| false) {"),
    ],
    # A party within its equal part is turned away once the class has its limit.
    "equal-part-ignored": [
        ("|| (fair", "|| (false && fair"),
    ],
    # Parties past their equal part are let in up to twice the limit.
    "equal-part-untested": [
        ("&& own_after <= together / holders.max(1)", "&& own_after <= together"),
    ],
    "share-not-given-back": [
        ("fn untake(&self, who: Deliverer, expires_ms: u64) {",
         "fn untake(&self, who: Deliverer, expires_ms: u64) { if true { return; }"),
    ],
    "growth-forgets-one": [
        ("for held in old.into_iter().filter(|held| *held != 0) {",
         "for held in old.into_iter().filter(|held| *held != 0).skip(1) {"),
    ],
    # Room is looked for as if a held fingerprint wanted a slot of its own.
    "held-asks-for-room": [
        ("generation.slots_for(generation.len + usize::from(!generation.contains(fp)))",
         "generation.slots_for(generation.len + usize::from(fp != 0))"),
    ],
    # A held fingerprint that is inserted again doubles the slots.
    "held-doubles-slots": [
        ("self.slots_for(self.len + usize::from(!self.contains(fp)))", "self.slots_for(self.len + 1)"),
    ],
    "restore-keeps-its-draws": [
        ("for _ in 0..taken {", "for _ in 0..taken * 0 {"),
    ],
    # The floor rises to the dump's newest stamp alone, whatever is dropped.
    "old-floor-line": [
        ("let dropped = held.drop_bucket(slot, bucket);", "held.drop_bucket(slot, bucket);"),
        ("self.raise_floor(newest.max(dropped.unwrap_or(0)));", "self.raise_floor(newest);"),
    ],
    "expire-by-the-reading-alone": [
        ("let through = self.swept_by_all(now);", "let through = now.ms();"),
    ],
    "second-rounded-down": [
        ("expires_ms.div_ceil(1000)", "(expires_ms / 1000)"),
    ],
    "newest-not-kept": [
        ("self.newest_ms = self.newest_ms.max(signed_ms);", "self.newest_ms = signed_ms;"),
    ],
    # An oldest stamp of 0 is taken for none.
    "oldest-zero-is-none": [
        ("self.oldest_ms = if !held && self.len == 1 {", "self.oldest_ms = if self.oldest_ms == 0 {"),
    ],
    "oldest-not-kept": [
        ("else { self.oldest_ms.min(signed_ms) };", "else { signed_ms };"),
    ],
    "position-clash-overwritten": [
        ("generation.bucket != expires && generation.len > 0",
         "generation.bucket != expires && false"),
        ("debug_assert!(generation.len == 0);", "generation.drop_all();"),
    ],
    "ahead-for-late": [
        ("Verdict::Late if self.usable.window_for(who)",
         "Verdict::Late if true || self.usable.window_for(who)"),
    ],
    "twice-the-limit-and-one": [
        ("kind_after <= together.saturating_mul(2)",
         "kind_after <= together.saturating_mul(2) + 1"),
    ],
    "twice-the-limit-less-one": [
        ("kind_after <= together.saturating_mul(2)", "kind_after < together.saturating_mul(2)"),
    ],
    "one-pair-too-many": [
        ("crate::stage::pairs_used_up(place.expiring.len())",
         "crate::stage::pairs_used_up(place.expiring.len().saturating_sub(1))"),
    ],
    "one-pair-too-few": [
        ("crate::stage::pairs_used_up(place.expiring.len())",
         "crate::stage::pairs_used_up(place.expiring.len() + 1)"),
    ],
}
