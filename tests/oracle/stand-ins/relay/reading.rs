//! Appended to the file as a module of its own: reads what the register keeps private, and
//! alters nothing.

use std::sync::atomic::Ordering;

use super::{Class, Deliverer, Shares, Strikes};

/// The bucket that the last sweep came to, and the sweep that the register publishes in ms.
pub fn swept(table: &Strikes) -> (u64, u64) {
    (table.swept, table.swept_ms.load(Ordering::SeqCst))
}

/// The entries that `who` holds.
pub fn held(shares: &Shares, who: Deliverer) -> usize {
    let all = shares.held.lock().expect("one thread alone");
    all[who.class().index()]
        .places
        .get(&who)
        .map_or(0, |place| place.entries)
}

/// The entries that `who` holds by the second in which they expire: seconds and counts, as its place lists them.
pub fn pairs(shares: &Shares, who: Deliverer) -> Vec<(u32, u32)> {
    let all = shares.held.lock().expect("one thread alone");
    all[who.class().index()]
        .places
        .get(&who)
        .map_or_else(Vec::new, |place| place.expiring.iter().copied().collect())
}

/// Bucket, oldest stamp, newest stamp and number of fingerprints of each generation that holds any, in a dump's sequence.
pub fn generations(table: &Strikes) -> Vec<[u64; 4]> {
    table
        .rings
        .iter()
        .flat_map(|ring| &ring.generations)
        .filter(|one| one.len > 0)
        .map(|one| [one.bucket, one.oldest_ms, one.newest_ms, one.len as u64])
        .collect()
}

/// A class's entries, holders, place units and the second before which all has been let go.
pub fn class(shares: &Shares, class: Class) -> (usize, usize, usize, u32) {
    let all = shares.held.lock().expect("one thread alone");
    let held = &all[class.index()];
    (held.entries, held.holders, held.place_units, held.expired)
}
