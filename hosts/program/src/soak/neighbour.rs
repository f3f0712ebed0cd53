//! A neighbouring gateway that hands over its dump: copies of this site's tickets, and tickets of its own meters.

use std::collections::{BTreeMap, VecDeque};

use calls::Windows;
use generator::dump::{Dump, Listed};
use generator::random::Random;

/// The copies that it remembers, and the most tickets that its own meters make in its windows: now few, now too many for the shares
/// of this gateway.
const COPIES: usize = 64;
const OWN: u64 = 160;

/// A ticket's stamp and fingerprint.
type Seen = (u64, u64);

#[derive(Default)]
pub struct Neighbour {
    copies: VecDeque<Seen>,
}

impl Neighbour {
    /// A ticket of this site that a neighbour has too, since it brings a copy.
    pub fn sees(&mut self, stamp: u64, fingerprint: u64) {
        if self.copies.len() == COPIES {
            self.copies.pop_front();
        }
        self.copies.push_back((stamp, fingerprint));
    }

    /// Its dump at a time: its own meters' tickets as Feeders', the copies as Peers', of the last span behind.
    pub fn dump(&self, now: u64, windows: &Windows, random: &mut Random) -> Vec<u8> {
        let first = now - windows.origin.behind;
        let own = (0..random.below(OWN)).map(|_| (random.between(first, now), random.word()));
        let own: Vec<Seen> = own.collect();
        let copies = self.copies.iter().copied();
        let copies: Vec<Seen> = copies.filter(|(stamp, _)| *stamp >= first).collect();
        let dump = Dump {
            floor: 0,
            classes: [listed(&own, windows), listed(&copies, windows), Vec::new()],
        };
        dump.bytes()
    }
}

/// Tickets as generations, by bucket.
fn listed(tickets: &[Seen], windows: &Windows) -> Vec<Listed> {
    let mut by_bucket: BTreeMap<u64, Listed> = BTreeMap::new();
    for (stamp, fingerprint) in tickets {
        let bucket = windows.bucket_of(*stamp);
        let fresh = || Listed {
            bucket,
            newest: 0,
            fingerprints: Vec::new(),
        };
        let generation = by_bucket.entry(bucket).or_insert_with(fresh);
        generation.newest = generation.newest.max(*stamp);
        generation.fingerprints.push(*fingerprint);
    }
    by_bucket.into_values().collect()
}
