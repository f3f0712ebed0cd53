//! The settings that an opening brings, their bounds, and what follows from them alone.

use std::ops::RangeInclusive;

/// The five entry limits of the share book.
#[derive(Clone, Copy, Debug, Default, PartialEq, Eq)]
pub struct Limits {
    pub feeder: u64,
    pub feeders: u64,
    pub peer: u64,
    pub peers: u64,
    pub relay: u64,
}

impl Limits {
    pub const MOST: u64 = 1_000_000;

    pub fn all(&self) -> [u64; 5] {
        [self.feeder, self.feeders, self.peer, self.peers, self.relay]
    }

    pub fn of(numbers: [u64; 5]) -> Self {
        let [feeder, feeders, peer, peers, relay] = numbers;
        Self {
            feeder,
            feeders,
            peer,
            peers,
            relay,
        }
    }

    pub fn fit(&self) -> bool {
        self.all().iter().all(|limit| *limit <= Self::MOST)
    }

    /// The limit of a class together: T of the share rules.
    pub fn together(&self, class: usize) -> u64 {
        [self.feeders, self.peers, self.relay][class]
    }
}

/// How far behind and ahead of the clock a stamp may be, in milliseconds.
#[derive(Clone, Copy, Debug, Default, PartialEq, Eq)]
pub struct Window {
    pub behind: u64,
    pub ahead: u64,
}

/// One register's part of the settings.
#[derive(Clone, Copy, Debug, Default, PartialEq, Eq)]
pub struct Windows {
    pub origin: Window,
    pub copy: Window,
    pub bucket: u64,
    pub slots: u64,
}

const SPANS: RangeInclusive<u64> = 0..=3_600_000;
const BUCKETS: RangeInclusive<u64> = 1..=60_000;
const SLOTS: RangeInclusive<u64> = 2..=1_024;
const RING: u64 = 256;
/// The words of a generation before its slots: slots, held, newest, bucket, oldest.
const HEAD: u64 = 5;

impl Windows {
    pub fn retained(&self) -> u64 {
        self.origin.behind.max(self.copy.behind)
    }

    pub fn ahead(&self) -> u64 {
        self.origin.ahead.max(self.copy.ahead)
    }

    /// The generations of each class; for a bucket that is not 0.
    pub fn ring(&self) -> u64 {
        (self.retained() + self.ahead()).div_ceil(self.bucket) + 2
    }

    /// The bucket that a ticket of this stamp is held in.
    pub fn bucket_of(&self, stamp: u64) -> u64 {
        stamp.saturating_add(self.retained()).div_ceil(self.bucket)
    }

    pub fn fit(&self) -> bool {
        let spans = [
            self.origin.behind,
            self.origin.ahead,
            self.copy.behind,
            self.copy.ahead,
        ];
        spans.iter().all(|span| SPANS.contains(span))
            && BUCKETS.contains(&self.bucket)
            && SLOTS.contains(&self.slots)
            && self.slots.is_power_of_two()
            && self.ring() <= RING
    }

    fn words(&self) -> u64 {
        3 * self.ring() * (self.slots + HEAD)
    }
}

/// All that an opening brings except where each register starts.
#[derive(Clone, Debug, Default, PartialEq, Eq)]
pub struct Settings {
    /// The number of registers as the call names it: any number, where it is unfit.
    pub registers: u64,
    pub places: u64,
    pub pairs: u64,
    pub feeder_units: u64,
    pub peer_units: u64,
    pub limits: Limits,
    pub windows: Vec<Windows>,
}

impl Settings {
    pub const REGISTERS: RangeInclusive<u64> = 1..=4;
    pub const PLACES: RangeInclusive<u64> = 1..=64;
    pub const PAIRS: RangeInclusive<u64> = 2..=512;
    pub const UNITS: RangeInclusive<u64> = 0..=4_096;

    /// Whether every setting is within its bounds.
    pub fn fit(&self) -> bool {
        Self::REGISTERS.contains(&self.registers)
            && self.windows.len() as u64 == self.registers
            && Self::PLACES.contains(&self.places)
            && Self::PAIRS.contains(&self.pairs)
            && Self::UNITS.contains(&self.feeder_units)
            && Self::UNITS.contains(&self.peer_units)
            && self.limits.fit()
            && self.windows.iter().all(Windows::fit)
    }

    /// The words that fit settings need.
    pub fn words(&self) -> u64 {
        let registers: u64 = self.windows.iter().map(Windows::words).sum();
        registers + 3 * self.places * (2 * self.pairs + 4) + 128
    }

    /// Whether `other` is the same but for the limits, which alone may change after an opening.
    pub fn same_but_limits(&self, other: &Self) -> bool {
        let alike = Self {
            limits: self.limits,
            ..other.clone()
        };
        *self == alike
    }
}

#[cfg(test)]
mod tests {
    use super::{Limits, Settings, Window, Windows};

    fn words(registers: usize, places: u64, pairs: u64, one: Windows) -> u64 {
        let settings = Settings {
            registers: registers as u64,
            places,
            pairs,
            feeder_units: 0,
            peer_units: 0,
            limits: Limits::default(),
            windows: vec![one; registers],
        };
        assert!(settings.fit());
        settings.words()
    }

    #[test]
    fn the_least_and_the_largest_settings_need_so_many_words() {
        let least = Windows {
            bucket: 1,
            slots: 2,
            ..Windows::default()
        };
        assert_eq!(words(1, 1, 2, least), 194);
        let hour = Window {
            behind: 3_600_000,
            ahead: 3_600_000,
        };
        let largest = Windows {
            origin: hour,
            copy: hour,
            bucket: 28_347,
            slots: 1_024,
        };
        assert_eq!(largest.ring(), 256);
        assert_eq!(words(4, 64, 512, largest), 3_358_592);
    }
}
