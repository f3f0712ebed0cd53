//! The settings of a gateway.

use crate::answers::Refusal;
use crate::raw;

/// How far behind and ahead of the clock a stamp may be, in milliseconds; each 0 to 3,600,000.
#[derive(Clone, Copy, Debug, Default, PartialEq, Eq)]
pub struct Window {
    pub behind: u64,
    pub ahead: u64,
}

impl Window {
    pub const fn of(behind: u64, ahead: u64) -> Self {
        Self { behind, ahead }
    }
}

/// One register's settings.
#[derive(Clone, Copy, Debug, Default, PartialEq, Eq)]
pub struct Windows {
    /// For the meter's own copy of a ticket.
    pub origin: Window,
    /// For every other copy.
    pub copy: Window,
    /// The width of a bucket in milliseconds, 1 to 60,000.
    pub bucket: u64,
    /// The slots of one generation at most (S): a power of two, 2 to 1,024. A generation holds three quarters of them.
    pub slots: u64,
}

impl Windows {
    /// For how long after its stamp a ticket is remembered.
    pub fn retained(&self) -> u64 {
        self.origin.behind.max(self.copy.behind)
    }

    /// How far ahead of the clock a ticket may be.
    pub fn ahead(&self) -> u64 {
        self.origin.ahead.max(self.copy.ahead)
    }

    /// The bucket that a ticket of this stamp is held in. For settings within their bounds, as the next.
    pub fn bucket_of(&self, stamp: u64) -> u64 {
        stamp.saturating_add(self.retained()).div_ceil(self.bucket)
    }

    /// The generations of each class; at most 256.
    pub fn ring(&self) -> u64 {
        (self.retained() + self.ahead()).div_ceil(self.bucket) + 2
    }
}

/// The five entry limits, each 0 to 1,000,000.
#[derive(Clone, Copy, Debug, Default, PartialEq, Eq)]
pub struct Limits {
    /// One feeder's entries.
    pub feeder: u64,
    /// The feeders' units together.
    pub feeders: u64,
    /// One peer's entries.
    pub peer: u64,
    /// The peers' units together.
    pub peers: u64,
    /// The gateway's own.
    pub relay: u64,
}

impl Limits {
    /// In the order of the entry points.
    pub fn words(&self) -> [u64; raw::LIMITS] {
        [self.feeder, self.feeders, self.peer, self.peers, self.relay]
    }
}

/// The settings of a share book and up to four registers over it.
///
/// ```
/// use strikes::{Settings, Window, Windows};
///
/// let windows = Windows { origin: Window::of(10_000, 2_000), copy: Window::of(20_000, 2_000), bucket: 1_000, slots: 8 };
/// let settings = Settings::new().places(4).pairs(16).place_units(1, 1).register(windows);
/// assert_eq!(windows.ring(), 24);
/// assert_eq!(settings.words_needed(), Ok(1_496));
/// ```
#[derive(Clone, Debug, PartialEq, Eq)]
pub struct Settings {
    places: u64,
    pairs: u64,
    feeder_units: u64,
    peer_units: u64,
    registers: Vec<Windows>,
}

impl Default for Settings {
    fn default() -> Self {
        Self::new()
    }
}

impl Settings {
    /// 16 places of 128 pairs in each class, no units for a place, and no register yet.
    pub fn new() -> Self {
        Self {
            places: 16,
            pairs: 128,
            feeder_units: 0,
            peer_units: 0,
            registers: Vec::new(),
        }
    }

    /// The deliverers of one class that can have entries at the same time (P), 1 to 64.
    pub fn places(mut self, places: u64) -> Self {
        self.places = places;
        self
    }

    /// The seconds in which one deliverer's entries can expire (E), 2 to 512.
    pub fn pairs(mut self, pairs: u64) -> Self {
        self.pairs = pairs;
        self
    }

    /// What a Feeder's and a Peer's place costs of its class's limit beside its entries, 0 to 4,096 each.
    pub fn place_units(mut self, feeder: u64, peer: u64) -> Self {
        self.feeder_units = feeder;
        self.peer_units = peer;
        self
    }

    /// One register more; at most four.
    pub fn register(mut self, windows: Windows) -> Self {
        self.registers.push(windows);
        self
    }

    /// The registers in their order.
    pub fn registers(&self) -> &[Windows] {
        &self.registers
    }

    /// As the entry points take them. Registers past the fourth are counted in the first word, so that the settings are refused.
    pub fn words(&self) -> [u64; raw::SETTINGS] {
        let mut words = [0; raw::SETTINGS];
        words[0] = self.registers.len() as u64;
        words[1] = self.places;
        words[2] = self.pairs;
        words[3] = self.feeder_units;
        words[4] = self.peer_units;
        for (at, one) in self.registers.iter().take(4).enumerate() {
            words[5 + 6 * at..11 + 6 * at].copy_from_slice(&[
                one.origin.behind,
                one.origin.ahead,
                one.copy.behind,
                one.copy.ahead,
                one.bucket,
                one.slots,
            ]);
        }
        words
    }

    /// The words that a gateway of these settings needs.
    pub fn words_needed(&self) -> Result<u64, Refusal> {
        raw::words_needed(&self.words())
    }
}
