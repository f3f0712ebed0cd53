//! The settings that are measured, and what their registers hold.

use calls::{Limits, Settings, Window, Windows};

pub struct Size {
    pub name: &'static str,
    registers: u64,
    places: u64,
    pairs: u64,
    windows: Windows,
}

const fn windows(behind: u64, copy: u64, ahead: u64, slots: u64) -> Windows {
    Windows {
        origin: Window { behind, ahead },
        copy: Window {
            behind: copy,
            ahead,
        },
        bucket: 1_000,
        slots,
    }
}

/// The scope paper's example, settings as in production, and the largest.
pub const SIZES: [Size; 3] = [
    Size {
        name: "small",
        registers: 1,
        places: 4,
        pairs: 16,
        windows: windows(10_000, 20_000, 2_000, 8),
    },
    Size {
        name: "production",
        registers: 1,
        places: 16,
        pairs: 128,
        windows: windows(91_000, 76_000, 25_000, 64),
    },
    Size {
        name: "largest",
        registers: 4,
        places: 64,
        pairs: 512,
        windows: windows(229_000, 200_000, 25_000, 1_024),
    },
];

impl Size {
    pub fn settings(&self) -> Settings {
        Settings {
            registers: self.registers,
            places: self.places,
            pairs: self.pairs,
            feeder_units: 0,
            peer_units: 0,
            limits: Limits::of([Limits::MOST; 5]),
            windows: vec![self.windows; self.registers as usize],
        }
    }
}

#[derive(Clone, Copy, PartialEq, Eq)]
pub enum Fill {
    Empty,
    /// One generation of every class holds a fingerprint: the Rust makes a ring with its first ticket.
    Begun,
    /// Every generation of every class holds three quarters of its slots.
    Full,
    /// The same with fingerprints for which probing starts at one slot.
    Alike,
    /// The same with fingerprints that lie as far on as the soundness test follows probing, and a last one that lies further, so
    /// that all are tested twice: the worst that a host can choose.
    Distant,
}

impl Fill {
    pub fn name(self) -> &'static str {
        match self {
            Self::Empty => "empty",
            Self::Begun => "one ticket in each class",
            Self::Full => "full",
            Self::Alike => "full, from one slot",
            Self::Distant => "full, as far on as can be",
        }
    }
}
