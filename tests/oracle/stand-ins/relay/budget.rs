//! Stand-in for the memory budget: it counts what is charged, and refuses where S, P and E do.
//!
//! The Rust asks before it allocates. A register asks for a generation's new slots when they grow
//! (and for its ring of empty generations at the first entry); the book asks for a new list of
//! pairs when it doubles or shrinks. So one rule serves both: an ask larger than the gauge's
//! number is refused, and a charge's very first is granted, which in a register holds the ring and
//! two slots and in the book the first place.

use std::sync::Arc;

#[derive(Clone, Copy, Debug, PartialEq, Eq)]
pub enum Store {
    FeederStrikes,
    PeerStrikes,
    OwnStrikes,
}

/// A store: here the most bytes that one ask may want.
pub struct Gauge {
    most_at_once: usize,
}

impl Gauge {
    pub fn new(_store: Store, most_at_once: usize) -> Arc<Self> {
        Arc::new(Self { most_at_once })
    }

    pub fn empty(self: &Arc<Self>) -> Charge {
        Charge {
            gauge: Arc::clone(self),
            bytes: 0,
        }
    }

    pub fn held(&self) -> usize {
        0
    }
}

/// What a ring, or a class's places, are charged now.
pub struct Charge {
    gauge: Arc<Gauge>,
    bytes: usize,
}

impl Charge {
    pub fn bytes(&self) -> usize {
        self.bytes
    }

    pub fn try_grow(&mut self, more: usize) -> bool {
        if self.bytes > 0 && more > self.gauge.most_at_once {
            return false;
        }
        self.bytes += more;
        true
    }

    pub fn shrink_to(&mut self, bytes: usize) {
        self.bytes = self.bytes.min(bytes);
    }
}

/// The whole budget, of which no register here is made.
pub enum Budget {}

impl Budget {
    pub fn gauge(&self, _store: Store) -> Arc<Gauge> {
        match *self {}
    }
}
