//! Stand-in for the crate `tally_wire`, of which `strikes.rs` needs clocks, windows and keys.
//!
//! What decides a verdict is here as document 01 states it: a window is uncapped, a record's hash
//! is its fingerprint word, a key is an id, and the fallback floor is the number that the host
//! hands to `begin`. The rest only has to be there for the file to compile.

pub mod batch {
    /// A record's hash: here the fingerprint word itself.
    #[derive(Clone, Copy, Debug, PartialEq, Eq)]
    pub struct Hash(pub u64);
}

pub mod clocks {
    use std::marker::PhantomData;

    /// A reading of the judging clock, in milliseconds.
    #[derive(Clone, Copy, Debug, PartialEq, Eq, PartialOrd, Ord)]
    pub struct Judged(pub u64);

    impl Judged {
        pub const fn ms(self) -> u64 {
            self.0
        }
    }

    /// The raw monotonic clock, which the register does not read.
    #[derive(Clone, Copy, Debug, PartialEq, Eq, PartialOrd, Ord)]
    pub struct Raw;

    /// A length of time on the clock `C`.
    #[derive(Clone, Copy, Debug, PartialEq, Eq, PartialOrd, Ord)]
    pub struct Span<C>(pub u64, pub PhantomData<C>);

    impl<C> Span<C> {
        pub const fn of(ms: u64) -> Self {
            Self(ms, PhantomData)
        }

        pub const fn ms(&self) -> u64 {
            self.0
        }
    }
}

pub mod budget {
    use crate::clocks::{Judged, Raw, Span};

    /// One side of a window.
    #[derive(Clone, Copy, Debug, PartialEq, Eq)]
    pub struct Side(u64);

    impl Side {
        pub const fn span<C>(self) -> Span<C> {
            Span::of(self.0)
        }

        /// Whether a record signed then is further ahead of `now` than this.
        pub fn ahead(self, signed_ms: u64, now: Judged) -> bool {
            u128::from(signed_ms) > u128::from(now.ms()) + u128::from(self.0)
        }
    }

    /// How far behind and ahead of the clock a record may be signed: uncapped.
    #[derive(Clone, Copy, Debug, PartialEq, Eq)]
    pub struct Window {
        behind: Side,
        ahead: Side,
    }

    impl Window {
        pub const FEEDER: Self = Self::of(91_000, 10_000);
        pub const PEER: Self = Self::of(76_000, 25_000);

        pub const fn of(behind_ms: u64, ahead_ms: u64) -> Self {
            Self {
                behind: Side(behind_ms),
                ahead: Side(ahead_ms),
            }
        }

        pub const fn relay_signed(_lag: Span<Judged>, _horizon: Span<Judged>) -> Self {
            Self::of(32_000, 15_000)
        }

        pub const fn proofs(_horizon: Span<Judged>) -> Self {
            Self::of(122_000, 25_000)
        }

        pub const fn figures(relay: Self) -> Self {
            Self::of(relay.behind.0 + 3_600_000, relay.ahead.0)
        }

        pub const fn behind_span(self) -> Side {
            self.behind
        }

        pub const fn ahead_span(self) -> Side {
            self.ahead
        }

        pub fn holds(self, signed_ms: u64, now: Judged) -> bool {
            let oldest_kept = u128::from(signed_ms) + u128::from(self.behind.0);
            oldest_kept >= u128::from(now.ms()) && !self.ahead(signed_ms, now)
        }

        pub fn ahead(self, signed_ms: u64, now: Judged) -> bool {
            self.ahead.ahead(signed_ms, now)
        }
    }

    pub const fn policy<C, const LAG_MS: u64>() -> Span<C> {
        Span::of(LAG_MS)
    }

    pub const F: Side = Side(10_000);
    pub const OWN_ANCHOR_OLDEST: Span<Raw> = Span::of(91_000);

    /// The fallback floor: the number handed to `begin`, unaltered.
    pub struct FallbackFloor;
    pub const FALLBACK_FLOOR: FallbackFloor = FallbackFloor;

    impl FallbackFloor {
        pub const fn after(self, now: Judged) -> Judged {
            now
        }
    }
}

pub mod decoded {
    pub mod keyed {
        pub const STRIKE: () = ();
    }
}

/// A deliverer's key: here its id.
#[derive(Clone, Copy, Debug, PartialEq, Eq, Hash)]
pub struct PublicKey(pub u64);

/// The key of the fingerprints: here the fingerprint is the word that stands for the hash.
pub struct FingerprintKey;

impl FingerprintKey {
    pub fn random() -> Self {
        Self
    }

    pub fn fingerprint(&self, _domain: (), hash: &batch::Hash) -> u64 {
        hash.0
    }
}
