//! What a profile says: from which numbers its settings are drawn, how its clock goes, and how
//! often it does what.

/// How the spans and the bucket of a register are drawn.
#[derive(Clone, Copy, PartialEq, Eq)]
pub enum Spans {
    /// Rings of a few generations.
    Small,
    /// Small ones, spans of 0 and buckets of 1 and 60,000 ms.
    Mixed,
    /// Rings of 256 generations, and spans of an hour.
    Largest,
}

/// How the five limits are drawn.
#[derive(Clone, Copy, PartialEq, Eq)]
pub enum Levels {
    /// More than a list will use.
    Ample,
    /// Few entries, 0 now and then.
    Tight,
    /// Class limits of a few dozen, own shares about as large.
    Shared,
    /// The largest, or nearly so.
    Largest,
}

/// How the clock goes from one call to the next.
#[derive(Clone, Copy, PartialEq, Eq)]
pub enum Clock {
    /// Forward by part of a bucket, with a step now and then.
    Steady,
    /// Steps back and forth by up to a few rings.
    Steps,
    /// About 2^64 ms, 2^32 s and 0.
    Edges,
    /// Hardly at all, so that generations fill up.
    Still,
    /// Never back: often not at all, else by part of a bucket, and now and then by more than a ring.
    Rising,
    /// As `Rising`, but for one step back from one opening to the next; slowly after it.
    Fallen,
}

impl Clock {
    /// Whether every call that sweeps brings the present reading.
    pub fn rises(self) -> bool {
        matches!(self, Self::Rising | Self::Fallen)
    }
}

/// How often each thing is done, against the sum of all.
#[derive(Clone, Copy)]
pub struct Weights {
    pub take: u64,
    pub take_batch: u64,
    pub judge: u64,
    pub judge_batch: u64,
    /// A ticket brought again, as it was or by another deliverer, form or reading.
    pub again: u64,
    pub contains: u64,
    pub begin: u64,
    /// Every register swept, then expire: the host's tick.
    pub tick: u64,
    /// Expire alone, by any reading.
    pub expire: u64,
    pub sweep: u64,
    pub limits: u64,
    pub close: u64,
    pub dump: u64,
    /// A dump into an output of some length.
    pub dump_into: u64,
    /// A dump taken earlier.
    pub restore: u64,
    /// A dump made up: buckets near the clock, repeated fingerprints, empty generations.
    pub restore_made: u64,
    /// A register dumped, and its dump restored into it two or three times.
    pub restore_own: u64,
    /// A neighbour's dump over a ticket's bucket, and the ticket brought again.
    pub restore_over: u64,
    pub resume: u64,
    /// A dump cut at some length, or altered in some word.
    pub damage: u64,
    /// A short dump cut at each length.
    pub every_cut: u64,
    /// A short dump altered in each word.
    pub every_field: u64,
    /// One of the calls that only look.
    pub look: u64,
    /// A call with a code or number that is not listed.
    pub unfit: u64,
    /// A register or a deliverer viewed, into an output of some length or of enough.
    pub view: u64,
}

impl Weights {
    pub const USUAL: Self = Self {
        take: 400,
        take_batch: 100,
        judge: 60,
        judge_batch: 60,
        again: 140,
        contains: 20,
        begin: 12,
        tick: 30,
        expire: 10,
        sweep: 10,
        limits: 3,
        close: 1,
        dump: 4,
        dump_into: 2,
        restore: 2,
        restore_made: 2,
        restore_own: 0,
        restore_over: 0,
        resume: 1,
        damage: 0,
        every_cut: 0,
        every_field: 0,
        look: 120,
        unfit: 0,
        view: 0,
    };
}

pub struct Profile {
    pub name: &'static str,
    pub about: &'static str,
    /// The least and the most registers.
    pub registers: (u64, u64),
    pub spans: Spans,
    pub slots: &'static [u64],
    pub places: &'static [u64],
    pub pairs: &'static [u64],
    pub units: &'static [u64],
    pub levels: Levels,
    pub clock: Clock,
    /// The ids of each kind of deliverer.
    pub parties: u64,
    /// Percent of tickets that Relay or Restored delivers.
    pub own: u64,
    /// Percent of registers that start pending.
    pub fallback: u64,
    /// The least and the most calls from one opening to the next.
    pub stretch: (u64, u64),
    pub weights: Weights,
    /// The most words that an opening may need.
    pub words: u64,
    /// What it is meant to reach, by the names in `tally::COUNTED`.
    pub meant: &'static [&'static str],
    /// What it must never reach, by the same names.
    pub never: &'static [&'static str],
}

impl Profile {
    pub const USUAL: Self = Self {
        name: "usual",
        about: "",
        registers: (1, 2),
        spans: Spans::Small,
        slots: &[4, 8, 16, 32],
        places: &[2, 3, 4, 8],
        pairs: &[3, 5, 8, 16],
        units: &[0, 1, 2, 5],
        levels: Levels::Ample,
        clock: Clock::Steady,
        parties: 5,
        own: 15,
        fallback: 10,
        stretch: (60, 300),
        weights: Weights::USUAL,
        words: 100_000,
        meant: &[],
        never: &[],
    };
}
