//! How often each answer came, so that a run shows what it reached.

use std::collections::BTreeMap;
use std::fmt;

use calls::{Answer, Call, Reason, Verdict};

use crate::ledger::{Noted, Step};

#[derive(Default)]
pub struct Tally {
    pub calls: u64,
    counts: BTreeMap<&'static str, u64>,
    /// The takes that were explained, by the rule that was told.
    explained: BTreeMap<Reason, u64>,
}

/// Everything that is counted, in the order in which it is printed.
pub const COUNTED: [&str; 44] = [
    "opened",
    "new",
    "duplicate",
    "late: window",
    "late: floor",
    "late: position",
    "ahead",
    "unjudged",
    "full: closed",
    "full: share",
    "full: limit",
    "full: part",
    "full: twice",
    "full: places",
    "full: pairs",
    "full: slots",
    "begun",
    "already",
    "whole",
    "partly",
    "partly over live",
    "restored again",
    "restored full",
    "dumped",
    "refused 1",
    "refused 4",
    "refused 5",
    "refused 6",
    "refused 7",
    "refused 8",
    "by relay",
    "by restored",
    "struck again",
    "modest",
    "steady",
    "steady: takes",
    "reading: back",
    "reading: same",
    "reading: past a ring",
    "expired",
    "limits",
    "closed",
    "looked",
    "viewed",
];

/// Stops at a name that is not counted, for it would never come.
pub fn all_counted(names: &[&str]) {
    for name in names {
        assert!(COUNTED.contains(name), "{name} is not counted");
    }
}

fn full(reason: Option<Reason>) -> &'static str {
    match reason {
        Some(Reason::Closed) => "full: closed",
        Some(Reason::OwnShare) => "full: share",
        Some(Reason::ClassLimit) => "full: limit",
        Some(Reason::EqualPart) => "full: part",
        Some(Reason::TwiceLimit) => "full: twice",
        Some(Reason::Places) => "full: places",
        Some(Reason::Pairs) => "full: pairs",
        Some(Reason::Slots) => "full: slots",
        _ => unreachable!("the ledger lets no Full pass without its rule"),
    }
}

fn verdict(verdict: Verdict, noted: &Noted) -> &'static str {
    match verdict {
        Verdict::New => "new",
        Verdict::Duplicate => "duplicate",
        Verdict::Late if noted.reason == Some(Reason::Position) => "late: position",
        Verdict::Late if noted.outside.is_none() => "late: floor",
        Verdict::Late => "late: window",
        Verdict::Ahead => "ahead",
        Verdict::Full => full(noted.reason),
        Verdict::Unjudged => "unjudged",
    }
}

fn refused(number: u64) -> &'static str {
    match number {
        1 => "refused 1",
        4 => "refused 4",
        5 => "refused 5",
        6 => "refused 6",
        7 => "refused 7",
        8 => "refused 8",
        _ => unreachable!("2 and 3 are no answers of a machine without lent words"),
    }
}

fn reading(step: Step) -> Option<&'static str> {
    match step {
        Step::Back => Some("reading: back"),
        Step::Same => Some("reading: same"),
        Step::On => None,
        Step::PastRing => Some("reading: past a ring"),
    }
}

fn kind(call: &Call, answer: &Answer, noted: &Noted) -> &'static str {
    match (call, answer) {
        (_, Answer::Refused(number)) => refused(*number),
        (_, Answer::Verdict(of)) => verdict(*of, noted),
        (_, Answer::Opened) => "opened",
        (_, Answer::Begun) => "begun",
        (_, Answer::Already) => "already",
        (_, Answer::Whole(_)) => "whole",
        (_, Answer::Partly(_)) => "partly",
        (_, Answer::Viewed(_)) => "viewed",
        (Call::Dump { .. }, _) => "dumped",
        (Call::Expire { .. }, _) => "expired",
        (Call::Limits(_), _) => "limits",
        (Call::Close, _) => "closed",
        _ => "looked",
    }
}

impl Tally {
    fn add(&mut self, what: &'static str, number: u64) {
        *self.counts.entry(what).or_default() += number;
    }

    pub fn of(&self, what: &str) -> u64 {
        self.counts.get(what).copied().unwrap_or(0)
    }

    pub fn count(&mut self, call: &Call, answer: &Answer, noted: &Noted) {
        self.calls += 1;
        self.add(kind(call, answer, noted), 1);
        self.add("struck again", u64::from(noted.struck));
        self.add("partly over live", u64::from(noted.dropped));
        self.add("restored again", u64::from(noted.again));
        self.add("restored full", u64::from(noted.filled));
        self.add("modest", u64::from(noted.modest));
        self.add("steady", u64::from(noted.steady));
        self.add("steady: takes", u64::from(noted.steady_takes));
        if let Some(what) = noted.step.and_then(reading) {
            self.add(what, 1);
        }
        if let (Call::Ask { ticket, .. }, Answer::Verdict(Verdict::New)) = (call, answer) {
            match ticket.who.listed() {
                Some(calls::Who::Relay) => self.add("by relay", 1),
                Some(calls::Who::Restored(_)) => self.add("by restored", 1),
                _ => {}
            }
        }
    }

    /// A take was explained, by this rule where it was not refused.
    pub fn explain(&mut self, reason: Option<Reason>) {
        if let Some(reason) = reason {
            *self.explained.entry(reason).or_default() += 1;
        }
    }

    /// The takes that were explained.
    pub fn explained(&self) -> u64 {
        self.explained.values().sum()
    }

    /// The rules that were told less often than once in 4,000 explained takes, which are 500 of two million.
    pub fn unexplained(&self) -> Vec<String> {
        let least = self.explained().div_ceil(4_000);
        let times = |reason: &Reason| self.explained.get(reason).copied().unwrap_or(0);
        let rare = Reason::ALL.iter().filter(|reason| times(reason) < least);
        rare.map(Reason::to_string).collect()
    }

    /// The first of what must never come that came.
    pub fn reached(&self, never: &'static [&'static str]) -> Option<&'static str> {
        never.iter().copied().find(|what| self.of(what) > 0)
    }

    /// What came less often than once in 2,000 calls, of what was meant to come.
    pub fn lacks(&self, meant: &'static [&'static str]) -> Vec<&'static str> {
        let least = self.calls.div_ceil(2_000);
        meant
            .iter()
            .copied()
            .filter(|what| self.of(what) < least)
            .collect()
    }

    pub fn join(&mut self, other: &Self) {
        self.calls += other.calls;
        for (what, number) in &other.counts {
            self.add(what, *number);
        }
        for (reason, number) in &other.explained {
            *self.explained.entry(*reason).or_default() += number;
        }
    }
}

impl fmt::Display for Tally {
    fn fmt(&self, f: &mut fmt::Formatter<'_>) -> fmt::Result {
        write!(f, "{} calls", self.calls)?;
        for what in COUNTED.into_iter().filter(|what| self.of(what) > 0) {
            write!(f, ", {what} {}", self.of(what))?;
        }
        if self.explained() > 0 {
            write!(f, "; {} takes explained", self.explained())?;
        }
        let mut rules = self.explained.iter();
        rules.try_for_each(|(reason, number)| write!(f, ", {reason}: {number}"))
    }
}
