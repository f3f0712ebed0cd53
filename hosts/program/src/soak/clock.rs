//! The gateway's clock: true time and an offset that drifts, is corrected, and is stepped now and then.

use generator::random::Random;

const MINUTE: u64 = 60_000;
const HOUR: u64 = 60 * MINUTE;
const DAY: i64 = 24 * HOUR as i64;

/// What was done to the clock, for the counts.
#[derive(Clone, Copy, Debug, PartialEq, Eq)]
pub enum Correction {
    /// Another rate from now on.
    Slew,
    /// The offset set to nearly nothing.
    Set,
    StepForward,
    StepBack,
}

pub struct Clock {
    /// Milliseconds ahead of true time, when it was last set.
    offset: i64,
    since: u64,
    /// Thousandths of a millisecond gained in a second.
    rate: i64,
    /// A wrong step is put right at this time.
    right_at: Option<u64>,
}

impl Clock {
    pub fn new(now: u64) -> Self {
        Self {
            offset: 0,
            since: now,
            rate: 20,
            right_at: None,
        }
    }

    pub fn offset(&self, now: u64) -> i64 {
        self.offset + (now - self.since) as i64 * self.rate / 1_000_000
    }

    pub fn reading(&self, now: u64) -> u64 {
        now.saturating_add_signed(self.offset(now))
    }

    fn set(&mut self, now: u64, offset: i64) {
        self.offset = offset;
        self.since = now;
    }

    /// The next correction, and when another is due.
    pub fn correct(&mut self, now: u64, random: &mut Random) -> (Correction, u64) {
        let before = self.offset(now);
        if self.right_at.take().is_some() {
            self.set(now, random.below(11) as i64 - 5);
            return (
                step(before, self.offset),
                now + random.between(HOUR, 12 * HOUR),
            );
        }
        let sign = if random.percent(50) { 1 } else { -1 };
        let mut between = |least: u64, most: u64| sign * random.between(least, most) as i64;
        let wrong = match between(0, 99).unsigned_abs() {
            0..40 => {
                self.set(now, before);
                self.rate = between(0, 200);
                return (Correction::Slew, now + random.between(HOUR, 12 * HOUR));
            }
            40..65 => {
                self.set(now, between(0, 5));
                return (Correction::Set, now + random.between(HOUR, 12 * HOUR));
            }
            65..80 => between(1, 5_000),
            80..92 => between(5_000, 100_000),
            92..97 => between(HOUR - 5_000, HOUR + 5_000),
            // A glitch: the clock reads another day for a moment.
            _ => between(1, 400) * DAY,
        };
        self.set(now, before + wrong);
        let lasts = if wrong.abs() >= DAY {
            random.between(1_000, 20_000)
        } else {
            random.between(MINUTE, 20 * MINUTE)
        };
        self.right_at = Some(now + lasts);
        (step(0, wrong), now + lasts)
    }
}

fn step(before: i64, after: i64) -> Correction {
    if after >= before {
        Correction::StepForward
    } else {
        Correction::StepBack
    }
}
