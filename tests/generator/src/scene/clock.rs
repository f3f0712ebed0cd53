//! The clock, from one call to the next.

use calls::{Call, Windows};

use super::Scene;
use crate::profile::Clock;

impl Scene {
    pub(super) fn start_clock(&mut self) {
        const LAST_SECOND_MS: u64 = (1 << 32) * 1_000;
        self.edge = self.random.pick(&[u64::MAX, LAST_SECOND_MS, 0]);
        self.reading = match self.profile.clock {
            Clock::Edges => self.near(self.edge, 30_000),
            Clock::Rising | Clock::Fallen if self.random.percent(25) => {
                self.near(self.edge, 30_000)
            }
            _ => self.random.between(100_000, 10_000_000),
        };
        self.fall = (self.profile.clock == Clock::Fallen).then(|| self.random.below(self.stretch));
    }

    /// A number about `about`, at most `by` away.
    pub(super) fn near(&mut self, about: u64, by: u64) -> u64 {
        let off = self.random.below(by + 1);
        match self.random.percent(50) {
            true => about.saturating_add(off),
            false => about.saturating_sub(off),
        }
    }

    pub(super) fn tick_clock(&mut self) {
        let widest = self.most(|one| one.bucket);
        let life = self.most(|one| one.retained() + one.ahead());
        let clock = self.profile.clock;
        self.reading = match clock {
            Clock::Steady if self.random.percent(2) => self.near(self.reading, 2 * life),
            Clock::Steady => self
                .reading
                .saturating_add(self.random.below(widest / 4 + 2)),
            Clock::Steps if self.random.percent(12) => self.near(self.reading, 3 * life),
            Clock::Steps => self
                .reading
                .saturating_add(self.random.below(widest / 2 + 2)),
            Clock::Edges if self.random.percent(20) => self.near(self.edge, life + 3_000),
            Clock::Edges => self.near(self.reading, widest),
            Clock::Still if self.random.below(1_000) == 0 => self.near(self.reading, life),
            Clock::Still => self.reading,
            Clock::Fallen if self.falls() => self.fallen(),
            Clock::Rising | Clock::Fallen => self.risen(widest),
        };
    }

    /// The most of all registers.
    fn most(&self, of: impl Fn(&Windows) -> u64) -> u64 {
        self.settings.windows.iter().map(of).max().unwrap_or(1)
    }

    /// The milliseconds of the longest ring.
    fn reach(&self) -> u64 {
        self.most(|one| one.ring() * one.bucket)
    }

    fn risen(&mut self, widest: u64) -> u64 {
        let by = match self.random.below(100) {
            0..40 => 0,
            at if at < 92 || self.has_fallen() => self.random.below(widest / 2 + 2),
            _ => self.reach() + 1 + self.random.below(3 * self.reach()),
        };
        self.reading.saturating_add(by)
    }

    /// Whether the step back is due, which comes once.
    fn falls(&mut self) -> bool {
        let left = self.left;
        self.fall.take_if(|at| left <= *at).is_some()
    }

    /// Whether the one step back has come: the clock then goes on slowly, through what is held ahead of it.
    fn has_fallen(&self) -> bool {
        self.profile.clock == Clock::Fallen && self.fall.is_none()
    }

    fn fallen(&mut self) -> u64 {
        let by = self.reach() / 2 + self.random.below(self.reach());
        self.reading.saturating_sub(by)
    }

    /// On a clock that rises: the present reading in a call that sweeps by it, and any in one that uses none.
    pub(super) fn read_clock(&mut self, call: &mut Call) {
        let (register, flag, reading) = match call {
            Call::Ask { ticket, .. } => (ticket.register, ticket.flag, &mut ticket.reading),
            Call::Sweep { register, reading } => (*register, 1, reading),
            _ => return,
        };
        let used = flag == 1 && !self.pending[register as usize];
        *reading = if used {
            self.reading
        } else {
            self.any_reading()
        };
    }

    fn any_reading(&mut self) -> u64 {
        match self.random.below(4) {
            0 => self.random.pick(&[0, u64::MAX]),
            _ => self.near(self.reading, 3 * self.reach()),
        }
    }
}
