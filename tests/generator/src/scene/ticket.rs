//! Tickets, new ones and those brought before.

use calls::call::Ticket;
use calls::{Call, Form, Look, Who};

use super::Scene;
use crate::profile::Clock;

impl Scene {
    pub(super) fn register(&mut self) -> u64 {
        self.random.below(self.settings.registers)
    }

    pub(super) fn who(&mut self) -> Who {
        let id = 1 + self.party();
        if self.random.percent(self.profile.own) {
            return match self.random.below(2) {
                0 => Who::Relay,
                _ => Who::Restored(self.random.below(3)),
            };
        }
        match self.random.percent(60) {
            true => Who::Feeder(id),
            false => Who::Peer(id),
        }
    }

    /// Parties come one after another, each asking most when it has just come: so each fills the
    /// part that it then has, and together they pass their limit.
    pub(super) fn party(&mut self) -> u64 {
        let last = self.profile.parties - 1;
        let come =
            last.min(self.profile.parties * (self.stretch - self.left) / self.stretch.max(1));
        match self.random.below(20) {
            0 => self.random.below(self.profile.parties),
            1..6 => self.random.below(come + 1),
            _ => come,
        }
    }

    pub(super) fn fingerprint(&mut self) -> u64 {
        if self.profile.clock == Clock::Still && self.random.percent(60) {
            return self.random.word();
        }
        match self.random.below(10) {
            0 => self.random.below(3),
            1..4 => self.random.below(40),
            4..6 => 8 * self.random.below(16),
            6 => u64::MAX - self.random.below(4),
            _ => self.random.word(),
        }
    }

    pub(super) fn stamp(&mut self, register: u64, who: Who) -> u64 {
        let windows = self.settings.windows[register as usize];
        let window = if matches!(who, Who::Feeder(_)) {
            windows.origin
        } else {
            windows.copy
        };
        let oldest = self.reading.saturating_sub(window.behind);
        let newest = self.reading.saturating_add(window.ahead);
        match self.random.below(20) {
            0 => oldest.saturating_sub(self.random.below(2)),
            1 => newest.saturating_add(self.random.below(2)),
            2 => newest.saturating_add(self.random.below(3 * windows.bucket)),
            3 => self.floors[register as usize].saturating_add(self.random.below(2)),
            4 => self.near(self.edge, 2),
            5..9 => self.reading,
            9..17 if self.profile.clock == Clock::Still => self.reading,
            _ if self.profile.clock == Clock::Still => self.near(self.reading, windows.bucket),
            _ => self.random.between(oldest, newest),
        }
    }

    pub(super) fn ticket(&mut self) -> Ticket {
        let (register, who) = (self.register(), self.who());
        Ticket {
            register,
            fingerprint: self.fingerprint(),
            stamp: self.stamp(register, who),
            reading: self.reading,
            flag: u64::from(!self.random.percent(2)),
            who,
        }
    }

    pub(super) fn ask(&mut self, form: Form) -> Call {
        Call::Ask {
            form,
            ticket: self.ticket(),
        }
    }

    /// A ticket brought before, mostly as it was, at the present reading or its own.
    pub(super) fn again(&mut self) -> Call {
        let form = self
            .random
            .pick(&[Form::Judge, Form::Take, Form::JudgeBatch, Form::TakeBatch]);
        if self.tickets.is_empty() {
            return self.ask(form);
        }
        let at = self.random.below(self.tickets.len() as u64) as usize;
        let mut ticket = self.tickets[at];
        match self.random.below(6) {
            0 => ticket.who = self.who(),
            1 => ticket.stamp = self.near(ticket.stamp, 1_000),
            2 => ticket.register = self.register(),
            3 => {}
            _ => ticket.reading = self.reading,
        }
        Call::Ask { form, ticket }
    }

    pub(super) fn contains(&mut self) -> Call {
        let register = self.register();
        let fingerprint = match self.tickets.back() {
            Some(ticket) if self.random.percent(60) => ticket.fingerprint,
            _ => self.fingerprint(),
        };
        Call::Look(Look::ContainsHash {
            register,
            fingerprint,
        })
    }
}
