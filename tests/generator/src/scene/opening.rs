//! The settings of an opening and where its registers start.

use calls::{Call, Limits, Settings, Start, Window, Windows};

use super::Scene;
use crate::profile::{Levels, Spans};

impl Scene {
    pub(super) fn open(&mut self) -> Call {
        let (least, most) = self.profile.stretch;
        self.stretch = self.random.between(least, most);
        self.left = self.stretch;
        self.settings = self.fit_settings();
        self.floors = vec![0; self.settings.windows.len()];
        self.tickets.clear();
        self.start_clock();
        let starts: Vec<_> = (0..self.settings.windows.len())
            .map(|_| self.start())
            .collect();
        let pending = starts.iter().map(|start| *start == Start::Fallback);
        self.pending = pending.collect();
        Call::Open {
            settings: self.settings.clone(),
            starts,
        }
    }

    pub(super) fn fit_settings(&mut self) -> Settings {
        loop {
            let settings = self.settings();
            if settings.fit() && settings.words() <= self.profile.words {
                return settings;
            }
        }
    }

    pub(super) fn settings(&mut self) -> Settings {
        let profile = self.profile;
        let (least, most) = profile.registers;
        let registers = self.random.between(least, most);
        Settings {
            registers,
            places: self.random.pick(profile.places),
            pairs: self.random.pick(profile.pairs),
            feeder_units: self.random.pick(profile.units),
            peer_units: self.random.pick(profile.units),
            limits: self.limits(),
            windows: (0..registers).map(|_| self.windows()).collect(),
        }
    }

    pub(super) fn limits(&mut self) -> Limits {
        let (feeder, feeders) = self.levels();
        let (peer, peers) = self.levels();
        let (relay, _) = self.levels();
        Limits {
            feeder,
            feeders,
            peer,
            peers,
            relay,
        }
    }

    /// One deliverer's limit, and its class's.
    pub(super) fn levels(&mut self) -> (u64, u64) {
        let mut level = || match self.profile.levels {
            Levels::Ample => self.random.between(50_000, Limits::MOST),
            Levels::Tight => self.random.pick(&[0, 1, 2, 3, 5, 8, 13, 4_100]),
            Levels::Shared => self.random.between(6, 30),
            Levels::Largest => Limits::MOST - self.random.below(2),
        };
        let (own, together) = (level(), level());
        match self.profile.levels {
            Levels::Shared => (
                self.random.pick(&[together / 2, together, 2 * together]),
                together,
            ),
            _ => (own, together),
        }
    }

    pub(super) fn windows(&mut self) -> Windows {
        let slots = self.random.pick(self.profile.slots);
        let bucket = match self.profile.spans {
            Spans::Small => self.random.pick(&[250, 500, 1_000, 1_500, 2_000]),
            Spans::Mixed => self.random.pick(&[1, 7, 400, 1_000, 2_500, 60_000]),
            Spans::Largest => self.random.pick(&[28_347, 14_174, 60_000, 1]),
        };
        let mut span = || match (self.profile.spans, bucket) {
            (Spans::Largest, 28_347) => 3_600_000,
            (Spans::Largest, 14_174) => self.random.pick(&[0, 1_800_000]),
            (Spans::Largest, 1) => self.random.pick(&[0, 127]),
            (Spans::Largest, _) => self.random.pick(&[0, 60_000, 3_600_000]),
            (Spans::Mixed, _) if self.random.percent(15) => 0,
            _ => self.random.below(9 * bucket),
        };
        Windows {
            origin: Window {
                behind: span(),
                ahead: span(),
            },
            copy: Window {
                behind: span(),
                ahead: span(),
            },
            bucket,
            slots,
        }
    }

    pub(super) fn start(&mut self) -> Start {
        if self.random.percent(self.profile.fallback) {
            return Start::Fallback;
        }
        match self.random.below(8) {
            0 => Start::At(self.reading.saturating_sub(self.random.below(20_000))),
            1 if self.random.percent(30) => Start::At(self.random.pick(&[0, 1, u64::MAX])),
            _ => Start::Empty,
        }
    }
}
