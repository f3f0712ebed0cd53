//! The host's calls beside tickets and dumps.

use calls::{Call, Length, Look};

use super::Scene;
use crate::unfit;

impl Scene {
    pub(super) fn begin(&mut self) -> Call {
        let number = match self.random.below(4) {
            0 if self.random.percent(30) => self.random.pick(&[0, u64::MAX]),
            _ => self.reading.saturating_sub(self.random.below(5_000)),
        };
        Call::Begin {
            register: self.register(),
            number,
        }
    }

    pub(super) fn tick(&mut self) -> Call {
        let reading = self.reading;
        let sweeps = (0..self.settings.registers).map(|register| Call::Sweep { register, reading });
        self.ahead.extend(sweeps);
        self.ahead.push_back(Call::Expire { reading });
        self.ahead.push_back(Call::Look(Look::Class {
            class: self.random.below(3),
        }));
        self.ahead.pop_front().expect("a sweep for each register")
    }

    pub(super) fn expire(&mut self) -> Call {
        Call::Expire {
            reading: self.near(self.reading, 20_000),
        }
    }

    pub(super) fn sweep(&mut self) -> Call {
        Call::Sweep {
            register: self.register(),
            reading: self.near(self.reading, 20_000),
        }
    }

    pub(super) fn look(&mut self) -> Call {
        let register = self.register();
        Call::Look(match self.random.below(5) {
            0 => Look::Floor { register },
            1 => Look::Pending { register },
            2 => Look::Swept { register },
            3 => Look::Held { who: self.who() },
            _ => Look::Class {
                class: self.random.below(3),
            },
        })
    }

    /// Now and then of a register that is not there, or of a deliverer that is not listed.
    pub(super) fn view(&mut self) -> Call {
        let (length, fit) = (self.view_length(), self.random.percent(95));
        if self.random.percent(50) {
            let register = match fit {
                true => self.register(),
                false => unfit::register(&self.settings, &mut self.random),
            };
            return Call::Look(Look::ViewRegister { register, length });
        }
        let who = match fit {
            true => self.who(),
            false => unfit::who(&mut self.random),
        };
        Call::Look(Look::ViewDeliverer { who, length })
    }

    /// Enough, any, or about what some pairs or generations take.
    fn view_length(&mut self) -> Length {
        match self.random.below(8) {
            0 => Some(self.random.pick(&[0, 1, 3_072, u64::MAX])),
            1 | 2 => Some(2 * self.random.below(6) + self.random.below(2)),
            3 | 4 => {
                let about = 4 * self.random.below(8);
                Some(self.near(about, 1))
            }
            _ => None,
        }
    }

    pub(super) fn unfit(&mut self) -> Call {
        let ticket = self.ticket();
        unfit::call(&self.settings, ticket, &mut self.random)
    }
}
