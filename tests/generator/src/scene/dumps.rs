//! Dumps taken, made up and damaged.

use calls::call::Ticket;
use calls::{Call, Form, Look, Who};

use super::Scene;
use crate::damage;
use crate::dump::{Dump, Listed};

/// The bytes of a dump that is cut at each length or altered in each word, at most.
const SHORT: usize = 160;

impl Scene {
    pub(super) fn dump_into(&mut self) -> Call {
        let about = self.dumps.back().map_or(32, Vec::len) as u64;
        let length = match self.random.below(4) {
            0 => self.random.pick(&[0, 31, 32, 33, u64::MAX]),
            1 => self.near(about, 1),
            _ => self.near(about, 64),
        };
        Call::Dump {
            register: self.register(),
            length: Some(length),
        }
    }

    /// A dump taken earlier, of this opening or one before; a made one while there is none.
    pub(super) fn known_dump(&mut self) -> Vec<u8> {
        match self.dumps.len() {
            0 => self.made_dump(),
            many => {
                let at = self.random.below(many as u64) as usize;
                self.dumps[at].clone()
            }
        }
    }

    pub(super) fn made_dump(&mut self) -> Vec<u8> {
        let floor = match self.random.below(4) {
            0 => self.reading.saturating_sub(self.random.below(20_000)),
            1 if self.random.percent(30) => self.random.pick(&[1, u64::MAX]),
            _ => 0,
        };
        let mut dump = Dump {
            floor,
            ..Dump::default()
        };
        for class in &mut dump.classes {
            *class = (0..self.random.below(3)).map(|_| self.listed()).collect();
        }
        dump.bytes()
    }

    /// A generation near the clock, now and then with nothing or something twice in it.
    pub(super) fn listed(&mut self) -> Listed {
        let register = self.register();
        let windows = self.settings.windows[register as usize];
        let newest = self.near(self.reading, windows.retained());
        let bucket = match self.random.below(8) {
            0 => self.random.pick(&[0, 1, u64::MAX]),
            _ => windows.bucket_of(newest),
        };
        let mut fingerprints: Vec<u64> = Vec::new();
        for _ in 0..self.random.below(7) {
            let one = match fingerprints.last() {
                Some(last) if self.random.percent(15) => *last,
                _ => self.fingerprint(),
            };
            fingerprints.push(one);
        }
        Listed {
            bucket,
            newest,
            fingerprints,
        }
    }

    pub(super) fn restore(&mut self) -> Call {
        let mut bytes = self.known_dump();
        if self.random.percent(10) {
            bytes.extend(vec![0xaa; self.random.below(20) as usize]);
        }
        Call::Restore {
            register: self.register(),
            bytes,
        }
    }

    pub(super) fn restore_made(&mut self) -> Call {
        Call::Restore {
            register: self.register(),
            bytes: self.made_dump(),
        }
    }

    /// A dump that goes back into its own register two or three times, once its bytes are known.
    pub(super) fn restore_own(&mut self) -> Call {
        self.returns = 2 + self.random.below(2);
        Call::Dump {
            register: self.register(),
            length: None,
        }
    }

    /// The dump restored into its own register as often as it is due, a ticket after each, and the register dumped again.
    pub(super) fn bring_back(&mut self, register: u64, bytes: &[u8]) {
        let returns = std::mem::take(&mut self.returns);
        for _ in 0..returns {
            self.ahead.push_back(Call::Restore {
                register,
                bytes: bytes.to_vec(),
            });
            let ticket = self.again();
            self.ahead.push_back(ticket);
        }
        if returns > 0 {
            self.ahead.push_back(Call::Dump {
                register,
                length: None,
            });
        }
    }

    /// A neighbour's dump over the bucket of a ticket brought before, mostly too much for it and with an older newest stamp; then
    /// the ticket again. A dump taken earlier while there is no ticket.
    pub(super) fn restore_over(&mut self) -> Call {
        if self.tickets.is_empty() {
            return self.restore();
        }
        let at = self.random.below(self.tickets.len() as u64) as usize;
        let ticket = self.tickets[at];
        let bytes = self.neighbours_dump(&ticket);
        self.ahead.push_back(Call::Look(Look::Floor {
            register: ticket.register,
        }));
        self.ahead.push_back(Call::Ask {
            form: Form::Take,
            ticket,
        });
        Call::Restore {
            register: ticket.register,
            bytes,
        }
    }

    /// One generation, that of the ticket's bucket in its deliverer's class.
    fn neighbours_dump(&mut self, ticket: &Ticket) -> Vec<u8> {
        let windows = self.settings.windows[ticket.register as usize];
        let newest = match self.random.percent(80) {
            true => ticket.stamp.saturating_sub(self.random.below(2_000)),
            false => self.near(ticket.stamp, 2_000),
        };
        let number = self.random.below(windows.slots + 1);
        let listed = Listed {
            bucket: windows.bucket_of(ticket.stamp),
            newest,
            fingerprints: (0..number).map(|_| self.fingerprint()).collect(),
        };
        let mut dump = Dump::default();
        let class = ticket.who.listed().map_or(0, Who::class);
        dump.classes[class].push(listed);
        dump.bytes()
    }

    pub(super) fn proven(&mut self) -> Option<u64> {
        match self.random.below(5) {
            0 if self.random.percent(30) => Some(self.random.pick(&[0, u64::MAX])),
            1 | 2 => Some(self.reading.saturating_sub(self.random.below(20_000))),
            _ => None,
        }
    }

    pub(super) fn resume(&mut self) -> Call {
        let bytes = if self.random.percent(70) {
            self.known_dump()
        } else {
            self.made_dump()
        };
        Call::Resume {
            register: self.register(),
            bytes,
            proven: self.proven(),
        }
    }

    pub(super) fn damaged(&mut self) -> Call {
        let whole = self.known_dump();
        let at = self.random.below(whole.len() as u64 + 1) as usize;
        let bytes = match self.random.percent(40) {
            true => whole[..at].to_vec(),
            false => damage::altered(&whole, at / 8, &mut self.random),
        };
        self.bring(bytes)
    }

    /// Restored, or now and then resumed.
    pub(super) fn bring(&mut self, bytes: Vec<u8>) -> Call {
        let register = self.register();
        match self.random.percent(75) {
            true => Call::Restore { register, bytes },
            false => Call::Resume {
                register,
                bytes,
                proven: self.proven(),
            },
        }
    }

    pub(super) fn short_dump(&mut self) -> Vec<u8> {
        match self.dumps.iter().rev().find(|dump| dump.len() <= SHORT) {
            Some(dump) => dump.clone(),
            None => vec![0; 32],
        }
    }

    pub(super) fn every_cut(&mut self) -> Call {
        let dump = self.short_dump();
        self.bring_all(damage::every_cut(&dump))
    }

    pub(super) fn every_field(&mut self) -> Call {
        let dump = self.short_dump();
        let all = damage::every_field(&dump, &mut self.random);
        self.bring_all(all)
    }

    pub(super) fn bring_all(&mut self, dumps: Vec<Vec<u8>>) -> Call {
        for bytes in dumps {
            let call = self.bring(bytes);
            self.ahead.push_back(call);
        }
        self.ahead.pop_front().expect("no dump is empty")
    }
}
