//! The gateway that is watched: every call goes through the ledger, and every ticket that was accepted is remembered as long as it
//! can come again.

use std::collections::HashMap;

use calls::call::Ticket;
use calls::{
    Answer, Call, Form, Limits, Look, Machine, Settings, Start, Verdict, Who, Window, Windows,
};
use generator::ledger::Ledger;
use machine::Product;

use super::site::TICKETS;

/// A ticket is forgotten here when it can be delivered no more: this long after it was accepted, by true time.
const REMEMBERED: u64 = 4 * 3_600_000;

#[derive(Default)]
pub struct Counts {
    pub calls: u64,
    pub tickets: u64,
    pub verdicts: [u64; 6],
    pub modest: u64,
    /// Tickets asked for again after they had been accepted.
    pub again: u64,
    /// Those of them that came after a restart.
    pub over_restarts: u64,
    /// Restores and resumes at a start.
    pub whole: u64,
    pub partly: u64,
    /// Neighbours' dumps over what is held, and those that dropped some of it.
    pub over_whole: u64,
    pub over_partly: u64,
    pub dropped: u64,
}

pub struct Gateway {
    product: Product,
    ledger: Ledger,
    /// The calls since the last opening.
    pub list: Vec<Call>,
    /// The tickets that were accepted: when by true time, and in which run.
    accepted: HashMap<(u64, u64, u64), (u64, u64)>,
    /// The runs of the gateway, and the first since which it started with its dumps.
    run: u64,
    kept_since: u64,
    pub counts: Counts,
}

pub fn settings() -> Settings {
    let window = |behind, ahead| Window { behind, ahead };
    Settings {
        registers: 2,
        places: 6,
        pairs: 64,
        feeder_units: 5,
        peer_units: 5,
        limits: Limits {
            feeder: 60,
            feeders: 150,
            peer: 60,
            peers: 150,
            relay: 60,
        },
        windows: vec![
            Windows {
                origin: window(60_000, 10_000),
                copy: window(45_000, 10_000),
                bucket: 2_000,
                slots: 64,
            },
            Windows {
                origin: window(600_000, 10_000),
                copy: window(600_000, 10_000),
                bucket: 60_000,
                slots: 32,
            },
        ],
    }
}

impl Gateway {
    pub fn new() -> Self {
        Self {
            product: Product::default(),
            ledger: Ledger::default(),
            list: Vec::new(),
            accepted: HashMap::new(),
            run: 0,
            kept_since: 0,
            counts: Counts::default(),
        }
    }

    /// One call, held against the ledger.
    pub fn call(&mut self, call: Call) -> Result<Answer, String> {
        let answer = self.product.run(&call);
        self.counts.calls += 1;
        let product = &mut self.product;
        let noted = self.ledger.saw(&call, &answer, |again| product.run(again));
        if matches!(call, Call::Open { .. }) {
            self.list.clear();
        }
        let text = noted
            .as_ref()
            .err()
            .map(|why| format!("{call} => {answer}: {why}"));
        self.list.push(call);
        match (noted, &answer) {
            (_, Answer::Refused(number)) => Err(format!("refused with {number}")),
            (Ok(noted), _) => {
                self.counts.modest += u64::from(noted.modest);
                self.counts.dropped += u64::from(noted.dropped);
                Ok(answer)
            }
            _ => Err(text.unwrap_or_default()),
        }
    }

    pub fn take(&mut self, now: u64, form: Form, ticket: Ticket) -> Result<Verdict, String> {
        let answer = self.call(Call::Ask { form, ticket })?;
        let Answer::Verdict(verdict) = answer else {
            return Err(format!("{answer} is no verdict"));
        };
        self.counts.tickets += 1;
        self.counts.verdicts[verdict as usize] += 1;
        self.remember(now, ticket, verdict)?;
        Ok(verdict)
    }

    /// No ticket is accepted twice, over restarts too up to one without dumps.
    fn remember(&mut self, now: u64, ticket: Ticket, verdict: Verdict) -> Result<(), String> {
        let key = (ticket.register, ticket.fingerprint.max(1), ticket.stamp);
        match self.accepted.get(&key) {
            Some((_, run)) if *run >= self.kept_since => {
                self.counts.again += 1;
                self.counts.over_restarts += u64::from(*run < self.run);
                if verdict == Verdict::New {
                    return Err(format!(
                        "ticket {} of {} was accepted twice",
                        ticket.fingerprint, ticket.stamp
                    ));
                }
            }
            _ if verdict == Verdict::New => {
                self.accepted.insert(key, (now, self.run));
            }
            _ => {}
        }
        if self.accepted.len() > 100_000 {
            self.accepted.retain(|_, (at, _)| *at + REMEMBERED > now);
        }
        Ok(())
    }

    /// A register's floor.
    pub fn floor(&mut self, register: u64) -> Result<Option<u64>, String> {
        match self.call(Call::Look(Look::Floor { register }))? {
            Answer::Perhaps(floor) => Ok(floor),
            other => Err(format!("{other} is no floor")),
        }
    }

    /// The first opening, or one after everything was lost.
    pub fn open(&mut self, start: Start) -> Result<(), String> {
        self.run += 1;
        self.kept_since = self.run;
        self.opened(start)
    }

    fn opened(&mut self, start: Start) -> Result<(), String> {
        let settings = settings();
        let starts = vec![start; settings.windows.len()];
        self.call(Call::Open { settings, starts }).map(|_| ())
    }

    /// A stop: nothing is taken any more, and every register is dumped.
    pub fn stop(&mut self) -> Result<Vec<Vec<u8>>, String> {
        self.call(Call::Close)?;
        let registers = settings().registers;
        (0..registers).map(|register| self.dump(register)).collect()
    }

    fn dump(&mut self, register: u64) -> Result<Vec<u8>, String> {
        match self.call(Call::Dump {
            register,
            length: None,
        })? {
            Answer::Bytes(bytes) => Ok(bytes),
            other => Err(format!("{other} is no dump")),
        }
    }

    /// A start with the dumps of the stop before: restored into registers that start empty, or resumed in registers that wait.
    pub fn restart(&mut self, dumps: Vec<Vec<u8>>, resumed: bool) -> Result<(), String> {
        self.run += 1;
        self.opened(if resumed {
            Start::Fallback
        } else {
            Start::Empty
        })?;
        for (register, bytes) in dumps.into_iter().enumerate() {
            let register = register as u64;
            let call = match resumed {
                true => Call::Resume {
                    register,
                    bytes,
                    proven: None,
                },
                false => Call::Restore { register, bytes },
            };
            match self.brought(call)? {
                true => self.counts.whole += 1,
                false => self.counts.partly += 1,
            }
        }
        Ok(())
    }

    /// A neighbour's dump into the register of tickets, over what it holds.
    pub fn hand_over(&mut self, bytes: Vec<u8>) -> Result<(), String> {
        let register = TICKETS;
        match self.brought(Call::Restore { register, bytes })? {
            true => self.counts.over_whole += 1,
            false => self.counts.over_partly += 1,
        }
        Ok(())
    }

    /// Whether a restore or resume came out Whole.
    fn brought(&mut self, call: Call) -> Result<bool, String> {
        match self.call(call)? {
            Answer::Whole(_) => Ok(true),
            Answer::Partly(_) => Ok(false),
            other => Err(format!("{other} is no outcome of a restore")),
        }
    }

    pub fn begin(&mut self, number: u64) -> Result<(), String> {
        for register in 0..settings().registers {
            self.call(Call::Begin { register, number })?;
        }
        Ok(())
    }

    pub fn tick(&mut self, reading: u64) -> Result<(), String> {
        for register in 0..settings().registers {
            self.call(Call::Sweep { register, reading })?;
        }
        self.call(Call::Expire { reading }).map(|_| ())
    }
}

/// The call at which the ledger does not agree with a list, run from its start: for cutting it down.
pub fn disagrees(list: &[Call]) -> Option<usize> {
    let (mut product, mut ledger) = (Product::default(), Ledger::default());
    list.iter().position(|call| {
        let answer = product.run(call);
        let seen = ledger.saw(call, &answer, |again| product.run(again));
        seen.is_err()
    })
}

/// The call that is refused, where the ledger agrees.
pub fn refused(list: &[Call]) -> Option<usize> {
    let mut product = Product::default();
    list.iter()
        .position(|call| matches!(product.run(call), Answer::Refused(_)))
}

/// The form in which a deliverer's ticket is taken: batches by the batch form.
pub fn form(who: Who) -> Form {
    if who == Who::Relay {
        Form::Take
    } else {
        Form::TakeBatch
    }
}
