//! Fit calls with one code or number put out of its bounds.

use calls::call::Ticket;
use calls::{Call, Form, Limits, Look, Settings, Start, Who};

use crate::random::Random;

/// A number just out of bounds, or far out.
fn past(most: u64, random: &mut Random) -> u64 {
    match random.below(3) {
        0 => most + 1,
        1 => u64::MAX,
        _ => (most + 1).saturating_add(random.word() >> 1),
    }
}

/// The settings with one of them unfit.
fn settings(mut fit: Settings, random: &mut Random) -> Settings {
    let at = random.below(fit.windows.len() as u64) as usize;
    let one = &mut fit.windows[at];
    match random.below(17) {
        0 => fit.registers = 0,
        1 => fit.registers = past(4, random),
        2 => fit.places = 0,
        3 => fit.places = past(64, random),
        4 => fit.pairs = random.below(2),
        5 => fit.pairs = past(512, random),
        6 => fit.feeder_units = past(4_096, random),
        7 => fit.peer_units = past(4_096, random),
        8 => fit.limits = limits(fit.limits, random),
        9 => one.origin.behind = past(3_600_000, random),
        10 => one.origin.ahead = past(3_600_000, random),
        11 => one.copy.behind = past(3_600_000, random),
        12 => one.copy.ahead = past(3_600_000, random),
        13 => one.bucket = 0,
        14 => one.bucket = past(60_000, random),
        15 => one.slots = random.pick(&[0, 1, 3, 6, 1_023, 1_025, 2_048, 1 << 63, u64::MAX]),
        _ => {
            // A ring of 257.
            one.bucket = 1 + random.below(2);
            one.origin.behind = 255 * one.bucket;
            one.copy = calls::Window::default();
            one.origin.ahead = 0;
        }
    }
    fit
}

fn limits(fit: Limits, random: &mut Random) -> Limits {
    let mut numbers = fit.all();
    numbers[random.below(5) as usize] = past(Limits::MOST, random);
    Limits::of(numbers)
}

/// A deliverer that is not listed.
pub fn who(random: &mut Random) -> Who {
    match random.below(3) {
        0 => Who::Restored(past(2, random)),
        1 => Who::Kind(3, past(2, random)),
        _ => Who::Kind(past(3, random), random.below(3)),
    }
}

/// The number of a register that is not there.
pub fn register(fit: &Settings, random: &mut Random) -> u64 {
    past(fit.registers - 1, random)
}

/// A listed deliverer named by its code, which is fit.
fn by_code(random: &mut Random) -> Who {
    let kind = random.below(4);
    Who::Kind(kind, random.below(3))
}

/// A call that is unfit in one thing, or names a register that is not there.
pub fn call(fit: &Settings, ticket: Ticket, random: &mut Random) -> Call {
    let form = random.pick(&[Form::Judge, Form::Take, Form::JudgeBatch, Form::TakeBatch]);
    let ask = |ticket| Call::Ask { form, ticket };
    let register = register(fit, random);
    match random.below(24) {
        0..4 => {
            let starts = vec![Start::Empty; fit.windows.len()];
            Call::Open {
                settings: settings(fit.clone(), random),
                starts,
            }
        }
        4 => {
            let mut starts = vec![Start::Empty; fit.windows.len()];
            starts[0] = Start::Code(past(2, random), random.below(9));
            Call::Open {
                settings: fit.clone(),
                starts,
            }
        }
        5..7 => ask(Ticket {
            flag: past(1, random),
            ..ticket
        }),
        7..10 => ask(Ticket {
            who: who(random),
            ..ticket
        }),
        10..12 => ask(Ticket {
            who: by_code(random),
            ..ticket
        }),
        12 => ask(Ticket { register, ..ticket }),
        13 => ask(Ticket {
            register,
            who: who(random),
            ..ticket
        }),
        14 => Call::Limits(limits(fit.limits, random)),
        15 => Call::Look(Look::Held { who: who(random) }),
        16 => Call::Look(Look::Held {
            who: by_code(random),
        }),
        17 => Call::Look(Look::Class {
            class: past(2, random),
        }),
        18 => Call::Dump {
            register,
            length: Some(random.below(9)),
        },
        19 => Call::Restore {
            register,
            bytes: vec![0; random.below(40) as usize],
        },
        20 => Call::Resume {
            register,
            bytes: vec![0; random.below(40) as usize],
            proven: None,
        },
        21 => Call::Look(Look::ContainsHash {
            register,
            fingerprint: ticket.fingerprint,
        }),
        22 => Call::Begin {
            register,
            number: ticket.stamp,
        },
        _ => look(register, ticket.reading, random),
    }
}

fn look(register: u64, reading: u64, random: &mut Random) -> Call {
    match random.below(4) {
        0 => Call::Sweep { register, reading },
        1 => Call::Look(Look::Floor { register }),
        2 => Call::Look(Look::Pending { register }),
        _ => Call::Look(Look::Swept { register }),
    }
}
