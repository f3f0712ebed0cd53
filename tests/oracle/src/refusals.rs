//! The refusals that the Rust does not have, as document 01 states them, tested before the Rust
//! is called: 1 for what no listed code or bound allows, 4 for a register that is not there.
//!
//! Nothing here knows what a register holds. 6 and 7 are the Rust's own answers, 5 compares the
//! length of the Rust's dump with the output's, and 8 that of a view. 2 and 3 speak of lent words,
//! which the Rust does not have: what would be refused with them is not run at all (`oracle.rs`).

use calls::{Call, Part, Settings, Start};

pub const UNFIT: u64 = 1;
pub const NO_REGISTER: u64 = 4;
pub const SHORT_OUTPUT: u64 = 5;
pub const PENDING: u64 = 6;
pub const CUT_SHORT: u64 = 7;
pub const SHORT_VIEW: u64 = 8;

/// The first refusal that the call's own arguments earn.
pub fn of(call: &Call, settings: &Settings) -> Option<u64> {
    if unfit(call) {
        return Some(UNFIT);
    }
    let there = register(call).is_none_or(|register| register < settings.registers);
    (!there).then_some(NO_REGISTER)
}

/// Whether the call brings a code or a number that is not among those listed.
pub fn unfit(call: &Call) -> bool {
    match call {
        Call::Open { settings, starts } => {
            !settings.fit() || starts.iter().any(|start| !listed(*start))
        }
        Call::Ask { ticket, .. } => ticket.flag > 1 || ticket.who.listed().is_none(),
        Call::Limits(limits) => !limits.fit(),
        Call::Look(look) => look.parts().into_iter().any(unlisted),
        _ => false,
    }
}

/// Whether a part of a reading call is a deliverer, a class, a flag or a verdict that is not there.
fn unlisted(part: (&str, Part)) -> bool {
    match part {
        (_, Part::Who(who)) => who.listed().is_none(),
        (_, Part::Wanted(wanted)) => wanted.listed().is_none(),
        ("class", Part::Number(class)) => class > 2,
        ("flag", Part::Number(flag)) => flag > 1,
        _ => false,
    }
}

fn listed(start: Start) -> bool {
    !matches!(start, Start::Code(3.., _))
}

fn register(call: &Call) -> Option<u64> {
    match call {
        Call::Ask { ticket, .. } => Some(ticket.register),
        Call::Look(look) => look.parts().into_iter().find_map(|part| match part {
            ("register", Part::Number(register)) => Some(register),
            _ => None,
        }),
        Call::Begin { register, .. }
        | Call::Sweep { register, .. }
        | Call::Dump { register, .. }
        | Call::Restore { register, .. }
        | Call::Resume { register, .. } => Some(*register),
        _ => None,
    }
}
