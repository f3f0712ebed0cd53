//! The rule behind a verdict, printed so that a person can read it.

use std::process::ExitCode;

use calls::call::Ticket as Line;
use calls::{Answer, Call, Machine, Who};
use machine::Product;
use strikes::words;
use strikes::{Class, Deliverer, Gateway, Reading, Refusal, Ticket};

use crate::list::run_list;
use crate::why::{Brought, Why, why};
use crate::{saved, tell};

/// Explains one ticket by words that a host has kept. The ticket's parts are as a list has them: REG FP STAMP READING FLAG WHO.
pub fn of_file(file: &str, parts: &[&str]) -> ExitCode {
    let line = match calls::read::line(&format!("explain {}", parts.join(" "))) {
        Ok(line) => line.and_then(|line| line.call.ticket()),
        Err(why) => return saved::failed(&why, 2),
    };
    let explained = saved::read(file).and_then(|words| {
        saved::view(&words)?;
        let line = line.expect("a ticket is explained");
        explain(&words, &line).map_err(|refusal| saved::failed(&format!("refused: {refusal}"), 1))
    });
    explained.map_or_else(|status| status, |why| tell(&text_of(&why)))
}

/// Runs the list on the standard input and explains each ticket that is judged, taken or explained there, before it.
pub fn of_list() -> ExitCode {
    ExitCode::from(run_list(&mut Explaining::default()).unwrap_or(2))
}

#[derive(Default)]
struct Explaining(Product);

impl Machine for Explaining {
    fn run(&mut self, call: &Call) -> Answer {
        if let Some(ticket) = call.ticket() {
            let text = match explain(self.0.words(), &ticket) {
                Ok(why) => text_of(&why),
                Err(refusal) => format!("  refused: {refusal}\n"),
            };
            tell(&format!("{call}\n{text}"));
        }
        self.0.run(call)
    }
}

/// Why a take of the ticket answers as it does.
fn explain(words: &[u64], line: &Line) -> Result<Why, Refusal> {
    let gateway = gateway_over(words)?;
    why(&gateway, &brought(line)?)
}

/// A gateway over words, with the settings that they keep.
pub fn gateway_over(words: &[u64]) -> Result<Gateway, Refusal> {
    let view = words::view(words).ok_or(Refusal::Unsound)?;
    Gateway::over(&view.settings(), words.to_vec())
}

/// The ticket of a line, if its codes are listed.
pub fn brought(line: &Line) -> Result<Brought, Refusal> {
    let (Some(who), 0..=1) = (deliverer(line.who), line.flag) else {
        return Err(Refusal::Unfit);
    };
    Ok(Brought {
        register: line.register,
        ticket: Ticket {
            fingerprint: line.fingerprint,
            stamp: line.stamp,
        },
        now: Reading {
            ms: line.reading,
            judging: line.flag == 1,
        },
        who,
    })
}

/// The deliverer, if its codes are listed.
fn deliverer(who: Who) -> Option<Deliverer> {
    Some(match who.listed()? {
        Who::Feeder(id) => Deliverer::Feeder(id),
        Who::Peer(id) => Deliverer::Peer(id),
        Who::Relay => Deliverer::Relay,
        Who::Restored(class) => Deliverer::Restored(Class::of(class)?),
        Who::Kind(..) => return None,
    })
}

/// The verdict and its rule, and below them the numbers that decide.
fn text_of(why: &Why) -> String {
    let mut lines = vec![format!("  {}: {}", why.reason.verdict(), why.reason)];
    lines.extend(why.numbers.iter().map(|numbers| format!("  {numbers}")));
    if why.ahead {
        lines.push("  the batch forms say Ahead".into());
    }
    lines.push(String::new());
    lines.join("\n")
}
