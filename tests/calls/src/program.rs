//! The part of a replay program's command line that all of them share.

use std::io::{self, BufWriter, Write};
use std::process::ExitCode;

use crate::machine::Machine;
use crate::replay::{Print, replay};

pub const USAGE: &str = "replay|check|record < LIST";

/// What the command prints, if it is one that runs a list.
pub fn print_of(command: &str) -> Option<Print> {
    match command {
        "replay" => Some(Print::Answers),
        "check" => Some(Print::Differences),
        "record" => Some(Print::List),
        _ => None,
    }
}

/// Runs the list on the standard input; how it went goes to the standard error.
pub fn run(machine: &mut impl Machine, print: Print) -> ExitCode {
    let mut out = BufWriter::new(io::stdout().lock());
    let mut notes = io::stderr().lock();
    let run = replay(io::stdin().lock(), machine, print, &mut out, &mut notes)
        .and_then(|outcome| out.flush().map(|()| outcome));
    match run {
        Ok(outcome) => {
            let _ = writeln!(notes, "{outcome}");
            ExitCode::from(outcome.status())
        }
        Err(why) => {
            let _ = writeln!(notes, "replay: {why}");
            ExitCode::from(2)
        }
    }
}
