//! A list of calls on the standard input, run for what it leaves.

use std::io::{self, Write};
use std::process::ExitCode;

use calls::Machine;
use calls::replay::{Print, replay};
use machine::Product;

/// Runs the list; the status is 0 only if every line could be read and every answer agreed. None where it could not be read to its end.
pub fn run_list(machine: &mut impl Machine) -> Option<u8> {
    let (stdin, mut notes) = (io::stdin().lock(), io::stderr().lock());
    let (print, out) = (Print::Differences, &mut io::sink());
    match replay(stdin, machine, print, out, &mut notes) {
        Ok(outcome) => Some(outcome.status()),
        Err(why) => {
            let _ = writeln!(notes, "strikes: {why}");
            None
        }
    }
}

/// Runs the list, then prints what it left. The status is 0 only if every answer agreed and there was something to print.
pub fn left_by_list(print: impl FnOnce(&mut Product) -> ExitCode) -> ExitCode {
    let mut product = Product::default();
    match run_list(&mut product) {
        Some(0) => print(&mut product),
        Some(status) => {
            print(&mut product);
            ExitCode::from(status)
        }
        None => ExitCode::from(2),
    }
}
