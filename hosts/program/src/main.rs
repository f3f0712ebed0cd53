//! The register as a program.
//!
//!     strikes demo              a clock step, a sweep and a neighbour's late copy, each verdict with its reason
//!     strikes replay < LIST     runs a list of calls (docs/CALLS.md), prints each answer, compares recorded ones
//!     strikes check < LIST      the same, but prints differences alone
//!     strikes record < LIST     prints the list with the register's answers
//!     strikes view < LIST       runs a list and prints what it leaves so that a person can read it
//!     strikes view FILE         prints words that a host has kept, as little-endian bytes
//!     strikes save FILE < LIST  runs a list and keeps the words that it leaves, as little-endian bytes
//!     strikes explain FILE REG FP STAMP READING FLAG WHO   prints why a take on kept words would answer as it would
//!     strikes explain < LIST    runs a list and prints the same of each ticket in it
//!     strikes provoke FILE REG FP READING FLAG WHO   prints the smallest stamp for each verdict on kept words, and the takes to paste
//!     strikes meter WHO < LIST  runs a list and prints the seconds, counts and entries that it leaves to a deliverer, as `f:1`
//!     strikes soak SEED [DAYS [PICTURE]]   half a year of a gateway's clock, or so many days, watched by a ledger
//!
//! The status is 0 only if every line could be read and every answer agreed.

mod demo;
mod explain;
mod list;
mod meter;
mod provoke;
mod saved;
mod soak;
mod view;
mod why;

use std::io::{self, Write};
use std::process::ExitCode;

use machine::Product;

fn main() -> ExitCode {
    let words: Vec<String> = std::env::args().skip(1).collect();
    let words: Vec<&str> = words.iter().map(String::as_str).collect();
    match words[..] {
        ["demo"] => demo::run(),
        ["view"] => view::of_list(),
        ["view", file] => view::of_file(file),
        ["save", file] => saved::of_list(file),
        ["explain"] => explain::of_list(),
        ["explain", file, ref ticket @ ..] => explain::of_file(file, ticket),
        ["provoke", file, register, fingerprint, reading, flag, who] => {
            provoke::of_file(file, [register, fingerprint, reading, flag, who])
        }
        ["meter", who] => meter(who),
        ["soak", seed] => soak(seed, SOAK_DAYS, SOAK_PICTURE),
        ["soak", seed, days] => soak(seed, days, SOAK_PICTURE),
        ["soak", seed, days, file] => soak(seed, days, file),
        [command] => match calls::program::print_of(command) {
            Some(print) => calls::program::run(&mut Product::default(), print),
            None => usage(),
        },
        _ => usage(),
    }
}

const SOAK_DAYS: &str = "184";
const SOAK_PICTURE: &str = "build/soak.svg";

/// Prints a text.
fn tell(text: &str) -> ExitCode {
    // A reader that has seen enough may close the pipe.
    let _ = io::stdout().write_all(text.as_bytes());
    ExitCode::SUCCESS
}

fn meter(who: &str) -> ExitCode {
    match calls::read::who(who) {
        Ok(who) => meter::of_list(who),
        Err(why) => {
            eprintln!("strikes: {why}");
            usage()
        }
    }
}

fn soak(seed: &str, days: &str, file: &str) -> ExitCode {
    match (seed.parse(), days.parse()) {
        (Ok(seed), Ok(days)) if days > 0 => soak::run(seed, days, file),
        _ => usage(),
    }
}

fn usage() -> ExitCode {
    eprintln!(
        "strikes demo, {}, view < LIST, view FILE, save FILE < LIST, explain FILE REG FP STAMP READING FLAG WHO, explain < LIST, provoke FILE REG FP READING FLAG WHO, meter WHO < LIST, soak SEED [DAYS [PICTURE]]",
        calls::program::USAGE
    );
    ExitCode::from(2)
}
