//! The part of a command line that generates: the same for every machine.

use std::io::{self, BufWriter, Write};
use std::process::ExitCode;

use calls::Machine;

use crate::profile::Profile;
use crate::tally::Tally;
use crate::{PROFILES, generate};

pub const USAGE: &str = "generate|soak SEED N PROFILE|all, profiles";

/// From so many calls on a profile must reach what it is meant to reach.
pub const ENOUGH: u64 = 20_000;

/// Whether the list itself is printed.
#[derive(Clone, Copy, PartialEq, Eq)]
pub enum List {
    Printed,
    Counted,
}

pub fn profiles() -> ExitCode {
    for profile in &PROFILES {
        println!("{}: {}", profile.name, profile.about);
    }
    ExitCode::SUCCESS
}

/// The named profile, or all of them.
pub fn named(name: &str) -> Vec<&'static Profile> {
    let wanted = |profile: &&Profile| name == "all" || profile.name == name;
    PROFILES.iter().filter(wanted).collect()
}

/// Runs `number` calls of each profile, each on a machine of its own. The status is 0 only if the
/// ledger agreed throughout and every profile reached what it is meant to, and nothing it never must.
pub fn run<M: Machine>(
    machine: impl Fn() -> M,
    profiles: &[&'static Profile],
    seed: u64,
    number: u64,
    list: List,
) -> ExitCode {
    let mut total = Tally::default();
    for profile in profiles {
        match one(&mut machine(), profile, seed, number, list) {
            Ok(tally) => {
                eprintln!("{}: {tally}", profile.name);
                total.join(&tally);
            }
            Err(why) => {
                eprintln!("{}: {why}", profile.name);
                return ExitCode::FAILURE;
            }
        }
    }
    if profiles.len() > 1 {
        eprintln!("all: {total}");
    }
    ExitCode::SUCCESS
}

fn one(
    machine: &mut impl Machine,
    profile: &'static Profile,
    seed: u64,
    number: u64,
    list: List,
) -> Result<Tally, String> {
    let mut out = BufWriter::new(io::stdout().lock());
    let mut written = Ok(());
    let tally = generate(machine, profile, seed, number, |call, answer| {
        if list == List::Printed && written.is_ok() {
            written = writeln!(out, "{call} => {answer}");
        }
    })?;
    written
        .and_then(|()| out.flush())
        .map_err(|why| why.to_string())?;
    let lacks = tally.lacks(profile.meant);
    if number >= ENOUGH && !lacks.is_empty() {
        return Err(format!("hardly any {}: {tally}", lacks.join(", ")));
    }
    Ok(tally)
}
