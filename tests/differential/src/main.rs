//! The register against the Rust, in one process: the same generated lists, every answer compared.
//!
//!     differential SEED N [PROFILE]   N calls of each profile, or of one
//!     differential cut < LIST         cuts a list on which the two differ down to the smallest one
//!
//! Before each take the register is asked which rule will give its verdict. Its words must be as they were after it, the take's verdict the
//! one that was told, and the rule that of the generator's ledger; a run over all profiles fails where a rule is told too seldom.
//! After every few calls both are asked for everything that they can tell: dumps, floors, sweeps, pending, the entries of every
//! deliverer that came up, the class totals, and the views of each register and deliverer. At the first difference the list is cut
//! down to the smallest one that shows it and printed as a list of calls (docs/CALLS.md) with the Rust's answers; the status is then 1.

#[path = "../../oracle/src/book.rs"]
mod book;
mod cut;
#[path = "../../oracle/src/oracle.rs"]
mod oracle;
mod pair;
#[path = "../../oracle/src/refusals.rs"]
mod refusals;
mod watched;

use std::process::ExitCode;

use generator::PROFILES;
use generator::profile::Profile;
use generator::program::ENOUGH;
use generator::tally::Tally;
use pair::Pair;

fn main() -> ExitCode {
    let words: Vec<String> = std::env::args().skip(1).collect();
    let words: Vec<&str> = words.iter().map(String::as_str).collect();
    // A breakdown of the Rust is an answer here, and needs no trace of its own.
    std::panic::set_hook(Box::new(|_| {}));
    match words[..] {
        ["cut"] => cut_list(),
        [seed, number] => compare(seed, number, "all"),
        [seed, number, profile] => compare(seed, number, profile),
        _ => usage(),
    }
}

fn compare(seed: &str, number: &str, profile: &str) -> ExitCode {
    let profiles = generator::program::named(profile);
    match (seed.parse(), number.parse()) {
        (Ok(seed), Ok(number)) if !profiles.is_empty() => {
            let (mut calls, mut looks, mut total) = (0, 0, Tally::default());
            let whole = profiles.len() == PROFILES.len() && number >= ENOUGH;
            for profile in profiles {
                let mut pair = Pair::default();
                match run(&mut pair, profile, seed, number) {
                    Ok(tally) => total.join(&tally),
                    Err(why) => {
                        eprintln!("{}, seed {seed}: {why}", profile.name);
                        return ExitCode::FAILURE;
                    }
                }
                calls += pair.calls;
                looks += pair.looks;
            }
            eprintln!("all: {total}");
            let rare = total.unexplained();
            if whole && !rare.is_empty() {
                eprintln!(
                    "seed {seed}: hardly any take explained by {}",
                    rare.join(", ")
                );
                return ExitCode::FAILURE;
            }
            println!(
                "differential: seed {seed}: {calls} calls, {} of them explained before, and {looks} looks at everything, no difference",
                total.explained()
            );
            ExitCode::SUCCESS
        }
        _ => usage(),
    }
}

/// Settings of millions of words are read whole at each call, so that profile gets one call in a hundred.
fn share_of(profile: &Profile, number: u64) -> u64 {
    if profile.words > 100_000 {
        number.div_ceil(100)
    } else {
        number
    }
}

fn run(
    pair: &mut Pair,
    profile: &'static Profile,
    seed: u64,
    number: u64,
) -> Result<Tally, String> {
    let tally = generator::generate(pair, profile, seed, share_of(profile, number), |_, _| {});
    if let Some(list) = pair.differing() {
        cut::print(&list);
        return Err("the register and the Rust differ".into());
    }
    let tally = tally?;
    eprintln!(
        "{}: {} looks at everything; {tally}",
        profile.name, pair.looks
    );
    Ok(tally)
}

/// A list on the standard input, its recorded answers left aside.
fn cut_list() -> ExitCode {
    let mut list = Vec::new();
    for text in std::io::stdin().lines() {
        match text
            .map_err(|why| why.to_string())
            .and_then(|text| calls::read::line(&text))
        {
            Ok(line) => list.extend(line.map(|line| line.call)),
            Err(why) => {
                eprintln!("differential: {why}");
                return ExitCode::from(2);
            }
        }
    }
    if !cut::differs(&list) {
        println!("no difference");
        return ExitCode::SUCCESS;
    }
    cut::print(&list);
    ExitCode::FAILURE
}

fn usage() -> ExitCode {
    eprintln!("differential SEED N [PROFILE], cut < LIST");
    ExitCode::from(2)
}
