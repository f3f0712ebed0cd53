//! The Rust's replay program.
//!
//!     oracle replay < LIST            runs a list, prints each answer, compares recorded ones
//!     oracle check < LIST             the same, but prints differences alone
//!     oracle record < LIST            prints the list with the Rust's answers
//!     oracle generate SEED N PROFILE  prints N random calls with the Rust's answers
//!     oracle soak SEED N PROFILE      runs them without printing the list; PROFILE may be `all`
//!     oracle profiles                 names the profiles
//!
//! What was counted goes to the standard error. The status is 0 only if every answer agreed.

mod book;
mod oracle;
mod refusals;

use std::process::ExitCode;

use generator::program::List;
use oracle::Oracle;

fn main() -> ExitCode {
    let words: Vec<String> = std::env::args().skip(1).collect();
    let words: Vec<&str> = words.iter().map(String::as_str).collect();
    // A breakdown of the Rust is an answer here, and needs no trace of its own.
    std::panic::set_hook(Box::new(|_| {}));
    match words[..] {
        ["profiles"] => generator::program::profiles(),
        ["generate", seed, number, profile] => generate(seed, number, profile, List::Printed),
        ["soak", seed, number, profile] => generate(seed, number, profile, List::Counted),
        [command] => match calls::program::print_of(command) {
            Some(print) => calls::program::run(&mut Oracle::default(), print),
            None => usage(),
        },
        _ => usage(),
    }
}

fn generate(seed: &str, number: &str, profile: &str, list: List) -> ExitCode {
    let profiles = generator::program::named(profile);
    match (seed.parse(), number.parse()) {
        (Ok(seed), Ok(number)) if !profiles.is_empty() => {
            generator::program::run(Oracle::default, &profiles, seed, number, list)
        }
        _ => usage(),
    }
}

fn usage() -> ExitCode {
    let (list, random) = (calls::program::USAGE, generator::program::USAGE);
    eprintln!("oracle {list}, {random}");
    ExitCode::from(2)
}
