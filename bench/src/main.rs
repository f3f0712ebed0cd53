//! Speed, in one run and on the same tickets: each call of the register against the Rust's, its soundness test against a plain read of
//! the words and against the same test in Rust, and a restore of the longest dump, where it is held
//! already and where it is not.
//!
//!     bench [RUNS [PICTURE]]
//!     bench stamps [RUNS]      the smallest stamp for a verdict, beside one take, and nothing else
//!
//! Prints tables (docs/SPEED.md). A figure is the median of RUNS runs, with the least and the most of them beside it; the runs of all
//! measures take turns, so that a slow moment of the machine meets them alike.

#[path = "../../tests/oracle/src/book.rs"]
mod book;
mod both;
mod growth;
mod measure;
#[path = "../../tests/oracle/src/refusals.rs"]
mod refusals;
mod settings;
mod stamps;
mod table;

use std::process::ExitCode;

use settings::{Fill, SIZES};

fn main() -> ExitCode {
    let mut words: Vec<String> = std::env::args().skip(1).collect();
    let stamps_alone = words.first().is_some_and(|word| word == "stamps");
    if stamps_alone {
        words.remove(0);
    }
    let runs = words.first().map_or(Some(7), |word| word.parse().ok());
    let picture = words.get(1).map_or("build/speed.svg", String::as_str);
    let Some(runs) = runs.filter(|runs| *runs > 0) else {
        eprintln!("bench [RUNS [PICTURE]], stamps [RUNS]");
        return ExitCode::from(2);
    };
    let table = if stamps_alone {
        stamps::table
    } else {
        table::of
    };
    for size in &SIZES {
        for fill in [Fill::Empty, Fill::Begun, Fill::Full] {
            eprintln!("{}, {}", size.name, fill.name());
            if stamps_alone {
                println!("\n### {}, {}", size.name, fill.name());
            }
            print!("{}", table(size, fill, runs));
        }
    }
    if stamps_alone {
        return ExitCode::SUCCESS;
    }
    let growth = growth::measure();
    print!("{}", growth::table(&growth));
    match std::fs::write(picture, growth::picture(&growth)) {
        Ok(()) => ExitCode::SUCCESS,
        Err(why) => {
            eprintln!("bench: {picture}: {why}");
            ExitCode::from(2)
        }
    }
}
