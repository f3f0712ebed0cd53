//! The smallest stamp for a wanted verdict, as `stamp_for` tells it, held against takes on copies of the same words.
//!
//!     stamps SEED QUESTIONS
//!
//! At small settings every stamp is tried that could differ from its neighbours: all from 0 to far past the window, the last 2,000 below
//! 2^64, and those around each held bucket. What is told must be the smallest that gives the verdict, and none where none does. At larger
//! settings, with a sixteenth as many questions, the stamp that is told must give the verdict; no edge at which a verdict could change, none
//! just before one and none of some at random may give it and be smaller. Taken one after the other, as `build/strikes provoke` prints them,
//! the stamps must give their verdicts too.
//!
//! A question that is answered otherwise is cut down and printed as a list of calls (docs/CALLS.md); the status is then 1. It is 1 too
//! where a verdict is told with a stamp, or with none, less often than once in 100 questions, or a kind of edge less often than once in
//! 1,000.

mod brute;
mod edges;
mod question;
mod report;
mod tally;
mod turns;

use std::process::ExitCode;

use calls::Verdict;
use generator::random::Random;
use question::Question;
use tally::Tally;

/// What is told for each verdict, by its number.
type Answers = [Option<u64>; 6];

/// An answer that is not as due.
struct Wrong {
    wanted: Verdict,
    /// One that gives the verdict and is smaller than what is told, or what is told and gives another.
    stamp: u64,
    why: String,
}

/// Holds what is told for each verdict against takes.
type Check = fn(&Question) -> Result<Answers, Wrong>;

fn main() -> ExitCode {
    let words: Vec<String> = std::env::args().skip(1).collect();
    let numbers: Vec<Option<u64>> = words.iter().map(|word| word.parse().ok()).collect();
    match numbers[..] {
        [Some(seed), Some(questions)] => run(seed, questions),
        _ => {
            eprintln!("stamps SEED QUESTIONS");
            ExitCode::from(2)
        }
    }
}

fn run(seed: u64, questions: u64) -> ExitCode {
    // One question of each verdict is asked about the same words.
    let turns = questions.div_ceil(6);
    let small = turn_by_turn(seed, turns, Question::small, brute::check);
    let large = |tally: Tally| {
        let large = turn_by_turn(seed, turns.div_ceil(16), Question::large, edges::check)?;
        Some((tally, large))
    };
    let Some((small, large)) = small.and_then(large) else {
        return ExitCode::FAILURE;
    };
    eprint!("small settings, {small}larger settings, {large}");
    if let Some(seldom) = small.seldom() {
        eprintln!("stamps: seldom: {seldom}");
        return ExitCode::FAILURE;
    }
    let (few, many) = (large.questions(), small.questions());
    println!(
        "stamps: seed {seed}: {many} questions at small settings and {few} at larger ones, every stamp as due"
    );
    ExitCode::SUCCESS
}

/// Asks so many times about other words; none where an answer is not as due.
fn turn_by_turn(
    seed: u64,
    turns: u64,
    make: fn(&mut Random) -> Question,
    check: Check,
) -> Option<Tally> {
    let mut tally = Tally::default();
    for turn in 0..turns {
        let mut random = Random::new(seed ^ turn.wrapping_mul(0xd134_2543_de82_ef95));
        let question = make(&mut random);
        let checked = check(&question)
            .and_then(|answers| turns::check(&question, &answers).map(|()| answers));
        match checked {
            Ok(answers) => tally.count(&question, &answers),
            Err(wrong) => {
                eprintln!("stamps: seed {seed}, turn {turn}: {}", wrong.why);
                report::print(&question, &wrong);
                return None;
            }
        }
    }
    Some(tally)
}
