//! Hostile memory: random and damaged words, settings, codes, dumps and lengths into every entry point, the lent memory between guard
//! pages, and every answer held against a soundness test of its own (tests/soundness), and every view and every reason against the words
//! that it is of. What a call may only read lies in pages that cannot be written.
//!
//!     hostile SEED N        N inputs
//!     hostile one SEED I    input I alone
//!
//! An input that goes wrong is cut down and printed as a list of calls, with its seed; the status is then 1. An input that touches
//! memory which was not lent, or does not end, ends the program with its seed and number.

mod alter;
mod guard;
mod input;
mod judge;
mod lent;
mod report;
mod settings;

use std::collections::BTreeMap;
use std::process::ExitCode;
use std::time::Duration;

use alter::Altered;
use generator::random::Random;
use guard::Against;
use input::{Entry, Input};
use lent::Lent;
use scenes::{Held, Scene};
use soundness::{Broken, Due};

/// The inputs of one scene, and the most words that a scene may need.
const INPUTS: u64 = 400;
const WORDS: usize = 4_000;

/// An input that takes longer than this does not end.
const PATIENCE: Duration = Duration::from_secs(20);

fn main() -> ExitCode {
    let words: Vec<String> = std::env::args().skip(1).collect();
    let words: Vec<&str> = words.iter().map(String::as_str).collect();
    let numbers: Vec<Option<u64>> = words.iter().map(|word| word.parse().ok()).collect();
    match (words.first(), &numbers[..]) {
        (Some(&"one"), [_, Some(seed), Some(input)]) => run(*seed, *input, input + 1),
        (_, [Some(seed), Some(number)]) => run(*seed, 0, *number),
        _ => {
            eprintln!("hostile SEED N, one SEED INPUT");
            ExitCode::from(2)
        }
    }
}

/// What came up, so that a run shows what it reached.
#[derive(Default)]
struct Counts {
    refused: BTreeMap<u64, u64>,
    entries: BTreeMap<Entry, (u64, u64)>,
    /// By what was done to the words: those that are sound, and those that are not.
    altered: BTreeMap<Altered, (u64, u64)>,
    rules: BTreeMap<String, u64>,
    /// Words with slots that are too far on for probing to be followed: sound, and not reached.
    crowded: (u64, u64),
}

fn run(seed: u64, first: u64, last: u64) -> ExitCode {
    guard::watch(seed, PATIENCE);
    let mut lent = Lent::new(WORDS + 16);
    let mut counts = Counts::default();
    let mut scene = None;
    for at in first..last {
        guard::now_at(at);
        if scene.is_none() || at % INPUTS == 0 {
            scene = Some(scene_of(seed, at / INPUTS));
        }
        let Some(scene) = &scene else {
            continue;
        };
        let mut random = Random::new(seed.wrapping_mul(0x9e37_79b9).wrapping_add(at));
        random.word();
        let input = Input::new(scene, &mut random);
        let against = if at % 2 == 0 {
            Against::Back
        } else {
            Against::Front
        };
        match judge::judge(&mut lent, &input, against) {
            Ok(due) => {
                counts.count(&input, due);
                counts.count_crowded(scene, due);
            }
            Err(why) => {
                eprintln!("hostile: seed {seed}, input {at}: {:?}: {why}", input.entry);
                report::print(&report::cut(&mut lent, &input, against));
                return ExitCode::FAILURE;
            }
        }
    }
    counts.print(seed, last - first);
    ExitCode::SUCCESS
}

/// Scenes follow from the seed and their number, so that one input can be run alone.
fn scene_of(seed: u64, number: u64) -> Scene {
    let mut random = Random::new(seed ^ number.wrapping_mul(0xd134_2543_de82_ef95));
    loop {
        let scene = settings::scene(&mut random);
        if scene.words.len() <= WORDS {
            return scene;
        }
    }
}

impl Counts {
    fn count(&mut self, input: &Input, due: Due) {
        *self.refused.entry(due.number()).or_default() += 1;
        let entry = self.entries.entry(input.entry).or_default();
        let through = due == Due::No;
        entry.0 += u64::from(through);
        entry.1 += u64::from(!through);
        let altered = self.altered.entry(input.altered).or_default();
        match due {
            Due::Unsound(rule) => {
                altered.1 += 1;
                *self.rules.entry(format!("{rule:?}")).or_default() += 1;
            }
            Due::Number(1 | 2) => {}
            _ => altered.0 += u64::from(!matches!(input.entry, Entry::open | Entry::words_needed)),
        }
    }

    fn count_crowded(&mut self, scene: &Scene, due: Due) {
        if scene.held == Held::Crowded {
            self.crowded.0 += u64::from(due == Due::No);
            self.crowded.1 += u64::from(due == Due::Unsound(Broken::Reached));
        }
    }

    fn print(&self, seed: u64, inputs: u64) {
        let list = |parts: Vec<String>| parts.join(", ");
        let refused = self
            .refused
            .iter()
            .map(|(number, times)| format!("{number} {times}"))
            .collect();
        eprintln!("answers: {}", list(refused));
        let entries = self
            .entries
            .iter()
            .map(|(entry, (yes, no))| format!("{entry:?} {yes} and {no}"))
            .collect();
        eprintln!("went through and refused: {}", list(entries));
        let altered = self
            .altered
            .iter()
            .map(|(how, (yes, no))| format!("{how:?} {yes} and {no}"))
            .collect();
        eprintln!("sound and not, by what was altered: {}", list(altered));
        let rules = self
            .rules
            .iter()
            .map(|(rule, times)| format!("{rule} {times}"))
            .collect();
        eprintln!("the rule broken first: {}", list(rules));
        eprintln!(
            "crowded slots: {} went through and {} are not reached",
            self.crowded.0, self.crowded.1
        );
        println!(
            "hostile: seed {seed}: {inputs} inputs, every answer as due, no memory touched that was not lent"
        );
    }
}
