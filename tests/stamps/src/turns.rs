//! The stamps that are told, taken one after the other on one copy of the words, in the order in which `build/strikes provoke` prints them.

use calls::Verdict;

use crate::question::{Question, Takes};
use crate::{Answers, Wrong};

const IN_TURN: [Verdict; 6] = [
    Verdict::Unjudged,
    Verdict::Duplicate,
    Verdict::Late,
    Verdict::Ahead,
    Verdict::New,
    Verdict::Full,
];

/// No take spoils the next.
pub fn check(question: &Question, told: &Answers) -> Result<(), Wrong> {
    let mut takes = Takes::of(question);
    for wanted in IN_TURN {
        let Some(stamp) = told[wanted as usize] else {
            continue;
        };
        let verdict = takes.next(stamp);
        if verdict != wanted {
            return Err(Wrong {
                wanted,
                stamp,
                why: format!("{wanted}: taken in turn, {stamp} gives {verdict}"),
            });
        }
    }
    Ok(())
}
