//! Every stamp at small settings.

use std::ops::RangeInclusive;

use calls::Verdict;

use crate::question::{Question, TOP, Takes};
use crate::{Answers, Wrong};

/// What is told must be the smallest stamp found.
pub fn check(question: &Question) -> Result<Answers, Wrong> {
    let due = smallest(question);
    for wanted in Verdict::ALL {
        let (due, told) = (due[wanted as usize], question.told(wanted));
        if told != due {
            let smaller = due.filter(|due| told.is_none_or(|told| *due < told));
            return Err(Wrong {
                wanted,
                stamp: smaller.or(told).unwrap_or_default(),
                why: format!("{wanted}: {due:?} is due, but {told:?} is told"),
            });
        }
    }
    Ok(due)
}

fn smallest(question: &Question) -> Answers {
    let mut takes = Takes::of(question);
    let mut least: Answers = [None; 6];
    for stamp in ranges(question).into_iter().flatten() {
        let least = &mut least[takes.verdict(stamp) as usize];
        *least = Some(least.map_or(stamp, |least| least.min(stamp)));
    }
    least
}

/// All from 0 to three rings past the window, where that is not at the top; the last 2,000; and those of each held bucket, of the one before
/// and of the one after. Between them no test of a take changes.
fn ranges(question: &Question) -> Vec<RangeInclusive<u64>> {
    let windows = question.windows();
    let reading = question.ask.reading;
    let low = if reading < TOP { reading } else { 0 };
    let mut ranges = vec![0..=low + windows.ahead() + 3 * windows.ring() * windows.bucket];
    if reading >= TOP {
        ranges.push(TOP..=u64::MAX);
    }
    for generation in question.generations().filter(|held| held[1] != 0) {
        let around = around(question, generation[3]);
        let inside = |range: &RangeInclusive<u64>| {
            range.contains(around.start()) && range.contains(around.end())
        };
        if !ranges.iter().any(inside) {
            ranges.push(around);
        }
    }
    ranges
}

/// A stamp lies in the bucket (stamp + retained) / width, rounded up.
fn around(question: &Question, bucket: u64) -> RangeInclusive<u64> {
    let windows = question.windows();
    let [bucket, width, retained] = [bucket, windows.bucket, windows.retained()].map(u128::from);
    let stamp = |of: u128| u64::try_from(of.saturating_sub(retained)).unwrap_or(u64::MAX);
    let first = bucket.saturating_sub(2) * width;
    stamp(first)..=stamp((bucket + 1) * width)
}
