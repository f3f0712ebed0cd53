//! The stamps at which the verdict of a take could change, in 128 bits.

use std::collections::BTreeSet;

use calls::Verdict;
use generator::random::Random;

use crate::question::{Question, Takes};
use crate::{Answers, Wrong};

/// Where a verdict could change.
#[derive(Clone, Copy, Debug, PartialEq, Eq, PartialOrd, Ord)]
pub enum Edge {
    Zero,
    AboveFloor,
    WindowStart,
    PastFront,
    /// The first stamp of a bucket that a window can have.
    Window,
    /// The first stamp of a generation's bucket.
    Bucket,
    /// The first after it.
    Next,
}

impl Edge {
    pub const ALL: [Self; 7] = [
        Self::Zero,
        Self::AboveFloor,
        Self::WindowStart,
        Self::PastFront,
        Self::Window,
        Self::Bucket,
        Self::Next,
    ];
}

/// All edges that are stamps.
pub fn edges(question: &Question) -> Vec<(Edge, u64)> {
    let (windows, window) = (question.windows(), question.window());
    let reading = u128::from(question.ask.reading);
    let mut edges = vec![
        (Edge::Zero, 0),
        (
            Edge::WindowStart,
            reading.saturating_sub(window.behind.into()),
        ),
        (Edge::PastFront, reading + u128::from(window.ahead) + 1),
    ];
    let floor = Takes::of(question).floor();
    edges.extend(floor.map(|floor| (Edge::AboveFloor, u128::from(floor) + 1)));
    let through = question.ask.reading.div_ceil(windows.bucket);
    let buckets = (0..windows.ring()).map(|k| (Edge::Window, u128::from(through) + u128::from(k)));
    let own = question.generations().flat_map(|generation| {
        let bucket = u128::from(generation[3]);
        [(Edge::Bucket, bucket), (Edge::Next, bucket + 1)]
    });
    let first = |(edge, bucket): (Edge, u128)| Some((edge, first(question, bucket)?));
    edges.extend(buckets.chain(own).filter_map(first));
    let stamp = |(edge, stamp): (Edge, u128)| Some((edge, u64::try_from(stamp).ok()?));
    edges.into_iter().filter_map(stamp).collect()
}

/// The smallest stamp whose bucket, (stamp + retained) / width rounded up, is at least this one; none where no stamp's is.
fn first(question: &Question, bucket: u128) -> Option<u128> {
    let windows = question.windows();
    let [width, retained] = [windows.bucket, windows.retained()].map(u128::from);
    let Some(before) = bucket.checked_sub(1) else {
        return Some(0);
    };
    let sum = before * width + 1;
    (sum <= u64::MAX.into()).then(|| sum.saturating_sub(retained))
}

/// The stamps at random below each one that is told.
const AT_RANDOM: u64 = 10;

/// The stamp that is told gives its verdict, and no edge, none before an edge and none of some at random gives it that is smaller.
pub fn check(question: &Question) -> Result<Answers, Wrong> {
    let mut takes = Takes::of(question);
    let edges = edges(question).into_iter();
    let tried: BTreeSet<u64> = edges
        .flat_map(|(_, stamp)| [stamp, stamp.saturating_sub(1)])
        .collect();
    let said: Vec<(u64, Verdict)> = tried
        .into_iter()
        .map(|stamp| (stamp, takes.verdict(stamp)))
        .collect();
    let mut random = Random::new(question.ask.reading);
    let mut answers = [None; 6];
    for wanted in Verdict::ALL {
        let told = question.told(wanted);
        let wrong = |stamp: u64, verdict: Verdict| Wrong {
            wanted,
            stamp,
            why: format!("{wanted}: {told:?} is told, but {stamp} gives {verdict}"),
        };
        if let Some(stamp) = told {
            let verdict = takes.verdict(stamp);
            if verdict != wanted {
                return Err(wrong(stamp, verdict));
            }
        }
        let bound = told.unwrap_or(u64::MAX);
        let other = (0..AT_RANDOM).map(|_| random.below(bound));
        let other: Vec<_> = other.map(|stamp| (stamp, takes.verdict(stamp))).collect();
        let smaller = |(stamp, verdict): &&(u64, Verdict)| {
            *verdict == wanted && told.is_none_or(|told| *stamp < told)
        };
        if let Some((stamp, verdict)) = said.iter().chain(&other).find(smaller) {
            return Err(wrong(*stamp, *verdict));
        }
        answers[wanted as usize] = told;
    }
    Ok(answers)
}
