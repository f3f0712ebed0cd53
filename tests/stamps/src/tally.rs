//! What came up, so that a run shows what it reached.

use std::collections::BTreeMap;
use std::fmt;

use calls::Verdict;

use crate::Answers;
use crate::edges::{Edge, edges};
use crate::question::Question;

#[derive(Default)]
pub struct Tally {
    turns: u64,
    /// By verdict: told with a stamp, and with none. Where the register does not judge, Unjudged alone is counted.
    verdicts: BTreeMap<Verdict, (u64, u64)>,
    /// The stamps told that lie at an edge of one kind alone.
    edges: BTreeMap<Edge, u64>,
    /// Those that lie at no edge.
    elsewhere: u64,
}

impl Tally {
    pub fn count(&mut self, question: &Question, answers: &Answers) {
        self.turns += 1;
        let edges = edges(question);
        for wanted in Verdict::ALL {
            if !question.judges() && wanted != Verdict::Unjudged {
                continue;
            }
            let told = answers[wanted as usize];
            let verdict = self.verdicts.entry(wanted).or_default();
            verdict.0 += u64::from(told.is_some());
            verdict.1 += u64::from(told.is_none());
            if let Some(stamp) = told {
                self.count_edge(&edges, stamp);
            }
        }
    }

    fn count_edge(&mut self, edges: &[(Edge, u64)], stamp: u64) {
        let mut kinds: Vec<Edge> = edges
            .iter()
            .filter(|(_, at)| *at == stamp)
            .map(|(edge, _)| *edge)
            .collect();
        kinds.sort();
        kinds.dedup();
        match kinds[..] {
            [] => self.elsewhere += 1,
            [edge] => *self.edges.entry(edge).or_default() += 1,
            _ => {}
        }
    }

    pub fn questions(&self) -> u64 {
        6 * self.turns
    }

    /// What came up too seldom, if something did.
    pub fn seldom(&self) -> Option<String> {
        let questions = self.questions();
        for wanted in Verdict::ALL {
            let (with, without) = self.verdicts.get(&wanted).copied().unwrap_or_default();
            if with.min(without) * 100 < questions {
                return Some(format!(
                    "{wanted}, {with} with a stamp and {without} with none"
                ));
            }
        }
        let times = |edge: &Edge| self.edges.get(edge).copied().unwrap_or_default();
        let seldom = |edge: &Edge| times(edge) * 1_000 < questions;
        let edge = Edge::ALL.into_iter().find(seldom)?;
        Some(format!("{edge:?}, {} times", times(&edge)))
    }
}

impl fmt::Display for Tally {
    fn fmt(&self, f: &mut fmt::Formatter<'_>) -> fmt::Result {
        let verdicts: Vec<String> = self
            .verdicts
            .iter()
            .map(|(verdict, (with, without))| format!("{verdict} {with} and {without}"))
            .collect();
        writeln!(
            f,
            "{} questions, with a stamp and with none: {}",
            self.questions(),
            verdicts.join(", ")
        )?;
        let edges: Vec<String> = self
            .edges
            .iter()
            .map(|(edge, times)| format!("{edge:?} {times}"))
            .collect();
        writeln!(
            f,
            "  at an edge of one kind alone: {}; at none {}",
            edges.join(", "),
            self.elsewhere
        )
    }
}
