//! Runs a list on a machine and compares each answer with the one that the list records.

use std::io::{self, BufRead, Write};

use crate::answer::Answer;
use crate::machine::Machine;
use crate::read;

/// What a replay prints of each call.
#[derive(Clone, Copy, PartialEq, Eq)]
pub enum Print {
    /// Its answer.
    Answers,
    /// The line itself with the machine's answer, comments kept: a list to record.
    List,
    /// Nothing, unless the answers differ.
    Differences,
}

/// How a replay went.
#[derive(Default)]
pub struct Outcome {
    pub calls: u64,
    pub agreed: u64,
    pub differed: u64,
    /// Calls that the machine does not run, or whose answer is `-` in the list.
    pub apart: u64,
    /// Lines that are no line of a list.
    pub unread: u64,
}

impl Outcome {
    /// 0 only if every line was read and every answer agreed; 1 for a difference; 2 for a line
    /// that could not be read.
    pub fn status(&self) -> u8 {
        match (self.unread, self.differed) {
            (0, 0) => 0,
            (0, _) => 1,
            _ => 2,
        }
    }
}

impl std::fmt::Display for Outcome {
    fn fmt(&self, f: &mut std::fmt::Formatter<'_>) -> std::fmt::Result {
        let Self {
            calls,
            agreed,
            differed,
            apart,
            unread,
        } = self;
        write!(
            f,
            "{calls} calls: {agreed} agree, {differed} differ, {apart} not compared"
        )?;
        match unread {
            0 => Ok(()),
            _ => write!(f, "; {unread} lines not read"),
        }
    }
}

/// Runs every call of `list`. Answers go to `out`, differences and unreadable lines to `notes`.
pub fn replay(
    list: impl BufRead,
    machine: &mut impl Machine,
    print: Print,
    out: &mut impl Write,
    notes: &mut impl Write,
) -> io::Result<Outcome> {
    let mut outcome = Outcome::default();
    for (at, text) in list.lines().enumerate() {
        let text = text?;
        match read::line(&text) {
            Err(why) => {
                outcome.unread += 1;
                writeln!(notes, "line {}: {why}: {text}", at + 1)?;
            }
            Ok(None) => {
                if print == Print::List {
                    writeln!(out, "{text}")?;
                }
            }
            Ok(Some(line)) => {
                let answer = machine.run(&line.call);
                match print {
                    Print::Answers => writeln!(out, "{answer}")?,
                    Print::List => writeln!(out, "{} => {answer}", line.call)?,
                    Print::Differences => {}
                }
                if !outcome.compare(&answer, line.answer.as_deref()) {
                    let recorded = line.answer.unwrap_or_default();
                    writeln!(
                        notes,
                        "line {}: {} => {recorded}, but here {answer}",
                        at + 1,
                        line.call
                    )?;
                }
            }
        }
    }
    Ok(outcome)
}

impl Outcome {
    /// Counts an answer beside the recorded one; false where they differ.
    fn compare(&mut self, answer: &Answer, recorded: Option<&str>) -> bool {
        self.calls += 1;
        match (answer, recorded) {
            (Answer::Broke, _) => self.differed += 1,
            (Answer::Apart, _) | (_, None | Some("-")) => self.apart += 1,
            (_, Some(recorded)) if answer.to_string() == recorded => self.agreed += 1,
            _ => {
                self.differed += 1;
                return false;
            }
        }
        *answer != Answer::Broke
    }
}

#[cfg(test)]
mod tests {
    use super::{Outcome, Print, replay};
    use crate::{Answer, Call, Look, Machine};

    /// Answers every floor with 5, breaks at a class and runs nothing else.
    struct Five;

    impl Machine for Five {
        fn run(&mut self, call: &Call) -> Answer {
            match call {
                Call::Look(Look::Floor { .. }) => Answer::Perhaps(Some(5)),
                Call::Look(Look::Class { .. }) => Answer::Broke,
                _ => Answer::Apart,
            }
        }
    }

    fn run(list: &str) -> (Outcome, String, String) {
        let (mut out, mut notes) = (Vec::new(), Vec::new());
        let outcome = replay(
            list.as_bytes(),
            &mut Five,
            Print::Answers,
            &mut out,
            &mut notes,
        )
        .expect("a list in memory");
        let text = |bytes| String::from_utf8(bytes).expect("text");
        (outcome, text(out), text(notes))
    }

    #[test]
    fn agreement_alone_is_status_0() {
        let (outcome, out, notes) = run("floor 0 => 5\nclose => ok\nfloor 1\n");
        assert_eq!((outcome.status(), outcome.agreed, outcome.apart), (0, 1, 2));
        assert_eq!((out.as_str(), notes.as_str()), ("5\n-\n5\n", ""));
    }

    #[test]
    fn a_difference_is_told_and_is_status_1() {
        let (outcome, _, notes) = run("floor 0 => 5\nfloor 0 => none\n");
        assert_eq!((outcome.status(), outcome.differed), (1, 1));
        assert_eq!(notes, "line 2: floor 0 => none, but here 5\n");
    }

    #[test]
    fn a_breakdown_agrees_with_nothing() {
        assert_eq!(run("class 0 => -\n").0.status(), 1);
        assert_eq!(run("class 0\n").0.status(), 1);
    }

    #[test]
    fn a_line_that_cannot_be_read_is_status_2() {
        assert_eq!(run("floor 0 => 5\nfloor\n").0.status(), 2);
    }
}
