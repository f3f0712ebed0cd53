//! Reads a line of a list: a call, the answer recorded with it, or neither.

use crate::answer::Verdict;
use crate::bytes::of_hex;
use crate::call::{Call, Form, Start, Ticket, Wanted, Who};
use crate::look::{Length, Look};
use crate::settings::{Limits, Settings, Window, Windows};

/// A call and the answer that the list records, its words parted by one blank each.
#[derive(Debug, PartialEq, Eq)]
pub struct Line {
    pub call: Call,
    pub answer: Option<String>,
}

/// The line's call; none for an empty line or a comment; or why it is no line of a list.
pub fn line(text: &str) -> Result<Option<Line>, String> {
    let text = text.split('#').next().unwrap_or("");
    let (call, answer) = match text.split_once("=>") {
        Some((call, answer)) => (call, Some(answer)),
        None => (text, None),
    };
    let mut words = Words(call.split_whitespace().collect::<Vec<_>>().into_iter());
    let Some(name) = words.0.next() else {
        return match answer {
            None => Ok(None),
            Some(_) => Err("an answer without a call".into()),
        };
    };
    let call = read(name, &mut words)?;
    if let Some(more) = words.0.next() {
        return Err(format!("'{more}' is too much"));
    }
    let answer = answer.map(|answer| answer.split_whitespace().collect::<Vec<_>>().join(" "));
    match answer.as_deref() {
        Some("") => Err("an empty answer".into()),
        _ => Ok(Some(Line { call, answer })),
    }
}

pub(crate) struct Words<'a>(std::vec::IntoIter<&'a str>);

impl<'a> Words<'a> {
    fn word(&mut self, what: &str) -> Result<&'a str, String> {
        self.0.next().ok_or_else(|| format!("{what} is missing"))
    }

    fn number(&mut self, what: &str) -> Result<u64, String> {
        number(self.word(what)?).ok_or_else(|| format!("{what} is no number"))
    }

    /// A length, where the line names one.
    fn length(&mut self) -> Result<Length, String> {
        match self.left() {
            0 => Ok(None),
            _ => self.number("the length").map(Some),
        }
    }

    fn left(&self) -> usize {
        self.0.len()
    }
}

/// A part of a reading call, from the next word of a line.
pub(crate) trait FromLine: Sized {
    fn read(words: &mut Words<'_>, name: &str) -> Result<Self, String>;
}

impl FromLine for u64 {
    fn read(words: &mut Words<'_>, name: &str) -> Result<Self, String> {
        words.number(&format!("the {name}"))
    }
}

impl FromLine for Who {
    fn read(words: &mut Words<'_>, _: &str) -> Result<Self, String> {
        who(words.word("the deliverer")?)
    }
}

impl FromLine for Wanted {
    fn read(words: &mut Words<'_>, _: &str) -> Result<Self, String> {
        wanted(words.word("the wanted verdict")?)
    }
}

impl FromLine for Length {
    fn read(words: &mut Words<'_>, _: &str) -> Result<Self, String> {
        words.length()
    }
}

/// Decimal digits alone: no sign, within 64 bits.
fn number(text: &str) -> Option<u64> {
    let plain = !text.is_empty() && text.bytes().all(|byte| byte.is_ascii_digit());
    plain.then(|| text.parse().ok()).flatten()
}

fn read(name: &str, words: &mut Words<'_>) -> Result<Call, String> {
    Ok(match name {
        "open" => open(words)?,
        "settings" => Call::Bring(settings(words, None)?),
        "judge" => ask(Form::Judge, words)?,
        "take" => ask(Form::Take, words)?,
        "judge_batch" => ask(Form::JudgeBatch, words)?,
        "take_batch" => ask(Form::TakeBatch, words)?,
        "begin" => Call::Begin {
            register: words.number("the register")?,
            number: words.number("the floor")?,
        },
        "expire" => Call::Expire {
            reading: words.number("the reading")?,
        },
        "sweep" => Call::Sweep {
            register: words.number("the register")?,
            reading: words.number("the reading")?,
        },
        "limits" => Call::Limits(limits(words)?),
        "close" => Call::Close,
        "dump" => Call::Dump {
            register: words.number("the register")?,
            length: words.length()?,
        },
        "restore" => Call::Restore {
            register: words.number("the register")?,
            bytes: bytes(words)?,
        },
        "resume" => Call::Resume {
            register: words.number("the register")?,
            bytes: bytes(words)?,
            proven: proven(words.word("the proven floor")?)?,
        },
        "lend" => Call::Lend {
            words: words.number("the number of words")?,
        },
        "poke" => Call::Poke {
            at: words.number("the place")?,
            value: words.number("the value")?,
        },
        _ => Call::Look(Look::read(name, words)?),
    })
}

fn ask(form: Form, words: &mut Words<'_>) -> Result<Call, String> {
    let ticket = Ticket {
        register: words.number("the register")?,
        fingerprint: words.number("the fingerprint")?,
        stamp: words.number("the stamp")?,
        reading: words.number("the reading")?,
        flag: words.number("the flag")?,
        who: Who::read(words, "deliverer")?,
    };
    Ok(Call::Ask { form, ticket })
}

fn open(words: &mut Words<'_>) -> Result<Call, String> {
    let mut starts = Vec::new();
    let settings = settings(words, Some(&mut starts))?;
    Ok(Call::Open { settings, starts })
}

/// Settings to the end of the line. As many registers as R says, where R is a fit number; where
/// it is not, as many as the line has.
fn settings(
    words: &mut Words<'_>,
    mut starts: Option<&mut Vec<Start>>,
) -> Result<Settings, String> {
    let mut read = Settings {
        registers: words.number("R")?,
        places: words.number("P")?,
        pairs: words.number("E")?,
        feeder_units: words.number("FU")?,
        peer_units: words.number("PU")?,
        limits: limits(words)?,
        windows: Vec::new(),
    };
    while words.left() > 0 {
        read.windows.push(windows(words)?);
        if let Some(starts) = &mut starts {
            starts.push(start(words.word("the start")?)?);
        }
    }
    let fit = Settings::REGISTERS.contains(&read.registers);
    if fit && read.windows.len() as u64 != read.registers {
        return Err(format!(
            "{} registers, not {}",
            read.windows.len(),
            read.registers
        ));
    }
    Ok(read)
}

fn windows(words: &mut Words<'_>) -> Result<Windows, String> {
    Ok(Windows {
        origin: window(words)?,
        copy: window(words)?,
        bucket: words.number("the bucket")?,
        slots: words.number("S")?,
    })
}

fn window(words: &mut Words<'_>) -> Result<Window, String> {
    Ok(Window {
        behind: words.number("the span behind")?,
        ahead: words.number("the span ahead")?,
    })
}

fn limits(words: &mut Words<'_>) -> Result<Limits, String> {
    let mut numbers = [0; 5];
    for number in &mut numbers {
        *number = words.number("a limit")?;
    }
    Ok(Limits::of(numbers))
}

/// The numbers after a letter, as the 3 and the 7 of `k:3:7`.
fn after(text: &str, letter: &str) -> Option<Vec<u64>> {
    let mut parts = text.split(':');
    (parts.next() == Some(letter))
        .then(|| parts.map(number).collect::<Option<_>>())
        .flatten()
}

fn start(text: &str) -> Result<Start, String> {
    match (
        text,
        after(text, "at").as_deref(),
        after(text, "s").as_deref(),
    ) {
        ("empty", _, _) => Ok(Start::Empty),
        ("fallback", _, _) => Ok(Start::Fallback),
        (_, Some([floor]), _) => Ok(Start::At(*floor)),
        (_, _, Some([code, number])) => Ok(Start::Code(*code, *number)),
        _ => Err(format!("'{text}' is no start")),
    }
}

/// The deliverer that a word names.
pub fn who(text: &str) -> Result<Who, String> {
    let one = |letter: &str| match after(text, letter).as_deref() {
        Some([id]) => Some(*id),
        _ => None,
    };
    match (one("f"), one("p"), one("x"), after(text, "k").as_deref()) {
        (Some(id), _, _, _) => Ok(Who::Feeder(id)),
        (_, Some(id), _, _) => Ok(Who::Peer(id)),
        (_, _, Some(class), _) => Ok(Who::Restored(class)),
        (_, _, _, Some([kind, id])) => Ok(Who::Kind(*kind, *id)),
        _ if text == "r" => Ok(Who::Relay),
        _ => Err(format!("'{text}' is no deliverer")),
    }
}

fn wanted(text: &str) -> Result<Wanted, String> {
    let named = |verdict: &Verdict| verdict.to_string() == text;
    match (
        Verdict::ALL.into_iter().find(named),
        after(text, "v").as_deref(),
    ) {
        (Some(verdict), _) => Ok(Wanted::Verdict(verdict)),
        (_, Some([code])) => Ok(Wanted::Code(*code)),
        _ => Err(format!("'{text}' is no verdict")),
    }
}

fn bytes(words: &mut Words<'_>) -> Result<Vec<u8>, String> {
    of_hex(words.word("the bytes")?).ok_or_else(|| "the bytes are no lower-case hex".into())
}

fn proven(text: &str) -> Result<Option<u64>, String> {
    match text {
        "none" => Ok(None),
        _ => number(text)
            .map(Some)
            .ok_or_else(|| format!("'{text}' is no floor")),
    }
}

#[cfg(test)]
mod tests {
    use super::{Line, line};

    fn read(text: &str) -> Line {
        line(text).expect("a line of a list").expect("a call")
    }

    #[test]
    fn every_call_prints_as_it_reads() {
        let all = [
            "open 1 4 16 1 1 100 99 98 97 96  1 2 3 4 5 8 empty",
            "open 2 4 16 1 1 100 99 98 97 96  1 2 3 4 5 8 fallback  1 2 3 4 5 8 at:7",
            "open 9 4 16 1 1 100 99 98 97 96",
            "open 1 4 16 1 1 100 99 98 97 96  1 2 3 4 5 8 s:3:4",
            "settings 1 4 16 1 1 100 99 98 97 96  1 2 3 4 5 8",
            "judge 0 1 2 3 1 f:4",
            "take 0 1 2 3 0 p:4",
            "judge_batch 0 1 2 3 1 r",
            "take_batch 0 1 2 3 1 x:2",
            "take 0 1 2 3 1 k:5:6",
            "explain 0 1 2 3 0 x:2",
            "stamp_for 0 1 2 1 f:4 new",
            "stamp_for 0 1 2 1 p:4 duplicate",
            "stamp_for 0 1 2 1 r late",
            "stamp_for 0 1 2 1 x:0 ahead",
            "stamp_for 0 1 2 1 f:4 full",
            "stamp_for 0 1 2 0 f:4 unjudged",
            "stamp_for 0 1 2 1 k:5:6 v:6",
            "contains_hash 0 18446744073709551615",
            "begin 0 1",
            "expire 1",
            "sweep 0 1",
            "limits 1 2 3 4 5",
            "close",
            "dump 0",
            "dump 0 9",
            "restore 0 00ff",
            "restore 0 -",
            "resume 0 0aa0 none",
            "resume 0 - 5",
            "floor 0",
            "pending 0",
            "swept 0",
            "held x:1",
            "class 2",
            "view_register 0",
            "view_register 0 4",
            "view_deliverer f:1",
            "view_deliverer k:2:9 1025",
            "lend 3",
            "poke 1 2",
        ];
        for text in all {
            assert_eq!(read(text).call.to_string(), text);
        }
    }

    #[test]
    fn answers_and_comments_are_told_apart() {
        assert_eq!(
            read("floor 0 => none # here").answer.as_deref(),
            Some("none")
        );
        assert_eq!(
            read("class 0 =>  1   2 3 4").answer.as_deref(),
            Some("1 2 3 4")
        );
        assert_eq!(read("floor 0").answer, None);
        assert_eq!(line("  # floor 0"), Ok(None));
        assert_eq!(line(""), Ok(None));
    }

    #[test]
    fn what_is_no_line_is_not_read() {
        let none = [
            "=> none",
            "floor",
            "floor 0 =>",
            "floor 0 1",
            "floor +1",
            "floor 18446744073709551616",
            "lift 0",
            "explain 0 1 2 3 f:1",
            "explain 0 1 2 3 1",
            "stamp_for 0 1 2 1 f:1",
            "stamp_for 0 1 2 1 f:1 newer",
            "stamp_for 0 1 2 1 f:1 0",
            "stamp_for 0 1 2 1 f:1 v:",
            "stamp_for 0 1 2 1 f:1 v:1:1",
            "view_register",
            "view_register f:1",
            "view_register 0 4 4",
            "view_deliverer 1",
            "view_deliverer f:1 -",
            "take 0 1 2 3 1 f:",
            "take 0 1 2 3 1 q:1",
            "take 0 1 2 3 1 f:1:2",
            "restore 0 0",
            "restore 0 0F",
            "resume 0 00",
            "open 2 4 16 1 1 100 99 98 97 96  1 2 3 4 5 8 empty",
            "open 1 4 16 1 1 100 99 98 97 96  1 2 3 4 5 8 later",
        ];
        for text in none {
            assert!(line(text).is_err(), "{text}");
        }
    }
}
