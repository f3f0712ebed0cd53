//! What a call answers, and its text.

use std::fmt;

use crate::bytes::Hex;

#[derive(Clone, Copy, Debug, PartialEq, Eq, Hash, PartialOrd, Ord)]
pub enum Verdict {
    New,
    Duplicate,
    Late,
    Ahead,
    Full,
    Unjudged,
}

impl Verdict {
    /// By their numbers.
    pub const ALL: [Self; 6] = [
        Self::New,
        Self::Duplicate,
        Self::Late,
        Self::Ahead,
        Self::Full,
        Self::Unjudged,
    ];
}

/// The rule that gives a take's verdict: the first that is met, in this order; `Accepted` where none is.
#[derive(Clone, Copy, Debug, PartialEq, Eq, Hash, PartialOrd, Ord)]
pub enum Reason {
    Accepted,
    Pending,
    Flag,
    /// With the lowest class that holds it.
    Held(u64),
    Floor,
    Behind,
    Ahead,
    Closed,
    OwnShare,
    ClassLimit,
    EqualPart,
    TwiceLimit,
    Places,
    Pairs,
    Position,
    Slots,
}

impl Reason {
    /// Every rule, and each class that can hold a ticket.
    pub const ALL: [Self; 18] = [
        Self::Accepted,
        Self::Pending,
        Self::Flag,
        Self::Held(0),
        Self::Held(1),
        Self::Held(2),
        Self::Floor,
        Self::Behind,
        Self::Ahead,
        Self::Closed,
        Self::OwnShare,
        Self::ClassLimit,
        Self::EqualPart,
        Self::TwiceLimit,
        Self::Places,
        Self::Pairs,
        Self::Position,
        Self::Slots,
    ];
}

#[derive(Clone, Debug, PartialEq, Eq)]
pub enum Answer {
    Opened,
    Verdict(Verdict),
    Whether(bool),
    Begun,
    Already,
    Ok,
    Bytes(Vec<u8>),
    Whole(u64),
    Partly(u64),
    Perhaps(Option<u64>),
    Numbers(Vec<u64>),
    /// The words of a view.
    Viewed(Vec<u64>),
    /// A take's verdict, and the rule that gives it.
    Because(Verdict, Reason),
    /// The smallest stamp that gives a verdict, or none.
    Stamp(Option<u64>),
    Refused(u64),
    /// The tool does not run this call: its answer is not compared.
    Apart,
    /// The machine broke down: an answer that agrees with none.
    Broke,
}

impl fmt::Display for Verdict {
    fn fmt(&self, f: &mut fmt::Formatter<'_>) -> fmt::Result {
        f.write_str(match self {
            Self::New => "new",
            Self::Duplicate => "duplicate",
            Self::Late => "late",
            Self::Ahead => "ahead",
            Self::Full => "full",
            Self::Unjudged => "unjudged",
        })
    }
}

impl fmt::Display for Reason {
    fn fmt(&self, f: &mut fmt::Formatter<'_>) -> fmt::Result {
        f.write_str(match self {
            Self::Accepted => "accepted",
            Self::Pending => "pending",
            Self::Flag => "flag",
            Self::Held(class) => return write!(f, "held {class}"),
            Self::Floor => "floor",
            Self::Behind => "behind",
            Self::Ahead => "ahead",
            Self::Closed => "closed",
            Self::OwnShare => "own-share",
            Self::ClassLimit => "class-limit",
            Self::EqualPart => "equal-part",
            Self::TwiceLimit => "twice",
            Self::Places => "places",
            Self::Pairs => "pairs",
            Self::Position => "position",
            Self::Slots => "slots",
        })
    }
}

impl fmt::Display for Answer {
    fn fmt(&self, f: &mut fmt::Formatter<'_>) -> fmt::Result {
        match self {
            Self::Opened => f.write_str("opened"),
            Self::Verdict(verdict) => write!(f, "{verdict}"),
            Self::Whether(true) => f.write_str("yes"),
            Self::Whether(false) => f.write_str("no"),
            Self::Begun => f.write_str("begun"),
            Self::Already => f.write_str("already"),
            Self::Ok => f.write_str("ok"),
            Self::Bytes(bytes) => write!(f, "{}", Hex(bytes)),
            Self::Whole(read) => write!(f, "whole {read}"),
            Self::Partly(read) => write!(f, "partly {read}"),
            Self::Perhaps(None) => f.write_str("none"),
            Self::Perhaps(Some(number)) => write!(f, "{number}"),
            Self::Numbers(numbers) => {
                let numbers: Vec<String> = numbers.iter().map(u64::to_string).collect();
                f.write_str(&numbers.join(" "))
            }
            // Their number leads them, so that a view of no words is no empty line, and no view of one word looks like a refusal.
            Self::Viewed(words) => {
                write!(f, "{}", words.len())?;
                words.iter().try_for_each(|word| write!(f, " {word}"))
            }
            Self::Because(verdict, reason) => write!(f, "{verdict} {reason}"),
            // A bare stamp could be taken for a refusal.
            Self::Stamp(Some(stamp)) => write!(f, "at {stamp}"),
            Self::Stamp(None) => f.write_str("none"),
            Self::Refused(number) => write!(f, "{number}"),
            Self::Apart => f.write_str("-"),
            Self::Broke => f.write_str("broke"),
        }
    }
}

#[cfg(test)]
mod tests {
    use super::{Answer, Reason, Verdict};

    #[test]
    fn a_view_is_led_by_the_number_of_its_words() {
        let text = |words: &[u64]| Answer::Viewed(words.to_vec()).to_string();
        assert_eq!(text(&[119, 2, 120, 1, 3]), "5 119 2 120 1 3");
        assert_eq!(text(&[8]), "1 8");
        assert_eq!(text(&[]), "0");
        assert_eq!(Answer::Refused(8).to_string(), "8");
    }

    #[test]
    fn a_reason_follows_the_verdict_that_it_gives() {
        let text = |verdict, reason| Answer::Because(verdict, reason).to_string();
        assert_eq!(text(Verdict::Late, Reason::Floor), "late floor");
        assert_eq!(
            text(Verdict::Duplicate, Reason::Held(1)),
            "duplicate held 1"
        );
        assert_eq!(text(Verdict::Full, Reason::OwnShare), "full own-share");
    }

    #[test]
    fn a_stamp_is_no_refusal() {
        assert_eq!(Answer::Stamp(Some(1)).to_string(), "at 1");
        assert_eq!(Answer::Stamp(None).to_string(), "none");
    }
}
