//! What goes in and comes out of calls, by name.

use std::error::Error;
use std::fmt;

/// What the register makes of a ticket.
#[derive(Clone, Copy, Debug, PartialEq, Eq, Hash)]
pub enum Verdict {
    /// Not seen before and in time: a judge promises nothing yet, a take has counted it.
    New,
    /// Its fingerprint is held in its bucket.
    Duplicate,
    /// At or below the floor, outside its window, or its position is taken: never to be counted.
    Late,
    /// Stamped past the front of its window; told by the batch forms alone.
    Ahead,
    /// No share or no room: not counted and not remembered.
    Full,
    /// The register is pending, or the clock does not judge.
    Unjudged,
}

impl Verdict {
    /// By their numbers in the entry points.
    pub const ALL: [Self; 6] = [
        Self::New,
        Self::Duplicate,
        Self::Late,
        Self::Ahead,
        Self::Full,
        Self::Unjudged,
    ];

    /// By its number in the entry points.
    pub fn of(number: u64) -> Option<Self> {
        Self::ALL.get(usize::try_from(number).ok()?).copied()
    }

    /// Its number in the entry points.
    pub fn number(self) -> u64 {
        self as u64
    }
}

impl fmt::Display for Verdict {
    fn fmt(&self, f: &mut fmt::Formatter<'_>) -> fmt::Result {
        f.write_str(match self {
            Self::New => "New",
            Self::Duplicate => "Duplicate",
            Self::Late => "Late",
            Self::Ahead => "Ahead",
            Self::Full => "Full",
            Self::Unjudged => "Unjudged",
        })
    }
}

/// The rule that gives a take's verdict. Rules are tried in this order, and the first that is met decides; [`Accepted`](Self::Accepted)
/// where none is. As text it is a sentence; docs/HOST-GUIDE.md, "Why was it Late?", says what an operator can do about each.
///
/// ```
/// use strikes::{Class, Reason, Verdict};
///
/// let reason = Reason::Held(Class::Peers);
/// assert_eq!(reason.verdict(), Verdict::Duplicate);
/// assert_eq!(reason.to_string(), "class Peers holds its fingerprint in its bucket");
/// assert_eq!((Reason::of(3, 1), Reason::of(3, 3), Reason::of(16, 0)), (Some(reason), None, None));
/// ```
#[derive(Clone, Copy, Debug, PartialEq, Eq, Hash)]
pub enum Reason {
    /// 0: nothing is against the ticket, which is New.
    Accepted,
    /// 1: the register is pending. Unjudged, as the next.
    Pending,
    /// 2: the clock does not judge.
    Flag,
    /// 3: a class holds the fingerprint in the ticket's bucket, and no lower one does. Duplicate.
    Held(Class),
    /// 4: the stamp is at or below the floor. Late, as the next two.
    Floor,
    /// 5: the stamp is behind the deliverer's window.
    Behind,
    /// 6: the stamp is ahead of the deliverer's window. The batch forms say Ahead.
    Ahead,
    /// 7: the share book is closed. Full, as the next six.
    Closed,
    /// 8: the deliverer has its own share.
    OwnShare,
    /// 9: of Relay and Restored: the class would pass its limit.
    ClassLimit,
    /// 10: of Feeder and Peer: the class would pass its limit, and the deliverer its equal part of it.
    EqualPart,
    /// 11: of Feeder and Peer: the class would pass twice its limit.
    TwiceLimit,
    /// 12: the deliverer is new, and all places of its class are used.
    Places,
    /// 13: the ticket's second is new to the deliverer, and all its pairs are used.
    Pairs,
    /// 14: another bucket has the position of the ticket's bucket. Late.
    Position,
    /// 15: the generation would need more than S slots. Full.
    Slots,
}

impl Reason {
    /// By the numbers of rule and class in the entry points. The class is read of [`Held`](Self::Held) alone.
    pub fn of(rule: u64, class: u64) -> Option<Self> {
        Some(match rule {
            0 => Self::Accepted,
            1 => Self::Pending,
            2 => Self::Flag,
            3 => Self::Held(Class::of(class)?),
            4 => Self::Floor,
            5 => Self::Behind,
            6 => Self::Ahead,
            7 => Self::Closed,
            8 => Self::OwnShare,
            9 => Self::ClassLimit,
            10 => Self::EqualPart,
            11 => Self::TwiceLimit,
            12 => Self::Places,
            13 => Self::Pairs,
            14 => Self::Position,
            15 => Self::Slots,
            _ => return None,
        })
    }

    /// The verdict that it gives a take.
    pub fn verdict(self) -> Verdict {
        match self {
            Self::Accepted => Verdict::New,
            Self::Pending | Self::Flag => Verdict::Unjudged,
            Self::Held(_) => Verdict::Duplicate,
            Self::Floor | Self::Behind | Self::Ahead | Self::Position => Verdict::Late,
            Self::Closed
            | Self::OwnShare
            | Self::ClassLimit
            | Self::EqualPart
            | Self::TwiceLimit
            | Self::Places
            | Self::Pairs
            | Self::Slots => Verdict::Full,
        }
    }
}

impl fmt::Display for Reason {
    fn fmt(&self, f: &mut fmt::Formatter<'_>) -> fmt::Result {
        f.write_str(match self {
            Self::Accepted => "no rule is against it",
            Self::Pending => "the register waits for its begin",
            Self::Flag => "the clock does not judge",
            Self::Held(class) => {
                return write!(f, "class {class} holds its fingerprint in its bucket");
            }
            Self::Floor => "its stamp is not above the floor",
            Self::Behind => "its stamp is behind its window",
            Self::Ahead => "its stamp is ahead of its window",
            Self::Closed => "the share book is closed",
            Self::OwnShare => "its deliverer has its whole share of entries",
            Self::ClassLimit => "its class would be above its limit",
            Self::EqualPart => {
                "its class would be above its limit, and its deliverer above its equal part"
            }
            Self::TwiceLimit => "its class would be above twice its limit",
            Self::Places => "every place of its class is used",
            Self::Pairs => "every pair of its deliverer is used, and none has its second",
            Self::Position => "another bucket has its bucket's position",
            Self::Slots => "its generation has no slot left",
        })
    }
}

/// Why a call was refused. It altered nothing.
#[derive(Clone, Copy, Debug, PartialEq, Eq, Hash)]
pub enum Refusal {
    /// 1: a setting or limit outside its bounds, or a code that is not listed.
    Unfit,
    /// 2: fewer words lent than the settings need.
    TooFewWords,
    /// 3: words that break a rule of soundness, or that keep other settings.
    Unsound,
    /// 4: no such register.
    NoRegister,
    /// 5: the output is too short for the dump.
    ShortOutput,
    /// 6: a dump of a register that is pending.
    Pending,
    /// 7: a dump that is cut short.
    CutShort,
    /// 8: the output is too short for the view.
    ShortView,
    /// A number that this wrapper does not know: it was built for another library.
    Unknown(u64),
}

impl Refusal {
    /// By its number in the entry points; none for 0, which is no refusal.
    pub fn of(number: u64) -> Option<Self> {
        match number {
            0 => None,
            1 => Some(Self::Unfit),
            2 => Some(Self::TooFewWords),
            3 => Some(Self::Unsound),
            4 => Some(Self::NoRegister),
            5 => Some(Self::ShortOutput),
            6 => Some(Self::Pending),
            7 => Some(Self::CutShort),
            8 => Some(Self::ShortView),
            other => Some(Self::Unknown(other)),
        }
    }

    /// Its number in the entry points.
    pub fn number(self) -> u64 {
        match self {
            Self::Unfit => 1,
            Self::TooFewWords => 2,
            Self::Unsound => 3,
            Self::NoRegister => 4,
            Self::ShortOutput => 5,
            Self::Pending => 6,
            Self::CutShort => 7,
            Self::ShortView => 8,
            Self::Unknown(number) => number,
        }
    }
}

impl fmt::Display for Refusal {
    fn fmt(&self, f: &mut fmt::Formatter<'_>) -> fmt::Result {
        match self {
            Self::Unfit => {
                f.write_str("1: a setting or limit is outside its bounds, or a code is not listed")
            }
            Self::TooFewWords => f.write_str("2: fewer words are lent than the settings need"),
            Self::Unsound => {
                f.write_str("3: the words break a rule of soundness, or keep other settings")
            }
            Self::NoRegister => f.write_str("4: there is no such register"),
            Self::ShortOutput => f.write_str("5: the output is too short for the dump"),
            Self::Pending => f.write_str("6: a register that is pending has no dump"),
            Self::CutShort => f.write_str("7: the dump is cut short"),
            Self::ShortView => f.write_str("8: the output is too short for the view"),
            Self::Unknown(number) => {
                write!(f, "{number}: a refusal that this wrapper does not know")
            }
        }
    }
}

impl Error for Refusal {}

/// The classes of deliverers. Each has its own places and generations.
#[derive(Clone, Copy, Debug, PartialEq, Eq, Hash)]
pub enum Class {
    Feeders,
    Peers,
    Own,
}

impl Class {
    pub const ALL: [Self; 3] = [Self::Feeders, Self::Peers, Self::Own];

    /// By its number in the entry points.
    pub fn of(number: u64) -> Option<Self> {
        Self::ALL.get(usize::try_from(number).ok()?).copied()
    }

    /// Its number in the entry points.
    pub fn number(self) -> u64 {
        match self {
            Self::Feeders => 0,
            Self::Peers => 1,
            Self::Own => 2,
        }
    }
}

impl fmt::Display for Class {
    fn fmt(&self, f: &mut fmt::Formatter<'_>) -> fmt::Result {
        f.write_str(match self {
            Self::Feeders => "Feeders",
            Self::Peers => "Peers",
            Self::Own => "Own",
        })
    }
}

/// Who delivered a ticket.
#[derive(Clone, Copy, Debug, PartialEq, Eq, Hash)]
pub enum Deliverer {
    /// The meter itself, judged by the window `origin`.
    Feeder(u64),
    /// A neighbour gateway, judged by the window `copy`, as the two below.
    Peer(u64),
    /// This gateway.
    Relay,
    /// Nobody in this run: what a restore brought back of a class.
    Restored(Class),
}

impl Deliverer {
    /// The class whose places and generations are its own.
    pub fn class(self) -> Class {
        match self {
            Self::Feeder(_) => Class::Feeders,
            Self::Peer(_) => Class::Peers,
            Self::Relay => Class::Own,
            Self::Restored(class) => class,
        }
    }

    /// Its kind and number in the entry points.
    pub fn codes(self) -> (u64, u64) {
        match self {
            Self::Feeder(id) => (0, id),
            Self::Peer(id) => (1, id),
            Self::Relay => (2, 0),
            Self::Restored(class) => (3, class.number()),
        }
    }
}

/// Where a register starts.
#[derive(Clone, Copy, Debug, PartialEq, Eq, Hash)]
pub enum Start {
    /// With no floor: a gateway that never ran before.
    Empty,
    /// Pending, until [`begin`](crate::Gateway::begin) brings a floor: a gateway that has lost what it knew.
    Fallback,
    /// With a floor: nothing stamped up to it is New.
    At(u64),
}

impl Start {
    /// Its code and floor in the entry points.
    pub fn codes(self) -> (u64, u64) {
        match self {
            Self::Empty => (0, 0),
            Self::Fallback => (1, 0),
            Self::At(floor) => (2, floor),
        }
    }
}

/// What `begin` found.
#[derive(Clone, Copy, Debug, PartialEq, Eq, Hash)]
pub enum Begun {
    /// The register was pending and judges from now on.
    Begun,
    /// It judged already; nothing was altered.
    Already,
}

/// What a restore or resume brought back.
#[derive(Clone, Copy, Debug, PartialEq, Eq, Hash)]
pub enum Restored {
    /// Everything; and the bytes that the dump takes.
    Whole(u64),
    /// All but generations that did not fit: the floor was raised to them, and to what went with them; and the bytes that the dump takes.
    Partly(u64),
}

/// A class's part of the share book.
#[derive(Clone, Copy, Debug, Default, PartialEq, Eq, Hash)]
pub struct Totals {
    /// Entries drawn and not yet freed.
    pub entries: u64,
    /// Deliverers with entries.
    pub holders: u64,
    /// Entries and the units of the holders' places.
    pub units: u64,
    /// The second up to which entries were freed.
    pub expired: u64,
}

/// How far a register is swept.
#[derive(Clone, Copy, Debug, Default, PartialEq, Eq, Hash)]
pub struct Swept {
    pub bucket: u64,
    /// The same in milliseconds of the clock.
    pub published: u64,
}

/// What a register remembers of one bucket of one class, told where it holds a ticket there.
#[derive(Clone, Copy, Debug, Default, PartialEq, Eq, Hash)]
pub struct Generation {
    pub bucket: u64,
    /// The oldest stamp that was inserted. What a restore brought back counts as inserted at the dump's newest.
    pub oldest: u64,
    /// The newest stamp that was inserted.
    pub newest: u64,
    /// The tickets that are held.
    pub held: u64,
}
