//! A call as a value, and as a line of text.

use std::fmt;

use crate::answer::Verdict;
use crate::bytes::Hex;
use crate::look::Look;
use crate::settings::{Limits, Settings};

/// Where a register starts.
#[derive(Clone, Copy, Debug, PartialEq, Eq)]
pub enum Start {
    Empty,
    Fallback,
    At(u64),
    /// Any start code with any number, so that a list can hold a code that nobody listed.
    Code(u64, u64),
}

/// Who delivered a ticket.
#[derive(Clone, Copy, Debug, PartialEq, Eq, Hash, PartialOrd, Ord)]
pub enum Who {
    Feeder(u64),
    Peer(u64),
    Relay,
    /// What a restore brought back of a class; the class as the call names it.
    Restored(u64),
    /// Any kind code with any number.
    Kind(u64, u64),
}

impl Who {
    /// The deliverer that a kind code names, if the codes are listed ones: Feeder 0, Peer 1,
    /// Relay 2 (whose number says nothing), Restored 3 with a class.
    pub fn listed(self) -> Option<Self> {
        match self {
            Self::Kind(0, id) => Some(Self::Feeder(id)),
            Self::Kind(1, id) => Some(Self::Peer(id)),
            Self::Kind(2, _) => Some(Self::Relay),
            Self::Kind(3, class) => Self::Restored(class).listed(),
            Self::Restored(class) if class > 2 => None,
            Self::Kind(..) => None,
            plain => Some(plain),
        }
    }

    /// The class of a listed deliverer.
    pub fn class(self) -> usize {
        match self {
            Self::Feeder(_) => 0,
            Self::Peer(_) => 1,
            Self::Relay => 2,
            Self::Restored(class) => class as usize,
            Self::Kind(..) => unreachable!("asked of a listed deliverer only"),
        }
    }
}

/// The verdict that a stamp is looked for.
#[derive(Clone, Copy, Debug, PartialEq, Eq)]
pub enum Wanted {
    Verdict(Verdict),
    /// Any code.
    Code(u64),
}

impl Wanted {
    /// Its number in the entry points.
    pub fn number(self) -> u64 {
        match self {
            Self::Verdict(verdict) => verdict as u64,
            Self::Code(code) => code,
        }
    }

    /// The verdict that it names, if its code is a listed one.
    pub fn listed(self) -> Option<Verdict> {
        let number = usize::try_from(self.number()).ok()?;
        Verdict::ALL.get(number).copied()
    }
}

/// The four ways to bring a ticket.
#[derive(Clone, Copy, Debug, PartialEq, Eq)]
pub enum Form {
    Judge,
    Take,
    JudgeBatch,
    TakeBatch,
}

impl Form {
    pub fn takes(self) -> bool {
        matches!(self, Self::Take | Self::TakeBatch)
    }
}

/// A ticket brought to a register.
#[derive(Clone, Copy, Debug, PartialEq, Eq)]
pub struct Ticket {
    pub register: u64,
    pub fingerprint: u64,
    pub stamp: u64,
    pub reading: u64,
    pub flag: u64,
    pub who: Who,
}

impl Ticket {
    /// The call that explains a take of it.
    pub fn explain(&self) -> Call {
        let Self {
            register,
            fingerprint,
            stamp,
            reading,
            flag,
            who,
        } = *self;
        Call::Look(Look::Explain {
            register,
            fingerprint,
            stamp,
            reading,
            flag,
            who,
        })
    }
}

#[derive(Clone, Debug, PartialEq, Eq)]
pub enum Call {
    Open {
        settings: Settings,
        starts: Vec<Start>,
    },
    Ask {
        form: Form,
        ticket: Ticket,
    },
    Look(Look),
    Begin {
        register: u64,
        number: u64,
    },
    Expire {
        reading: u64,
    },
    Sweep {
        register: u64,
        reading: u64,
    },
    Limits(Limits),
    Close,
    Dump {
        register: u64,
        length: Option<u64>,
    },
    Restore {
        register: u64,
        bytes: Vec<u8>,
    },
    Resume {
        register: u64,
        bytes: Vec<u8>,
        proven: Option<u64>,
    },
    /// From now on so many words are lent.
    Lend {
        words: u64,
    },
    /// The next call alone brings these settings.
    Bring(Settings),
    /// A word altered from outside.
    Poke {
        at: u64,
        value: u64,
    },
}

impl Call {
    /// The ticket that it brings, or whose take it explains.
    pub fn ticket(&self) -> Option<Ticket> {
        match *self {
            Self::Ask { ticket, .. } => Some(ticket),
            Self::Look(Look::Explain {
                register,
                fingerprint,
                stamp,
                reading,
                flag,
                who,
            }) => Some(Ticket {
                register,
                fingerprint,
                stamp,
                reading,
                flag,
                who,
            }),
            _ => None,
        }
    }
}

impl fmt::Display for Start {
    fn fmt(&self, f: &mut fmt::Formatter<'_>) -> fmt::Result {
        match self {
            Self::Empty => write!(f, "empty"),
            Self::Fallback => write!(f, "fallback"),
            Self::At(floor) => write!(f, "at:{floor}"),
            Self::Code(code, number) => write!(f, "s:{code}:{number}"),
        }
    }
}

impl fmt::Display for Who {
    fn fmt(&self, f: &mut fmt::Formatter<'_>) -> fmt::Result {
        match self {
            Self::Feeder(id) => write!(f, "f:{id}"),
            Self::Peer(id) => write!(f, "p:{id}"),
            Self::Relay => write!(f, "r"),
            Self::Restored(class) => write!(f, "x:{class}"),
            Self::Kind(kind, id) => write!(f, "k:{kind}:{id}"),
        }
    }
}

impl fmt::Display for Wanted {
    fn fmt(&self, f: &mut fmt::Formatter<'_>) -> fmt::Result {
        match self {
            Self::Verdict(verdict) => write!(f, "{verdict}"),
            Self::Code(code) => write!(f, "v:{code}"),
        }
    }
}

impl fmt::Display for Form {
    fn fmt(&self, f: &mut fmt::Formatter<'_>) -> fmt::Result {
        f.write_str(match self {
            Self::Judge => "judge",
            Self::Take => "take",
            Self::JudgeBatch => "judge_batch",
            Self::TakeBatch => "take_batch",
        })
    }
}

impl fmt::Display for Ticket {
    fn fmt(&self, f: &mut fmt::Formatter<'_>) -> fmt::Result {
        let Self {
            register,
            fingerprint,
            stamp,
            reading,
            flag,
            who,
        } = self;
        write!(f, "{register} {fingerprint} {stamp} {reading} {flag} {who}")
    }
}

impl fmt::Display for Limits {
    fn fmt(&self, f: &mut fmt::Formatter<'_>) -> fmt::Result {
        let Self {
            feeder,
            feeders,
            peer,
            peers,
            relay,
        } = self;
        write!(f, "{feeder} {feeders} {peer} {peers} {relay}")
    }
}

/// The settings, each register's followed by its start where there is one.
fn write_settings(
    f: &mut fmt::Formatter<'_>,
    settings: &Settings,
    starts: &[Start],
) -> fmt::Result {
    let Settings {
        registers,
        places,
        pairs,
        feeder_units,
        peer_units,
        limits,
        windows,
    } = settings;
    write!(
        f,
        "{registers} {places} {pairs} {feeder_units} {peer_units} {limits}"
    )?;
    for (at, one) in windows.iter().enumerate() {
        let (origin, copy) = (one.origin, one.copy);
        write!(
            f,
            "  {} {} {} {}",
            origin.behind, origin.ahead, copy.behind, copy.ahead
        )?;
        write!(f, " {} {}", one.bucket, one.slots)?;
        if let Some(start) = starts.get(at) {
            write!(f, " {start}")?;
        }
    }
    Ok(())
}

impl fmt::Display for Call {
    fn fmt(&self, f: &mut fmt::Formatter<'_>) -> fmt::Result {
        match self {
            Self::Open { settings, starts } => {
                f.write_str("open ")?;
                write_settings(f, settings, starts)
            }
            Self::Bring(settings) => {
                f.write_str("settings ")?;
                write_settings(f, settings, &[])
            }
            Self::Ask { form, ticket } => write!(f, "{form} {ticket}"),
            Self::Look(look) => write!(f, "{look}"),
            Self::Begin { register, number } => write!(f, "begin {register} {number}"),
            Self::Expire { reading } => write!(f, "expire {reading}"),
            Self::Sweep { register, reading } => write!(f, "sweep {register} {reading}"),
            Self::Limits(limits) => write!(f, "limits {limits}"),
            Self::Close => f.write_str("close"),
            Self::Dump {
                register,
                length: None,
            } => write!(f, "dump {register}"),
            Self::Dump {
                register,
                length: Some(length),
            } => write!(f, "dump {register} {length}"),
            Self::Restore { register, bytes } => write!(f, "restore {register} {}", Hex(bytes)),
            Self::Resume {
                register,
                bytes,
                proven,
            } => {
                write!(f, "resume {register} {} ", Hex(bytes))?;
                match proven {
                    None => f.write_str("none"),
                    Some(floor) => write!(f, "{floor}"),
                }
            }
            Self::Lend { words } => write!(f, "lend {words}"),
            Self::Poke { at, value } => write!(f, "poke {at} {value}"),
        }
    }
}
