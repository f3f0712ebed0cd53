//! The calls that only read. Each is a line of one table, and from it follow how the call is written, read and run.

use std::fmt;

use crate::call::{Wanted, Who};
use crate::read::{FromLine, Words};

/// Hands the table of reading calls to a macro, which makes something for each of them.
///
/// A line is `Call name(parts) -> answer;`. The call is written as its name and its parts, and the register runs it at the entry point
/// of the same name. A part without a type is a 64-bit number. A `Length` comes last: the entry point writes into an output of so many
/// words. The answer is `whether` (yes or no), `perhaps` (none or a number), `number`, `numbers`, `view` (what was written), `reason` (a
/// verdict and the rule that gives it) or `stamp` (a stamp or none).
#[macro_export]
macro_rules! looks {
    ($make:ident) => {
        $make! {
            Explain explain(register, fingerprint, stamp, reading, flag, who: Who) -> reason;
            StampFor stamp_for(register, fingerprint, reading, flag, who: Who, wanted: Wanted) -> stamp;
            ContainsHash contains_hash(register, fingerprint) -> whether;
            Floor floor(register) -> perhaps;
            Pending pending(register) -> whether;
            Swept swept(register) -> numbers;
            Held held(who: Who) -> number;
            Class class(class) -> numbers;
            ViewRegister view_register(register, length: Length) -> view;
            ViewDeliverer view_deliverer(who: Who, length: Length) -> view;
        }
    };
}

/// The words of an output; where none is named, as many as are always enough.
pub type Length = Option<u64>;

/// A part of a reading call.
#[derive(Clone, Copy, Debug, PartialEq, Eq)]
pub enum Part {
    Number(u64),
    Who(Who),
    Wanted(Wanted),
    Length(Length),
}

impl From<u64> for Part {
    fn from(number: u64) -> Self {
        Self::Number(number)
    }
}

impl From<Who> for Part {
    fn from(who: Who) -> Self {
        Self::Who(who)
    }
}

impl From<Wanted> for Part {
    fn from(wanted: Wanted) -> Self {
        Self::Wanted(wanted)
    }
}

impl From<Length> for Part {
    fn from(length: Length) -> Self {
        Self::Length(length)
    }
}

/// With the blank before it, so that a length that is not named leaves nothing.
impl fmt::Display for Part {
    fn fmt(&self, f: &mut fmt::Formatter<'_>) -> fmt::Result {
        match self {
            Self::Number(number) | Self::Length(Some(number)) => write!(f, " {number}"),
            Self::Who(who) => write!(f, " {who}"),
            Self::Wanted(wanted) => write!(f, " {wanted}"),
            Self::Length(None) => Ok(()),
        }
    }
}

/// The type of a part: a number where the table says nothing.
macro_rules! type_of {
    ($part:ident) => {
        u64
    };
    ($part:ident: $of:ident) => {
        $of
    };
}

macro_rules! define {
    ($($look:ident $name:ident($($part:ident $(: $of:ident)?),*) -> $answer:ident;)*) => {
        /// A call that only reads.
        #[derive(Clone, Copy, Debug, PartialEq, Eq)]
        pub enum Look {
            $($look { $($part: type_of!($part $(: $of)?)),* }),*
        }

        impl Look {
            /// The call of this name, with its parts from the words of a line.
            pub(crate) fn read(name: &str, words: &mut Words<'_>) -> Result<Self, String> {
                match name {
                    $(stringify!($name) => Ok(Self::$look { $($part: FromLine::read(words, stringify!($part))?),* }),)*
                    _ => Err(format!("there is no call '{name}'")),
                }
            }

            /// Its name in a line, and that of its entry point.
            fn name(self) -> &'static str {
                match self {
                    $(Self::$look { .. } => stringify!($name)),*
                }
            }

            /// Its parts by name.
            pub fn parts(self) -> Vec<(&'static str, Part)> {
                match self {
                    $(Self::$look { $($part),* } => vec![$((stringify!($part), $part.into())),*]),*
                }
            }
        }
    };
}

looks!(define);

impl fmt::Display for Look {
    fn fmt(&self, f: &mut fmt::Formatter<'_>) -> fmt::Result {
        f.write_str(self.name())?;
        let parts = self.parts();
        parts.iter().try_for_each(|(_, part)| write!(f, "{part}"))
    }
}
