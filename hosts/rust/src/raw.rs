//! Each entry point over slices, with every code and number as it is handed in and out: for hosts that keep settings and words
//! themselves, and for tests that bring codes which are not listed. They are made from the table of [`entries`](crate::entries).
//!
//! These functions are safe for every argument: the register is proved to stay within the lent slices and to end, whatever they
//! hold, and a refused call alters nothing.

use crate::abi;
use crate::answers::Refusal;

/// The words of the settings of one call.
pub const SETTINGS: usize = 29;
/// The words of the limits.
pub const LIMITS: usize = 5;
/// The words of the starts: a code and a floor for each of four registers.
pub const STARTS: usize = 8;
/// The words of a deliverer's view at most: 512 pairs and the entries.
pub const DELIVERER_VIEW: usize = 1_025;
/// The words of a register's view at most: three classes of 256 generations.
pub const REGISTER_VIEW: usize = 3_072;

/// The type of an argument or an out number: a number where the table says nothing.
macro_rules! type_of {
    ($name:ident) => {
        u64
    };
    ($name:ident: $run:ty) => {
        $run
    };
}

/// For each entry point a function over slices that returns its out numbers, or why it was refused.
macro_rules! safe {
    ($($(#[$doc:meta])* $name:ident($($arg:ident $(: $run:ty)?),*) -> ($($out:ident),*);)*) => {$(
        $(#[$doc])*
        ///
        #[doc = concat!("Returns `(", stringify!($($out),*), ")`.")]
        #[allow(clippy::too_many_arguments, unused_parens)]
        #[inline]
        pub fn $name($($arg: type_of!($arg $(: $run)?)),*) -> Result<($(type_of!($out)),*), Refusal> {
            $(let mut $out = 0;)*
            // Safety: references are valid, and those that are `&mut` overlap nothing.
            let refused = unsafe { abi::$name($($arg,)* $(&mut $out),*) };
            match Refusal::of(refused) {
                None => Ok(($($out),*)),
                Some(refusal) => Err(refusal),
            }
        }
    )*};
}

crate::entries!(safe);

/// A ticket as the entry points take it.
#[derive(Clone, Copy, Debug, PartialEq, Eq)]
pub struct Ask {
    pub register: u64,
    pub fingerprint: u64,
    pub stamp: u64,
    pub reading: u64,
    /// 1 where the clock judges, 0 where it does not.
    pub flag: u64,
    /// 0 Feeder, 1 Peer, 2 Relay, 3 Restored.
    pub kind: u64,
    /// An id, or of Restored the class.
    pub number: u64,
}

/// An entry point that takes a ticket: [`judge`], [`judge_batch`], [`take`] or [`take_batch`].
pub type Manner = fn(&[u64], &mut [u64], u64, u64, u64, u64, u64, u64, u64) -> Result<u64, Refusal>;

/// Brings a ticket to one of these entry points, its numbers by name; the number of the verdict.
pub fn ask(manner: Manner, settings: &[u64], words: &mut [u64], ask: &Ask) -> Result<u64, Refusal> {
    manner(
        settings,
        words,
        ask.register,
        ask.fingerprint,
        ask.stamp,
        ask.reading,
        ask.flag,
        ask.kind,
        ask.number,
    )
}
