//! An input laid out in guarded memory and handed to its entry point.

use strikes::abi;

use crate::guard::{Against, Laid, Region};
use crate::input::{Entry, Input, MOST_VIEWED, Numbers};

/// The out numbers of an entry point, at most.
const OUTS: usize = 4;

/// The regions that are lent from.
pub struct Lent {
    settings: Region,
    words: Region,
    limits: Region,
    starts: Region,
    bytes: Region,
    out: Region,
    view: Region,
    numbers: Region,
}

/// What a call answered and left.
pub struct After {
    pub number: u64,
    pub words: Vec<u64>,
    pub out: Vec<u8>,
    pub view: Vec<u64>,
    pub numbers: [u64; OUTS],
    /// Whether all that is only read, and all memory around what was lent, is as it was.
    pub untouched: bool,
}

/// What the out numbers are before a call.
pub const BEFORE: [u64; OUTS] = [0xdead_0001, 0xdead_0002, 0xdead_0003, 0xdead_0004];

impl Lent {
    pub fn new(words: usize) -> Self {
        Self {
            settings: Region::new(1),
            words: Region::new(8 * words),
            limits: Region::new(1),
            starts: Region::new(1),
            bytes: Region::new(16_384),
            out: Region::new(8_192),
            view: Region::new(8 * MOST_VIEWED),
            numbers: Region::new(1),
        }
    }

    pub fn run(&mut self, input: &Input, against: Against) -> After {
        let at = self.lay(input, against);
        let number = unsafe { call(input.entry, &at) };
        let read_only = at.settings.seen() == input.settings
            && at.limits.seen() == input.limits
            && at.starts.seen() == input.starts
            && at.bytes.seen() == input.bytes;
        let mut told = [0; OUTS];
        told.copy_from_slice(&at.outs.seen());
        let after = After {
            number,
            words: at.words.seen(),
            out: at.out.seen(),
            view: at.view.seen(),
            numbers: told,
            untouched: read_only,
        };
        let around = [
            self.settings.clean(8 * input.settings.len(), against),
            self.words.clean(8 * input.words.len(), against),
            self.limits.clean(8 * input.limits.len(), against),
            self.starts.clean(8 * input.starts.len(), against),
            self.bytes.clean(input.bytes.len(), against),
            self.out.clean(input.out.len(), against),
            self.view.clean(8 * input.view.len(), against),
            self.numbers.clean(8 * OUTS, against),
        ];
        After {
            untouched: after.untouched && around.iter().all(|clean| *clean),
            ..after
        }
    }

    fn lay(&mut self, input: &Input, against: Against) -> At {
        At {
            settings: self.settings.lay(&input.settings, against),
            words: self.words.lay(&input.words, against),
            limits: self.limits.lay(&input.limits, against),
            starts: self.starts.lay(&input.starts, against),
            bytes: self.bytes.lay(&input.bytes, against),
            out: self.out.lay(&input.out, against),
            view: self.view.lay(&input.view, against),
            numbers: input.numbers,
            outs: self.numbers.lay(&BEFORE, against),
        }
    }
}

/// The arguments of all entry points by their names: runs, of which an output of words is the view, and numbers; and where the out
/// numbers lie.
struct At {
    settings: Laid<u64>,
    words: Laid<u64>,
    limits: Laid<u64>,
    starts: Laid<u64>,
    bytes: Laid<u8>,
    out: Laid<u8>,
    view: Laid<u64>,
    numbers: Numbers,
    outs: Laid<u64>,
}

/// What may be altered is lent where it can be written, and all else where it cannot.
macro_rules! argument {
    ($at:ident, out: mut u64) => {
        $at.view.writable
    };
    ($at:ident, $run:ident: mut $of:ident) => {
        $at.$run.writable
    };
    ($at:ident, $run:ident: $of:ident) => {
        $at.$run.read_only
    };
    ($at:ident, $number:ident) => {
        $at.numbers.$number
    };
}

macro_rules! calls {
    ($($(#[$doc:meta])* $name:ident($($arg:ident $(: &$($mutable:ident)? [$of:ident])?),*) -> ($($out:ident),*);)*) => {
        /// The entry point itself, with the arguments and the out numbers that it has in the table.
        ///
        /// Safety: all memory was laid down.
        unsafe fn call(entry: Entry, at: &At) -> u64 {
            let mut places = 0..OUTS;
            let mut place_of = |out: &str| match places.next() {
                Some(place) => unsafe { at.outs.writable.cast::<u64>().add(place) },
                None => panic!("there is no place for {out}"),
            };
            match entry {
                $(Entry::$name => unsafe { abi::$name($(argument!(at, $arg $(: $($mutable)? $of)?),)* $(place_of(stringify!($out))),*) }),*
            }
        }
    };
}

strikes::entries!(calls);
