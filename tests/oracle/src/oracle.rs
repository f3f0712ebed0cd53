//! The Rust as a machine that runs calls.
//!
//! What the Rust does not have (lent words, settings with each call, words altered from outside)
//! it does not answer: those lines, and the calls that they touch, are not run and not compared.

use std::panic::{AssertUnwindSafe, catch_unwind};

use calls::{Answer, Call, Machine, Settings};
use generator::dump::OVERFLOWING;

use crate::book::Book;
use crate::refusals;

/// What was opened, and what has been done to it that the Rust cannot follow.
#[derive(Default)]
pub struct Oracle {
    opened: Option<Opened>,
    /// The words lent, once a line has said so.
    lent: Option<u64>,
    /// What the next call brings instead of the settings.
    brought: Option<Settings>,
}

struct Opened {
    settings: Settings,
    book: Book,
    /// A word was altered from outside, or the Rust broke off: nothing is known of it any more.
    lost: bool,
}

impl Machine for Oracle {
    fn run(&mut self, call: &Call) -> Answer {
        match call {
            Call::Lend { words } => self.lent = Some(*words),
            Call::Bring(settings) => self.brought = Some(settings.clone()),
            Call::Poke { .. } => self.lose(),
            Call::Open { settings, .. } => {
                self.brought = None;
                return self.open(call, settings);
            }
            _ => return self.serve(call),
        }
        Answer::Apart
    }
}

impl Oracle {
    fn lose(&mut self) {
        if let Some(opened) = &mut self.opened {
            opened.lost = true;
        }
    }

    /// Whether fewer words are lent than these settings need.
    fn lacks_words(&self, settings: &Settings) -> bool {
        self.lent.is_some_and(|lent| lent < settings.words())
    }

    fn open(&mut self, call: &Call, settings: &Settings) -> Answer {
        if refusals::unfit(call) {
            return Answer::Refused(refusals::UNFIT);
        }
        if self.lacks_words(settings) {
            return Answer::Apart;
        }
        let Call::Open { starts, .. } = call else {
            unreachable!("called with an opening");
        };
        let book = Book::open(settings, starts);
        self.opened = Some(Opened {
            settings: settings.clone(),
            book,
            lost: false,
        });
        Answer::Opened
    }

    /// Any call on what was opened.
    fn serve(&mut self, call: &Call) -> Answer {
        let brought = self.brought.take();
        let Some(opened) = &self.opened else {
            return Answer::Apart;
        };
        let strange = brought.is_some_and(|brought| {
            !brought.limits.fit() || !opened.settings.same_but_limits(&brought)
        });
        if strange || opened.lost || self.lacks_words(&opened.settings) {
            return Answer::Apart;
        }
        if let Some(number) = refusals::of(call, &opened.settings) {
            return Answer::Refused(number);
        }
        self.guarded(call)
    }

    /// The call on the Rust. Where the Rust breaks off nothing more is known of the book; the
    /// length overflow is expected, and any other breakdown is an answer that agrees with none.
    fn guarded(&mut self, call: &Call) -> Answer {
        let Some(opened) = &mut self.opened else {
            return Answer::Apart;
        };
        opened.book.set_stage();
        match catch_unwind(AssertUnwindSafe(|| serve(&mut opened.book, call))) {
            Ok(answer) => answer,
            Err(why) => {
                opened.lost = true;
                let overflow = why.downcast_ref::<&str>() == Some(&"attempt to add with overflow");
                match call {
                    Call::Restore { bytes, .. } | Call::Resume { bytes, .. }
                        if overflow && has_overflowing_length(bytes) =>
                    {
                        Answer::Apart
                    }
                    _ => Answer::Broke,
                }
            }
        }
    }
}

/// Whether a word of the dump is a length at which the Rust's reckoning overflows.
fn has_overflowing_length(bytes: &[u8]) -> bool {
    let (words, _) = bytes.as_chunks::<8>();
    words
        .iter()
        .any(|word| OVERFLOWING.contains(&u64::from_le_bytes(*word)))
}

/// A call that nothing refuses beforehand.
fn serve(book: &mut Book, call: &Call) -> Answer {
    match call {
        Call::Ask { form, ticket } => {
            let who = ticket.who.listed().expect("refused as unfit");
            Answer::Verdict(book.ask(*form, ticket, who))
        }
        Call::Look(look) => book.look(look),
        Call::Begin { register, number } => book.begin(*register, *number),
        Call::Expire { reading } => book.expire(*reading),
        Call::Sweep { register, reading } => book.sweep(*register, *reading),
        Call::Limits(limits) => book.set_limits(limits),
        Call::Close => book.close(),
        Call::Dump { register, length } => dump(book, *register, *length),
        Call::Restore { register, bytes } => book.restore(*register, bytes),
        Call::Resume {
            register,
            bytes,
            proven,
        } => book.resume(*register, bytes, *proven),
        Call::Open { .. } | Call::Lend { .. } | Call::Bring(_) | Call::Poke { .. } => {
            unreachable!("served elsewhere")
        }
    }
}

fn dump(book: &Book, register: u64, length: Option<u64>) -> Answer {
    match book.dump(register) {
        Err(number) => Answer::Refused(number),
        Ok(bytes) if length.is_some_and(|length| length < bytes.len() as u64) => {
            Answer::Refused(refusals::SHORT_OUTPUT)
        }
        Ok(bytes) => Answer::Bytes(bytes),
    }
}
