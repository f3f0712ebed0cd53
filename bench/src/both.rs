//! The register and the Rust with the same content.

use calls::call::Ticket;
use calls::{Settings, Start, Who};
use generator::dump::{Dump, Listed};
use generator::random::Random;
use machine::settings_words;
use strikes::raw;

use crate::book::Book;
use crate::settings::Fill;

/// The reading of every clock here.
pub const READING: u64 = 1_000_000;

/// The register: its settings and words.
pub struct Ours {
    pub settings: [u64; raw::SETTINGS],
    pub words: Vec<u64>,
}

pub fn rust(settings: &Settings, dump: Option<&[u8]>) -> Book {
    let mut book = Book::open(settings, &vec![Start::Empty; settings.windows.len()]);
    book.set_stage();
    for register in 0..settings.registers {
        if let Some(dump) = dump {
            book.restore(register, dump);
        }
    }
    book
}

pub fn ours(settings: &Settings, dump: Option<&[u8]>) -> Ours {
    let words = settings_words(settings);
    let mut ours = Ours {
        settings: words,
        words: vec![0; settings.words() as usize],
    };
    raw::open(
        &words,
        &settings.limits.all(),
        &[0; raw::STARTS],
        &mut ours.words,
    )
    .expect("fit settings");
    for register in 0..settings.registers {
        if let Some(dump) = dump {
            raw::restore(&words, &mut ours.words, register, dump).expect("a whole dump");
        }
    }
    ours
}

/// The steps in which the soundness test follows the probing for a fingerprint.
pub const NEAR: u64 = 128;

/// What a register holds, as a dump: where it is full the buckets that its windows reach at the reading, all but one, so that a ticket
/// ahead of all of them finds a position; none for an empty register.
pub fn dump(settings: &Settings, fill: Fill, seed: u64) -> Option<Vec<u8>> {
    let windows = settings.windows[0];
    let (buckets, held) = match fill {
        Fill::Empty => return None,
        Fill::Begun => (1, 1),
        Fill::Full | Fill::Alike | Fill::Distant => (windows.ring(), 3 * windows.slots / 4),
    };
    let mut random = Random::new(seed);
    let mut fingerprint = |k: u64| {
        let word = random.word();
        let from = |slot: u64| word / windows.slots * windows.slots + slot;
        match fill {
            Fill::Alike => from(0),
            Fill::Distant if k + 1 == held => from(k.saturating_sub(NEAR)),
            Fill::Distant => from(k.saturating_sub(NEAR - 1)),
            _ => word,
        }
    };
    let first = READING.div_ceil(windows.bucket);
    let mut dump = Dump::default();
    for class in &mut dump.classes {
        *class = (0..buckets)
            .map(|bucket| Listed {
                bucket: first + bucket,
                newest: READING,
                fingerprints: (0..held).map(&mut fingerprint).collect(),
            })
            .collect();
    }
    Some(dump.bytes())
}

/// A ticket by its number: fingerprints that nobody holds, spread over the buckets of the window.
pub fn ticket(settings: &Settings, number: u64) -> Ticket {
    let windows = settings.windows[0];
    let span = windows.copy.behind.min(windows.origin.behind);
    Ticket {
        register: 0,
        fingerprint: number.wrapping_mul(0x9e37_79b9_7f4a_7c15) | 1,
        stamp: READING - number * 997 % span,
        reading: READING,
        flag: 1,
        who: Who::Feeder(1),
    }
}

/// The register's own form of a ticket.
pub fn ask(ticket: &Ticket) -> raw::Ask {
    raw::Ask {
        register: ticket.register,
        fingerprint: ticket.fingerprint,
        stamp: ticket.stamp,
        reading: ticket.reading,
        flag: ticket.flag,
        kind: 0,
        number: 1,
    }
}
