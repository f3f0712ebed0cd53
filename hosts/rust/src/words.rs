//! Words read into names, by the table of words in docs/ARCHITECTURE.md: for looking at them. No call needs this, and nothing here
//! tests soundness.

use crate::answers::{Class, Deliverer, Totals};
use crate::settings::{Limits, Settings, Window, Windows};

/// One place of the book.
#[derive(Clone, Debug, PartialEq, Eq)]
pub struct Place {
    pub who: Deliverer,
    pub entries: u64,
    /// Seconds and the entries that expire in them.
    pub pairs: Vec<(u64, u64)>,
}

/// A class's part of the book.
#[derive(Clone, Debug, PartialEq, Eq)]
pub struct Held {
    pub totals: Totals,
    /// Those that are used, in order of arrival.
    pub places: Vec<Place>,
}

#[derive(Clone, Debug, PartialEq, Eq)]
pub struct Book {
    pub places: u64,
    pub pairs: u64,
    pub feeder_units: u64,
    pub peer_units: u64,
    pub limits: Limits,
    pub closed: bool,
    /// Feeders, Peers, Own.
    pub classes: [Held; 3],
}

/// A generation that holds something.
#[derive(Clone, Debug, PartialEq, Eq)]
pub struct Generation {
    pub position: u64,
    pub bucket: u64,
    pub oldest: u64,
    pub newest: u64,
    pub slots: u64,
    /// By slot.
    pub fingerprints: Vec<u64>,
}

#[derive(Clone, Debug, PartialEq, Eq)]
pub struct Register {
    pub windows: Windows,
    pub swept: u64,
    pub published: u64,
    pub floor: Option<u64>,
    pub pending: bool,
    /// For Feeders, Peers and Own the generations that hold something, by position.
    pub rings: [Vec<Generation>; 3],
}

/// All that a run of words holds.
#[derive(Clone, Debug, PartialEq, Eq)]
pub struct View {
    pub book: Book,
    pub registers: Vec<Register>,
}

impl View {
    /// The settings that the words keep, with which calls on them come.
    pub fn settings(&self) -> Settings {
        let book = &self.book;
        let settings = Settings::new()
            .places(book.places)
            .pairs(book.pairs)
            .place_units(book.feeder_units, book.peer_units);
        let registers = self.registers.iter();
        registers.fold(settings, |settings, one| settings.register(one.windows))
    }
}

impl Book {
    /// The units that a deliverer's place costs.
    pub fn units(&self, who: Deliverer) -> u64 {
        match who {
            Deliverer::Feeder(_) => self.feeder_units,
            Deliverer::Peer(_) | Deliverer::Restored(_) => self.peer_units,
            Deliverer::Relay => 0,
        }
    }

    /// The entries that a deliverer may have; none where no share bounds it.
    pub fn share(&self, who: Deliverer) -> Option<u64> {
        match who {
            Deliverer::Feeder(_) => Some(self.limits.feeder),
            Deliverer::Peer(_) => Some(self.limits.peer),
            Deliverer::Relay => Some(self.limits.relay),
            Deliverer::Restored(_) => None,
        }
    }

    /// The limit of a class's units together.
    pub fn together(&self, class: Class) -> u64 {
        match class {
            Class::Feeders => self.limits.feeders,
            Class::Peers => self.limits.peers,
            Class::Own => self.limits.relay,
        }
    }
}

/// A run of words, read from its front.
struct Reader<'a>(&'a [u64]);

impl<'a> Reader<'a> {
    fn word(&mut self) -> Option<u64> {
        self.run(1).map(|run| run[0])
    }

    fn run(&mut self, width: u64) -> Option<&'a [u64]> {
        let (run, rest) = self.0.split_at_checked(usize::try_from(width).ok()?)?;
        self.0 = rest;
        Some(run)
    }

    fn pass(&mut self, width: u64) -> Option<()> {
        self.run(width).map(|_| ())
    }
}

/// What the words hold; none where they are too few for the settings that they keep, or keep such as no gateway has.
pub fn view(words: &[u64]) -> Option<View> {
    let mut reader = Reader(words);
    let registers = reader
        .word()
        .filter(|registers| (1..=4).contains(registers))?;
    let book = book(&mut reader)?;
    let registers = (0..registers)
        .map(|_| register(&mut reader))
        .collect::<Option<_>>()?;
    Some(View { book, registers })
}

fn book(reader: &mut Reader<'_>) -> Option<Book> {
    let (places, pairs) = (reader.word()?, reader.word()?);
    let (feeder_units, peer_units) = (reader.word()?, reader.word()?);
    let limits = Limits {
        feeder: reader.word()?,
        feeders: reader.word()?,
        peer: reader.word()?,
        peers: reader.word()?,
        relay: reader.word()?,
    };
    let closed = reader.word()? == 1;
    reader.pass(9)?;
    if !(1..=64).contains(&places) || !(2..=512).contains(&pairs) {
        return None;
    }
    let [feeders, peers, own] = Class::ALL.map(|class| held(reader, class, places, pairs));
    Some(Book {
        places,
        pairs,
        feeder_units,
        peer_units,
        limits,
        closed,
        classes: [feeders?, peers?, own?],
    })
}

fn held(reader: &mut Reader<'_>, class: Class, places: u64, pairs: u64) -> Option<Held> {
    let totals = Totals {
        entries: reader.word()?,
        holders: reader.word()?,
        units: reader.word()?,
        expired: reader.word()?,
    };
    let mut used = Vec::new();
    for _ in 0..places {
        used.extend(place(reader.run(2 * pairs + 4)?, class));
    }
    Some(Held {
        totals,
        places: used,
    })
}

/// A place that is used: it has pairs.
fn place(words: &[u64], class: Class) -> Option<Place> {
    let listed = usize::try_from(words[3])
        .ok()
        .filter(|listed| *listed > 0)?;
    let who = match words[0] {
        0 => Deliverer::Feeder(words[1]),
        1 => Deliverer::Peer(words[1]),
        2 => Deliverer::Relay,
        _ => Deliverer::Restored(class),
    };
    let pairs = words[4..]
        .chunks(2)
        .take(listed)
        .map(|pair| (pair[0], pair[1]))
        .collect();
    Some(Place {
        who,
        entries: words[2],
        pairs,
    })
}

fn register(reader: &mut Reader<'_>) -> Option<Register> {
    let origin = Window::of(reader.word()?, reader.word()?);
    let copy = Window::of(reader.word()?, reader.word()?);
    let windows = Windows {
        origin,
        copy,
        bucket: reader.word()?,
        slots: reader.word()?,
    };
    let (swept, published) = (reader.word()?, reader.word()?);
    let (present, floor) = (reader.word()? == 1, reader.word()?);
    let pending = reader.word()? == 1;
    reader.pass(13)?;
    let spans = [origin.behind, origin.ahead, copy.behind, copy.ahead];
    if spans.iter().any(|span| *span > 3_600_000) || windows.bucket == 0 || windows.slots > 1_024 {
        return None;
    }
    let [feeders, peers, own] = Class::ALL.map(|_| ring(reader, &windows));
    Some(Register {
        windows,
        swept,
        published,
        floor: present.then_some(floor),
        pending,
        rings: [feeders?, peers?, own?],
    })
}

fn ring(reader: &mut Reader<'_>, windows: &Windows) -> Option<Vec<Generation>> {
    let mut held = Vec::new();
    for position in 0..windows.ring() {
        held.extend(generation(position, reader.run(windows.slots + 5)?));
    }
    Some(held)
}

/// A generation that holds something.
fn generation(position: u64, words: &[u64]) -> Option<Generation> {
    let (head, slots) = words.split_at(5);
    (head[1] > 0).then(|| Generation {
        position,
        bucket: head[3],
        oldest: head[4],
        newest: head[2],
        slots: head[0],
        fingerprints: slots.iter().copied().filter(|slot| *slot != 0).collect(),
    })
}
