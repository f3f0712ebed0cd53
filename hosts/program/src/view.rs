//! A book and its registers printed so that a person can read them.

use std::process::ExitCode;

use strikes::words::{Book, Generation, Held, Place, Register, View};
use strikes::{Class, Deliverer};

use crate::list::left_by_list;
use crate::{saved, tell};

/// The fingerprints of a generation, and the pairs of a place, that are printed; of more, their number.
const SHOWN: usize = 8;

/// Runs the list on the standard input and prints what it leaves.
pub fn of_list() -> ExitCode {
    left_by_list(|product| of_words(product.words()))
}

/// Words that a host has kept.
pub fn of_file(file: &str) -> ExitCode {
    saved::read(file).map_or_else(|status| status, |words| of_words(&words))
}

fn of_words(words: &[u64]) -> ExitCode {
    saved::view(words).map_or_else(|status| status, |view| tell(&text_of(&view)))
}

fn text_of(view: &View) -> String {
    let mut lines = book_lines(&view.book);
    for (number, register) in view.registers.iter().enumerate() {
        lines.extend(register_lines(number, register));
    }
    lines.push(String::new());
    lines.join("\n")
}

fn book_lines(book: &Book) -> Vec<String> {
    let state = if book.closed { "closed" } else { "open" };
    let mut lines = vec![
        format!(
            "book: {state}; {} places of {} pairs in each class",
            book.places, book.pairs
        ),
        format!(
            "  a Feeder's place costs {} units, a Peer's {}",
            book.feeder_units, book.peer_units
        ),
    ];
    for (class, held) in Class::ALL.iter().zip(&book.classes) {
        lines.push(class_line(*class, held, book));
        lines.extend(held.places.iter().map(|place| place_line(place, book)));
    }
    lines
}

fn class_line(class: Class, held: &Held, book: &Book) -> String {
    let totals = held.totals;
    let (places, together) = (book.places, book.together(class));
    format!(
        "  {}: {} of {places} places, {} entries, {} of {together} units, expired up to second {}",
        class, totals.holders, totals.entries, totals.units, totals.expired
    )
}

fn place_line(place: &Place, book: &Book) -> String {
    let (units, share) = (book.units(place.who), book.share(place.who));
    let share = share.map_or("no share of its own".into(), |share| format!("of {share}"));
    let pairs = shown(&place.pairs, |(second, count)| {
        format!("{count} in {second}")
    });
    format!(
        "    {}: {} entries {share}, {} units; seconds: {pairs}",
        name(place.who),
        place.entries,
        place.entries.saturating_add(units)
    )
}

fn register_lines(number: usize, register: &Register) -> Vec<String> {
    let windows = register.windows;
    let (origin, copy) = (windows.origin, windows.copy);
    let floor = register
        .floor
        .map_or("no floor".into(), |floor| format!("floor {floor}"));
    let state = if register.pending {
        "pending"
    } else {
        "judging"
    };
    let mut lines = vec![
        format!(
            "register {number}: origin {} behind and {} ahead, copy {} and {}; buckets of {} ms, ring of {}, {} slots",
            origin.behind,
            origin.ahead,
            copy.behind,
            copy.ahead,
            windows.bucket,
            windows.ring(),
            windows.slots
        ),
        format!(
            "  {state}; {floor}; swept to bucket {} ({} ms)",
            register.swept, register.published
        ),
    ];
    for (class, ring) in Class::ALL.iter().zip(&register.rings) {
        let held: usize = ring
            .iter()
            .map(|generation| generation.fingerprints.len())
            .sum();
        lines.push(format!(
            "  {}: {held} held in {} of {} generations",
            class,
            ring.len(),
            windows.ring()
        ));
        lines.extend(
            ring.iter()
                .map(|generation| generation_line(generation, windows.slots)),
        );
    }
    lines
}

fn generation_line(generation: &Generation, most: u64) -> String {
    let fingerprints = shown(&generation.fingerprints, |fingerprint| {
        format!("{fingerprint:x}")
    });
    format!(
        "    position {}: bucket {}, oldest {}, newest {}, held {} in {} slots of {most}: {fingerprints}",
        generation.position,
        generation.bucket,
        generation.oldest,
        generation.newest,
        generation.fingerprints.len(),
        generation.slots
    )
}

fn shown<T>(all: &[T], text: impl Fn(&T) -> String) -> String {
    let mut parts: Vec<String> = all.iter().take(SHOWN).map(text).collect();
    if all.len() > SHOWN {
        parts.push(format!("and {} more", all.len() - SHOWN));
    }
    parts.join(", ")
}

fn name(who: Deliverer) -> String {
    match who {
        Deliverer::Feeder(id) => format!("Feeder {id}"),
        Deliverer::Peer(id) => format!("Peer {id}"),
        Deliverer::Relay => "Relay".into(),
        Deliverer::Restored(_) => "Restored".into(),
    }
}
