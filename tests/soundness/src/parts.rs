//! Where the parts lie in words that are as many as the settings need.

use calls::Settings;

/// The words of a generation before its slots: slots, held, newest, bucket, oldest.
pub const HEAD: usize = 5;

/// The words before the first class, those before its places, and those before a register's generations.
const FRONT: usize = 20;
const TOTALS: usize = 4;
const HEADING: usize = 24;

fn place_width(settings: &Settings) -> usize {
    2 * settings.pairs as usize + 4
}

fn class_width(settings: &Settings) -> usize {
    TOTALS + settings.places as usize * place_width(settings)
}

/// The places of a class that are used.
pub fn places<'a>(
    settings: &Settings,
    words: &'a [u64],
    class: u64,
) -> impl Iterator<Item = &'a [u64]> {
    let at = FRONT + class as usize * class_width(settings) + TOTALS;
    words[at..]
        .chunks(place_width(settings))
        .take(settings.places as usize)
        .filter(|place| place[3] != 0)
}

/// The class of a deliverer.
pub fn class_of((kind, number): (u64, u64)) -> u64 {
    if kind == 3 { number } else { kind }
}

/// A deliverer's place. Of Relay and Restored the number in a place says nothing.
pub fn place_of<'a>(
    settings: &Settings,
    words: &'a [u64],
    deliverer: (u64, u64),
) -> Option<&'a [u64]> {
    let (kind, number) = deliverer;
    places(settings, words, class_of(deliverer))
        .find(|place| place[0] == kind && (kind > 1 || place[1] == number))
}

/// The entries, holders, units and `expired` of a class.
pub fn totals<'a>(settings: &Settings, words: &'a [u64], class: u64) -> &'a [u64] {
    &words[FRONT + class as usize * class_width(settings)..][..TOTALS]
}

/// A register's heading, and those of its generations that hold something, by class and position, each with its class.
pub fn register<'a>(
    settings: &Settings,
    words: &'a [u64],
    number: u64,
) -> (&'a [u64], impl Iterator<Item = (u64, &'a [u64])>) {
    let (before, rest) = settings.windows.split_at(number as usize);
    let mut at = FRONT + 3 * class_width(settings);
    for windows in before {
        at += HEADING + 3 * windows.ring() as usize * (windows.slots as usize + HEAD);
    }
    let (heading, rings) = words[at..].split_at(HEADING);
    let ring = rest[0].ring();
    let generations = rings
        .chunks(rest[0].slots as usize + HEAD)
        .zip(0..3 * ring)
        .map(move |(generation, at)| (at / ring, generation))
        .filter(|(_, generation)| generation[1] != 0);
    (heading, generations)
}
