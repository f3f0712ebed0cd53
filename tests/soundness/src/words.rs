//! The rules of soundness on words, each in the paper's words.

use calls::{Limits, Settings, Windows};

use crate::parts::HEAD;

/// The first rule that words break, in the order in which they are read.
#[derive(Clone, Copy, Debug, PartialEq, Eq, Hash, PartialOrd, Ord)]
pub enum Broken {
    KeptSettings,
    KeptLimits,
    Flag,
    UsedFirst,
    UnusedPlace,
    DelivererOfClass,
    DeliverersDistinct,
    PairsNumber,
    SecondsRising,
    Counts,
    Entries,
    Totals,
    MostEntries,
    Expired,
    Published,
    AbsentFloor,
    EmptyGeneration,
    Slots,
    Load,
    Position,
    Oldest,
    HeldNumber,
    SlotsPast,
    Reached,
}

type Rule = Result<(), Broken>;

fn must(holds: bool, rule: Broken) -> Rule {
    if holds { Ok(()) } else { Err(rule) }
}

/// Whether the words keep every rule. They must be as many as the settings need, or more.
pub fn sound(settings: &Settings, words: &[u64]) -> bool {
    broken(settings, words).is_none()
}

/// The first rule that is broken, if one is.
pub fn broken(settings: &Settings, words: &[u64]) -> Option<Broken> {
    all(settings, words).err()
}

fn all(settings: &Settings, words: &[u64]) -> Rule {
    let (front, rest) = words.split_at(20);
    front_rules(settings, front)?;
    let place = 2 * settings.pairs as usize + 4;
    let class = 4 + settings.places as usize * place;
    let (book, rest) = rest.split_at(3 * class);
    for (number, part) in book.chunks(class).enumerate() {
        class_rules(settings, number as u64, part, place)?;
    }
    let mut rest = rest;
    for windows in &settings.windows {
        let generation = windows.slots as usize + HEAD;
        let (register, after) = rest.split_at(24 + 3 * windows.ring() as usize * generation);
        register_rules(windows, register, generation)?;
        rest = after;
    }
    Ok(())
}

/// "Kept settings equal those handed in and kept limits are in bounds."
fn front_rules(settings: &Settings, front: &[u64]) -> Rule {
    let kept = [
        settings.registers,
        settings.places,
        settings.pairs,
        settings.feeder_units,
        settings.peer_units,
    ];
    must(front[..5] == kept, Broken::KeptSettings)?;
    must(
        front[5..10].iter().all(|limit| *limit <= Limits::MOST),
        Broken::KeptLimits,
    )?;
    must(front[10] <= 1, Broken::Flag)
}

/// The sums of a class: reckoned in 128 bits, which no sum of its words passes.
#[derive(Default)]
struct Sums {
    entries: u128,
    holders: u128,
    units: u128,
}

fn class_rules(settings: &Settings, class: u64, part: &[u64], width: usize) -> Rule {
    let (totals, places) = part.split_at(4);
    // A place is used if it has pairs.
    let used = places
        .chunks(width)
        .take_while(|place| place[3] != 0)
        .count();
    let (used, unused) = places.split_at(used * width);
    must(
        unused.chunks(width).all(|place| place[3] == 0),
        Broken::UsedFirst,
    )?;
    must(unused.iter().all(|word| *word == 0), Broken::UnusedPlace)?;
    let mut sums = Sums::default();
    for (at, place) in used.chunks(width).enumerate() {
        place_rules(settings, class, place)?;
        let before = &mut used[..at * width].chunks(width);
        must(
            before.all(|other| !same_deliverer(other, place)),
            Broken::DeliverersDistinct,
        )?;
        let units = if place[0] == 0 {
            settings.feeder_units
        } else if place[0] == 2 {
            0
        } else {
            settings.peer_units
        };
        sums.entries += u128::from(place[2]);
        sums.holders += 1;
        sums.units += u128::from(place[2]) + u128::from(units);
    }
    let told = [totals[0], totals[1], totals[2]].map(u128::from);
    must(
        told == [sums.entries, sums.holders, sums.units],
        Broken::Totals,
    )?;
    must(totals[0] <= 2_000_000, Broken::MostEntries)?;
    must(totals[3] <= u64::from(u32::MAX), Broken::Expired)
}

/// Of Relay and Restored the number says nothing.
fn same_deliverer(a: &[u64], b: &[u64]) -> bool {
    a[0] == b[0] && (a[0] > 1 || a[1] == b[1])
}

fn place_rules(settings: &Settings, class: u64, place: &[u64]) -> Rule {
    must(place[0] == class || place[0] == 3, Broken::DelivererOfClass)?;
    must(
        (1..=settings.pairs).contains(&place[3]),
        Broken::PairsNumber,
    )?;
    let pairs = &place[4..4 + 2 * place[3] as usize];
    let mut sum = 0u128;
    let mut last = None;
    for pair in pairs.chunks(2) {
        let (second, count) = (pair[0], pair[1]);
        must(
            last.is_none_or(|last| last < second) && second <= u64::from(u32::MAX),
            Broken::SecondsRising,
        )?;
        must(count >= 1, Broken::Counts)?;
        sum += u128::from(count);
        last = Some(second);
    }
    must(sum == u128::from(place[2]), Broken::Entries)
}

fn register_rules(windows: &Windows, register: &[u64], width: usize) -> Rule {
    let kept = [
        windows.origin.behind,
        windows.origin.ahead,
        windows.copy.behind,
        windows.copy.ahead,
        windows.bucket,
        windows.slots,
    ];
    must(register[..6] == kept, Broken::KeptSettings)?;
    must(
        register[7] == register[6].saturating_mul(windows.bucket),
        Broken::Published,
    )?;
    must(register[8] <= 1 && register[10] <= 1, Broken::Flag)?;
    must(register[8] == 1 || register[9] == 0, Broken::AbsentFloor)?;
    let ring = windows.ring();
    for rings in register[24..].chunks(ring as usize * width) {
        for (position, generation) in rings.chunks(width).enumerate() {
            generation_rules(ring, position as u64, windows.slots, generation)?;
        }
    }
    Ok(())
}

/// "A generation has 0 slots exactly when it holds 0, and then newest is 0"; its oldest stamp is "0 when empty", and otherwise "a sound
/// generation has oldest ≤ newest".
fn generation_rules(ring: u64, position: u64, most: u64, generation: &[u64]) -> Rule {
    let (head, table) = generation.split_at(HEAD);
    let [slots, held, newest, bucket, oldest] = [head[0], head[1], head[2], head[3], head[4]];
    if slots == 0 || held == 0 {
        must(
            [slots, held, newest, oldest] == [0; 4],
            Broken::EmptyGeneration,
        )?;
        return must(table.iter().all(|slot| *slot == 0), Broken::SlotsPast);
    }
    must(
        (2..=most).contains(&slots) && slots.is_power_of_two(),
        Broken::Slots,
    )?;
    must(4 * u128::from(held) <= 3 * u128::from(slots), Broken::Load)?;
    must(bucket % ring == position, Broken::Position)?;
    must(oldest <= newest, Broken::Oldest)?;
    let (table, past) = table.split_at(slots as usize);
    must(past.iter().all(|slot| *slot == 0), Broken::SlotsPast)?;
    let count = table.iter().filter(|slot| **slot != 0).count();
    must(count as u64 == held, Broken::HeldNumber)?;
    let all = (0..table.len()).all(|at| table[at] == 0 || reached(table, at));
    must(all, Broken::Reached)
}

/// Whether probing for the fingerprint at `at`, from its own slot up and round the end, comes to it before an empty slot and before
/// another of the same: so what is held is distinct too.
fn reached(table: &[u64], at: usize) -> bool {
    let last = table.len() - 1;
    let wanted = table[at];
    let mut slot = wanted as usize & last;
    while slot != at {
        if table[slot] == 0 || table[slot] == wanted {
            return false;
        }
        slot = (slot + 1) & last;
    }
    true
}
