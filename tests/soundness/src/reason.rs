//! Which rule gives a take's verdict on sound words, in the sequence of the request: "pending, flag, held in which class (the lowest), floor,
//! window behind, window ahead, closed, own share, class limit, equal part, twice the limit, places, pairs, position taken, slots, or
//! accepted", after judge's sweep.

use calls::{Settings, Window, Windows};

use crate::parts;

/// What a take is asked.
#[derive(Clone, Copy, Debug)]
pub struct Ask {
    pub register: u64,
    pub fingerprint: u64,
    pub stamp: u64,
    pub reading: u64,
    pub flag: u64,
    /// A kind and a number.
    pub deliverer: (u64, u64),
}

/// The number of a rule, the class that holds the ticket where that is the rule, else 0, and the number of the verdict.
#[derive(Clone, Copy, Debug, PartialEq, Eq)]
pub struct Told {
    pub rule: u64,
    pub class: u64,
    pub verdict: u64,
}

const NEW: u64 = 0;
const DUPLICATE: u64 = 1;
const LATE: u64 = 2;
const AHEAD: u64 = 3;
const FULL: u64 = 4;
const UNJUDGED: u64 = 5;

/// The rule that gives a take's verdict. The words are sound, the codes listed and the register there.
pub fn reason(settings: &Settings, words: &[u64], ask: &Ask) -> Told {
    let told = |rule, class, verdict| Told {
        rule,
        class,
        verdict,
    };
    let swept = Swept::of(settings, words, ask);
    if swept.pending {
        return told(1, 0, UNJUDGED);
    }
    if ask.flag == 0 {
        return told(2, 0, UNJUDGED);
    }
    if let Some(class) = swept.holder(ask) {
        return told(3, class, DUPLICATE);
    }
    if swept.floor.is_some_and(|floor| ask.stamp <= floor) {
        return told(4, 0, LATE);
    }
    if let Some(rule) = outside(swept.window(ask), ask) {
        return told(rule, 0, LATE);
    }
    if let Some(rule) = draw(settings, words, ask, swept.second(ask)) {
        return told(rule, 0, FULL);
    }
    match swept.position(ask) {
        Some(generation) if generation[3] != swept.bucket(ask) => told(14, 0, LATE),
        Some(generation) if slots_for(generation) > swept.windows.slots => told(15, 0, FULL),
        _ => told(0, 0, NEW),
    }
}

/// The number of a take_batch's verdict: of a Late ticket stamped past the front of its window Ahead.
pub fn batch_verdict(settings: &Settings, words: &[u64], ask: &Ask) -> u64 {
    let swept = Swept::of(settings, words, ask);
    let past_front = outside(swept.window(ask), ask) == Some(6);
    match reason(settings, words, ask).verdict {
        LATE if past_front => AHEAD,
        verdict => verdict,
    }
}

/// A register as a sweep leaves it.
struct Swept<'a> {
    windows: Windows,
    pending: bool,
    floor: Option<u64>,
    /// With their classes.
    held: Vec<(u64, &'a [u64])>,
}

impl<'a> Swept<'a> {
    fn of(settings: &Settings, words: &'a [u64], ask: &Ask) -> Self {
        let windows = settings.windows[ask.register as usize];
        let (heading, generations) = parts::register(settings, words, ask.register);
        let (swept, ring) = (heading[6], windows.ring());
        let through = ask.reading.div_ceil(windows.bucket);
        let visited: Vec<u64> = (swept.max(through.saturating_sub(ring))..through)
            .map(|bucket| bucket % ring)
            .collect();
        let (dropped, held): (Vec<_>, Vec<_>) = generations.partition(|(_, generation)| {
            generation[3] < through && visited.contains(&(generation[3] % ring))
        });
        let newest = dropped.iter().map(|(_, generation)| generation[2]).max();
        let floor = (heading[8] == 1).then_some(heading[9]);
        Self {
            windows,
            pending: heading[10] == 1,
            floor: floor.max(newest),
            held,
        }
    }

    fn bucket(&self, ask: &Ask) -> u64 {
        self.windows.bucket_of(ask.stamp)
    }

    /// The second in which a draw for the ticket expires.
    fn second(&self, ask: &Ask) -> u64 {
        let ms = self.bucket(ask).saturating_mul(self.windows.bucket);
        ms.div_ceil(1_000).min(u64::from(u32::MAX))
    }

    fn window(&self, ask: &Ask) -> Window {
        match ask.deliverer.0 {
            0 => self.windows.origin,
            _ => self.windows.copy,
        }
    }

    /// The lowest class that holds the fingerprint in the ticket's bucket.
    fn holder(&self, ask: &Ask) -> Option<u64> {
        let fingerprint = ask.fingerprint.max(1);
        let holds = |generation: &[u64]| {
            generation[3] == self.bucket(ask) && generation[parts::HEAD..].contains(&fingerprint)
        };
        let found = self.held.iter().find(|(_, generation)| holds(generation));
        found.map(|(class, _)| *class)
    }

    /// The generation of the deliverer's class at the position of the ticket's bucket, where it holds something.
    fn position(&self, ask: &Ask) -> Option<&'a [u64]> {
        let (class, ring) = (parts::class_of(ask.deliverer), self.windows.ring());
        let at = self.bucket(ask) % ring;
        let found = self
            .held
            .iter()
            .find(|(of, generation)| *of == class && generation[3] % ring == at);
        found.map(|(_, generation)| *generation)
    }
}

/// Whether the stamp is behind the window, 5, or ahead of it, 6; without a bound.
fn outside(window: Window, ask: &Ask) -> Option<u64> {
    let [stamp, reading] = [ask.stamp, ask.reading].map(u128::from);
    if stamp + u128::from(window.behind) < reading {
        return Some(5);
    }
    (stamp > reading + u128::from(window.ahead)).then_some(6)
}

/// The slots that a generation needs for one fingerprint more.
fn slots_for(generation: &[u64]) -> u64 {
    let mut slots = generation[0].max(1);
    while 4 * (generation[1] + 1) > 3 * slots {
        slots *= 2;
    }
    slots
}

/// Why no share is drawn, from 7 to 13.
fn draw(settings: &Settings, words: &[u64], ask: &Ask, second: u64) -> Option<u64> {
    let (kind, _) = ask.deliverer;
    let class = parts::class_of(ask.deliverer);
    let [feeder, feeders, peer, peers, relay] = words[5..10] else {
        unreachable!("five limits")
    };
    let together = [feeders, peers, relay][class as usize];
    let share = [Some(feeder), Some(peer), Some(relay), None][kind as usize];
    let units = [
        settings.feeder_units,
        settings.peer_units,
        0,
        settings.peer_units,
    ][kind as usize];
    let place = parts::place_of(settings, words, ask.deliverer);
    let entries = place.map_or(0, |place| place[2]);
    let new = u64::from(place.is_none());
    let totals = parts::totals(settings, words, class);
    let (holders, units_after) = (totals[1] + new, totals[2] + 1 + new * units);
    let own_after = entries + 1 + units;
    let second_listed = |place: &[u64]| {
        let pairs = &place[4..4 + 2 * place[3] as usize];
        pairs.chunks(2).any(|pair| pair[0] == second)
    };
    let rules = [
        (7, words[10] == 1),
        (8, share.is_some_and(|share| entries >= share)),
        (9, kind > 1 && units_after > together),
        (10, units_after > together && own_after > together / holders),
        (11, units_after > 2 * together),
        (12, place.is_none() && totals[1] >= settings.places),
        (
            13,
            place.is_some_and(|place| place[3] >= settings.pairs && !second_listed(place)),
        ),
    ];
    rules.iter().find(|(_, met)| *met).map(|(rule, _)| *rule)
}
