//! The entries of every deliverer, counted draw by draw.

use std::collections::BTreeMap;

use calls::{Answer, Limits, Reason, Settings, Who};

/// An entry asked for: by whom, and the second in which it expires.
pub struct Draw {
    pub who: Who,
    pub second: u64,
}

const LAST_SECOND: u64 = u32::MAX as u64;

/// The second in which `ms` ends, at most the last.
pub fn second(ms: u64) -> u64 {
    ms.div_ceil(1000).min(LAST_SECOND)
}

#[derive(Default)]
struct Class {
    /// Each holder's entries by the second in which they expire.
    places: BTreeMap<Who, BTreeMap<u64, u64>>,
    expired: u64,
}

impl Class {
    fn entries(&self, who: Who) -> u64 {
        self.places
            .get(&who)
            .map_or(0, |pairs| pairs.values().sum())
    }

    fn all_entries(&self) -> u64 {
        self.places.values().flat_map(BTreeMap::values).sum()
    }
}

#[derive(Default)]
pub struct Shares {
    settings: Settings,
    limits: Limits,
    /// Whether the limits are still those of the opening.
    unchanged: bool,
    pub closed: bool,
    classes: [Class; 3],
}

/// What a draw would make of the numbers.
struct After {
    entries: u64,
    holders: u64,
    own_units: u64,
    class_units: u64,
    together: u64,
}

impl Shares {
    pub fn open(settings: &Settings) -> Self {
        Self {
            settings: settings.clone(),
            limits: settings.limits,
            unchanged: true,
            ..Self::default()
        }
    }

    pub fn set(&mut self, limits: Limits) {
        self.limits = limits;
        self.unchanged = false;
    }

    fn place_units(&self, who: Who) -> u64 {
        match who {
            Who::Feeder(_) => self.settings.feeder_units,
            Who::Peer(_) | Who::Restored(_) => self.settings.peer_units,
            Who::Relay | Who::Kind(..) => 0,
        }
    }

    fn share(&self, who: Who) -> Option<u64> {
        match who {
            Who::Feeder(_) => Some(self.limits.feeder),
            Who::Peer(_) => Some(self.limits.peer),
            Who::Relay => Some(self.limits.relay),
            Who::Restored(_) | Who::Kind(..) => None,
        }
    }

    fn units(&self, class: &Class) -> u64 {
        class.all_entries()
            + class
                .places
                .keys()
                .map(|who| self.place_units(*who))
                .sum::<u64>()
    }

    fn after(&self, draw: &Draw) -> After {
        let class = &self.classes[draw.who.class()];
        let entries = class.entries(draw.who);
        let (first, place) = (entries == 0, self.place_units(draw.who));
        After {
            entries,
            holders: class.places.len() as u64 + u64::from(first),
            own_units: entries + 1 + place,
            class_units: self.units(class) + 1 + if first { place } else { 0 },
            together: self.limits.together(draw.who.class()),
        }
    }

    /// Whether P or E has no room for the draw.
    fn no_room(&self, draw: &Draw) -> Option<Reason> {
        let class = &self.classes[draw.who.class()];
        match class.places.get(&draw.who) {
            None if class.places.len() as u64 >= self.settings.places => Some(Reason::Places),
            Some(pairs)
                if !pairs.contains_key(&draw.second)
                    && pairs.len() as u64 >= self.settings.pairs =>
            {
                Some(Reason::Pairs)
            }
            _ => None,
        }
    }

    /// Why the draw is refused, if it is.
    pub fn refuses(&self, draw: &Draw) -> Option<Reason> {
        let after = self.after(draw);
        if self.closed {
            return Some(Reason::Closed);
        }
        if self
            .share(draw.who)
            .is_some_and(|share| after.entries >= share)
        {
            return Some(Reason::OwnShare);
        }
        if after.class_units > after.together {
            if !shared(draw.who) {
                return Some(Reason::ClassLimit);
            }
            if after.own_units > after.together / after.holders {
                return Some(Reason::EqualPart);
            }
            if after.class_units > 2 * after.together {
                return Some(Reason::TwiceLimit);
            }
        }
        self.no_room(draw)
    }

    /// Whether the equal part's promise is due to this draw: a Feeder or Peer, one of at most
    /// three parties, with its draw within its share and its equal part; the book open, its limits
    /// those of the opening, and neither P nor E in the way. What the class holds plays no part.
    pub fn modest(&self, draw: &Draw) -> bool {
        let after = self.after(draw);
        shared(draw.who)
            && !self.closed
            && self.unchanged
            && after.holders <= 3
            && self
                .share(draw.who)
                .is_some_and(|share| after.entries < share)
            && after.own_units <= after.together / after.holders
            && self.no_room(draw).is_none()
    }

    pub fn enter(&mut self, draw: &Draw) {
        let place = self.classes[draw.who.class()]
            .places
            .entry(draw.who)
            .or_default();
        *place.entry(draw.second).or_default() += 1;
    }

    pub fn give_back(&mut self, draw: &Draw) {
        let places = &mut self.classes[draw.who.class()].places;
        let pairs = places.get_mut(&draw.who).expect("entered before");
        let count = pairs.get_mut(&draw.second).expect("entered before");
        *count -= 1;
        if *count == 0 {
            pairs.remove(&draw.second);
        }
        if pairs.is_empty() {
            places.remove(&draw.who);
        }
    }

    /// Entries of seconds before `through_ms` let go.
    pub fn expire(&mut self, through_ms: u64) {
        let through = second(through_ms);
        for class in &mut self.classes {
            if (through + 2).min(LAST_SECOND) < class.expired {
                class.expired = through;
            } else if through > class.expired {
                class.expired = through;
                class.places.retain(|_, pairs| {
                    pairs.retain(|second, _| *second >= through);
                    !pairs.is_empty()
                });
            }
        }
    }

    pub fn held(&self, who: Who) -> u64 {
        self.classes[who.class()].entries(who)
    }

    /// A deliverer's seconds and counts, rising, and its entries.
    pub fn view(&self, who: Who) -> Vec<u64> {
        let pairs = self.classes[who.class()].places.get(&who).into_iter();
        let words = pairs
            .flatten()
            .flat_map(|(second, count)| [*second, *count]);
        words.chain([self.held(who)]).collect()
    }

    /// A class's entries, holders, units and `expired`.
    pub fn class(&self, class: usize) -> Answer {
        let class = &self.classes[class];
        Answer::Numbers(vec![
            class.all_entries(),
            class.places.len() as u64,
            self.units(class),
            class.expired,
        ])
    }
}

/// Whether it is one of many of its kind, with an equal part.
fn shared(who: Who) -> bool {
    matches!(who, Who::Feeder(_) | Who::Peer(_))
}
