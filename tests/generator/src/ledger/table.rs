//! What one register holds: for each class and position a bucket and its fingerprints.

use std::collections::{BTreeMap, BTreeSet};

use calls::call::Ticket;
use calls::{Answer, Reason, Who, Windows};

use super::shares::second;
use crate::dump::{self, Dump};

struct Generation {
    bucket: u64,
    fingerprints: BTreeSet<u64>,
}

/// How a reading by which a register sweeps is to the one before it.
#[derive(Clone, Copy)]
pub enum Step {
    Back,
    Same,
    On,
    /// Every bucket of the ring is passed.
    PastRing,
}

pub struct Table {
    pub windows: Windows,
    pub pending: bool,
    pub swept: u64,
    /// The last reading by which it swept, and the last of a take.
    reading: Option<u64>,
    taken: u64,
    /// Since the opening: a reading fell, a take's did, something was restored or resumed.
    pub fell: bool,
    take_fell: bool,
    pub disturbed: bool,
    /// By position, those that hold something.
    rings: [BTreeMap<u64, Generation>; 3],
}

impl Table {
    pub fn open(windows: Windows, pending: bool) -> Self {
        Self {
            windows,
            pending,
            swept: 0,
            reading: None,
            taken: 0,
            fell: false,
            take_fell: false,
            disturbed: false,
            rings: Default::default(),
        }
    }

    pub fn published(&self) -> u64 {
        self.swept.saturating_mul(self.windows.bucket)
    }

    /// The second in which an entry of this bucket expires.
    pub fn second_of(&self, bucket: u64) -> u64 {
        second(bucket.saturating_mul(self.windows.bucket))
    }

    fn position(&self, bucket: u64) -> u64 {
        bucket % self.windows.ring()
    }

    /// Whether takes' readings never fell, and nothing was restored or resumed.
    pub fn steady(&self) -> bool {
        !self.take_fell && !self.disturbed
    }

    /// A take, not pending, with its flag on.
    pub fn takes_at(&mut self, reading: u64) {
        self.take_fell |= reading < self.taken;
        self.taken = reading;
    }

    /// How `reading` is to the one before it.
    fn step(&self, reading: u64) -> Step {
        let far = self.swept.saturating_add(self.windows.ring());
        match self.reading {
            Some(last) if reading < last => Step::Back,
            Some(last) if reading == last => Step::Same,
            Some(_) if reading.div_ceil(self.windows.bucket) > far => Step::PastRing,
            _ => Step::On,
        }
    }

    /// On which side the ticket's stamp is outside its deliverer's window, behind or ahead.
    pub fn outside(&self, ticket: &Ticket) -> Option<Reason> {
        let window = match ticket.who.listed() {
            Some(Who::Feeder(_)) => self.windows.origin,
            _ => self.windows.copy,
        };
        if ticket.stamp.saturating_add(window.behind) < ticket.reading {
            return Some(Reason::Behind);
        }
        let front = ticket.reading.saturating_add(window.ahead);
        (ticket.stamp > front).then_some(Reason::Ahead)
    }

    /// How the reading went; none while it is pending.
    pub fn sweep(&mut self, reading: u64) -> Option<Step> {
        if self.pending {
            return None;
        }
        let step = self.step(reading);
        self.fell |= matches!(step, Step::Back);
        self.reading = Some(reading);
        self.forget(reading.div_ceil(self.windows.bucket));
        Some(step)
    }

    fn forget(&mut self, through: u64) {
        let from = self.swept.max(through.saturating_sub(self.windows.ring()));
        for bucket in from..through {
            let position = self.position(bucket);
            for ring in &mut self.rings {
                if ring
                    .get(&position)
                    .is_some_and(|held| held.bucket < through)
                {
                    ring.remove(&position);
                }
            }
        }
        self.swept = through;
    }

    /// The lowest class that holds the fingerprint in the stamp's bucket.
    pub fn holder(&self, fingerprint: u64, stamp: u64) -> Option<usize> {
        let bucket = self.windows.bucket_of(stamp);
        (0..self.rings.len()).find(|class| self.knows(*class, bucket, fingerprint))
    }

    pub fn holds_anywhere(&self, fingerprint: u64) -> bool {
        self.rings
            .iter()
            .flat_map(BTreeMap::values)
            .any(|held| held.fingerprints.contains(&fingerprint))
    }

    /// Whether another bucket of the class is held at this one's position.
    pub fn clashes(&self, class: usize, bucket: u64) -> bool {
        let held = self.rings[class].get(&self.position(bucket));
        held.is_some_and(|held| held.bucket != bucket)
    }

    /// Whether the class holds anything in this bucket.
    pub fn holds_some(&self, class: usize, bucket: u64) -> bool {
        let held = self.rings[class].get(&self.position(bucket));
        held.is_some_and(|held| held.bucket == bucket)
    }

    /// Whether the class holds the fingerprint in this bucket.
    pub fn knows(&self, class: usize, bucket: u64, fingerprint: u64) -> bool {
        let held = self.rings[class].get(&self.position(bucket));
        held.is_some_and(|held| held.bucket == bucket && held.fingerprints.contains(&fingerprint))
    }

    /// Whether a dump lists something, and nothing that is not held where it would go.
    pub fn knows_all(&self, dump: &Dump) -> bool {
        let mut listed = dump.listed().peekable();
        listed.peek().is_some()
            && listed.all(|(class, bucket, fingerprint)| self.knows(class, bucket, fingerprint))
    }

    /// Whether one fingerprint more would need more than S slots.
    pub fn crowded(&self, class: usize, bucket: u64) -> bool {
        let held = self.rings[class].get(&self.position(bucket));
        let held = held.map_or(0, |held| held.fingerprints.len() as u64);
        4 * (held + 1) > 3 * self.windows.slots
    }

    pub fn insert(&mut self, class: usize, bucket: u64, fingerprint: u64) {
        let position = self.position(bucket);
        let fresh = || Generation {
            bucket,
            fingerprints: BTreeSet::new(),
        };
        self.rings[class]
            .entry(position)
            .or_insert_with(fresh)
            .fingerprints
            .insert(fingerprint);
    }

    pub fn drop_bucket(&mut self, class: usize, bucket: u64) {
        if self.holds_some(class, bucket) {
            let position = self.position(bucket);
            self.rings[class].remove(&position);
        }
    }

    /// Whether a view lists, position by position, each bucket held here and the number in it, with stamps in their order.
    pub fn viewed(&self, answer: &Answer) -> Result<(), String> {
        let Answer::Viewed(words) = answer else {
            return Err("a view answers words".into());
        };
        let (told, rest) = words.as_chunks::<4>();
        let held = self.rings.iter().flat_map(BTreeMap::values);
        let held: Vec<_> = held
            .map(|held| (held.bucket, held.fingerprints.len() as u64))
            .collect();
        let same = told
            .iter()
            .map(|[bucket, _, _, number]| (*bucket, *number))
            .eq(held.iter().copied());
        let ordered = told.iter().all(|[_, oldest, newest, _]| oldest <= newest);
        match same && ordered && rest.is_empty() {
            true => Ok(()),
            false => Err(format!("held is {held:?}")),
        }
    }

    /// Whether a dump lists, position by position, what is held here, and nothing after it.
    pub fn dumped(&self, answer: &Answer) -> Result<(), String> {
        let Answer::Bytes(bytes) = answer else {
            return Err("a dump answers bytes".into());
        };
        let Some((dump, read)) = dump::read(bytes) else {
            return Err("its own dump is cut short".into());
        };
        if read != bytes.len() as u64 {
            return Err("bytes after the dump".into());
        }
        for (ring, listed) in self.rings.iter().zip(&dump.classes) {
            let held: Vec<_> = ring
                .values()
                .map(|held| (held.bucket, held.fingerprints.clone()))
                .collect();
            let told: Vec<_> = listed
                .iter()
                .map(|one| {
                    (
                        one.bucket,
                        one.fingerprints.iter().copied().collect::<BTreeSet<_>>(),
                    )
                })
                .collect();
            let once = listed
                .iter()
                .zip(&told)
                .all(|(one, set)| one.fingerprints.len() == set.1.len());
            if held != told || !once {
                return Err(format!("held is {held:?}"));
            }
        }
        Ok(())
    }
}
