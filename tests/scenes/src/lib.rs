//! Settings and sound words to start from: some that calls have left, and some made up by the table of words, which no list of calls
//! might reach.

use calls::{Call, Limits, Machine, Settings, Windows};
use generator::random::Random;
use generator::scene::Scene as List;
use machine::Product;

/// Where the parts of the words lie.
pub struct Layout {
    pub place: usize,
    pub class: usize,
    /// The front of each register, with the width of its generations and their number in a class.
    pub registers: Vec<(usize, usize, usize)>,
    pub needed: usize,
}

pub const FRONT: usize = 20;
pub const HEADING: usize = 24;
/// The words of a generation before its slots: slots, held, newest, bucket, oldest.
pub const HEAD: usize = 5;

impl Layout {
    pub fn of(settings: &Settings) -> Self {
        let place = 2 * settings.pairs as usize + 4;
        let class = 4 + settings.places as usize * place;
        let mut at = FRONT + 3 * class;
        let mut registers = Vec::new();
        for windows in &settings.windows {
            let (width, ring) = (windows.slots as usize + HEAD, windows.ring() as usize);
            registers.push((at, width, ring));
            at += HEADING + 3 * ring * width;
        }
        Self {
            place,
            class,
            registers,
            needed: settings.words() as usize,
        }
    }

    pub fn class_at(&self, class: usize) -> usize {
        FRONT + class * self.class
    }

    pub fn place_at(&self, class: usize, place: usize) -> usize {
        self.class_at(class) + 4 + place * self.place
    }
}

/// The fingerprints that generations hold.
#[derive(Clone, Copy, Debug, PartialEq, Eq)]
pub enum Held {
    Any,
    /// Those for which probing starts at one slot, some of them too far on to be followed.
    Crowded,
    /// Small numbers, so that several generations hold the same ones.
    Few,
}

pub struct Scene {
    pub settings: Settings,
    pub words: Vec<u64>,
    pub layout: Layout,
    /// About where its clock is.
    pub reading: u64,
    pub held: Held,
}

impl Scene {
    /// What a generated list of calls leaves.
    pub fn called(random: &mut Random) -> Self {
        let small = [
            "full",
            "pairs",
            "clocks",
            "edges",
            "dumps",
            "registers",
            "modest",
            "resumes",
        ];
        let name = random.pick(&small);
        let profile = generator::program::named(name)[0];
        let mut list = List::new(profile, random.word());
        let mut product = Product::default();
        let (mut settings, mut reading) = (Settings::default(), 0);
        for _ in 0..random.between(1, 250) {
            let call = list.call();
            let answer = product.run(&call);
            list.learn(&call, &answer);
            match call {
                Call::Open {
                    settings: opened, ..
                } => settings = opened,
                Call::Ask { ticket, .. } => reading = ticket.reading,
                _ => {}
            }
        }
        let layout = Layout::of(&settings);
        let words = product.words()[..layout.needed].to_vec();
        Self {
            settings,
            words,
            layout,
            reading,
            held: Held::Any,
        }
    }

    /// Words made up from the table of words, free ones with any content, for a clock about this reading.
    pub fn made(settings: Settings, reading: u64, held: Held, random: &mut Random) -> Self {
        let layout = Layout::of(&settings);
        let mut scene = Self {
            words: vec![0; layout.needed],
            settings,
            layout,
            reading,
            held,
        };
        scene.make_front(random);
        for class in 0..3 {
            scene.make_class(class, random);
        }
        for register in 0..scene.settings.windows.len() {
            scene.make_register(register, random);
        }
        let unused = HEADING * (4 - scene.settings.windows.len());
        let from = scene.layout.needed - unused;
        scene.words[from..].fill_with(|| anything(random));
        scene
    }

    fn make_front(&mut self, random: &mut Random) {
        let settings = &self.settings;
        let kept = [
            settings.registers,
            settings.places,
            settings.pairs,
            settings.feeder_units,
            settings.peer_units,
        ];
        self.words[..5].copy_from_slice(&kept);
        self.words[5..10].copy_from_slice(&settings.limits.all());
        self.words[10] = u64::from(random.percent(25));
        self.words[11..FRONT].fill_with(|| anything(random));
    }

    fn make_class(&mut self, class: usize, random: &mut Random) {
        let used = random.below(self.settings.places + 1) as usize;
        let (mut entries, mut units, mut holders) = (0, 0, 0);
        let mut taken = Vec::new();
        for _ in 0..used {
            let restored = random.percent(25);
            let kind = if restored { 3 } else { class as u64 };
            let number = any_number(random);
            let who = (kind, if kind > 1 { 0 } else { number });
            if taken.contains(&who) {
                continue;
            }
            taken.push(who);
            let at = self.layout.place_at(class, holders);
            self.words[at] = kind;
            self.words[at + 1] = number;
            let held = self.make_pairs(at, 2_000_000 - entries, random);
            if held == 0 {
                let place = self.layout.place;
                self.words[at..at + place].fill(0);
                break;
            }
            entries += held;
            units += held
                + [
                    self.settings.feeder_units,
                    self.settings.peer_units,
                    0,
                    self.settings.peer_units,
                ][kind as usize];
            holders += 1;
        }
        let at = self.layout.class_at(class);
        let expired = random.pick(&[
            0,
            1,
            120,
            u64::from(u32::MAX),
            self.reading.div_ceil(1_000).min(u64::from(u32::MAX)),
        ]);
        self.words[at..at + 4].copy_from_slice(&[entries, holders as u64, units, expired]);
    }

    /// A place's pairs and free cells; its entries, at most `most`.
    fn make_pairs(&mut self, at: usize, most: u64, random: &mut Random) -> u64 {
        let pairs = random.between(1, self.settings.pairs) as usize;
        let mut second = random.pick(&[0, 1, 100, u64::from(u32::MAX) - 8_000]);
        let (mut entries, mut listed) = (0, 0);
        for pair in 0..pairs {
            let count = random.pick(&[1, 1, 2, 3, 1_000, 900_000]);
            if entries + count > most {
                break;
            }
            self.words[at + 4 + 2 * pair] = second;
            self.words[at + 5 + 2 * pair] = count;
            entries += count;
            listed += 1;
            second += random.pick(&[1, 1, 2, 7]);
        }
        self.words[at + 2] = entries;
        self.words[at + 3] = listed;
        let cells = at + 4 + 2 * listed as usize..at + self.layout.place;
        self.words[cells].fill_with(|| anything(random));
        entries
    }

    fn make_register(&mut self, register: usize, random: &mut Random) {
        let (at, width, ring) = self.layout.registers[register];
        let windows = self.settings.windows[register];
        let swept = match random.below(4) {
            0 => random.word(),
            1 => random.pick(&[0, 1, u64::MAX]),
            _ => self.about(&windows, random) / windows.bucket,
        };
        let floor = self.stamp(&windows, random);
        let present = u64::from(random.percent(35));
        self.words[at..at + 11].copy_from_slice(&[
            windows.origin.behind,
            windows.origin.ahead,
            windows.copy.behind,
            windows.copy.ahead,
            windows.bucket,
            windows.slots,
            swept,
            swept.saturating_mul(windows.bucket),
            present,
            present * floor,
            u64::from(random.percent(15)),
        ]);
        self.words[at + 11..at + HEADING].fill_with(|| anything(random));
        let empty = random.pick(&[5, 60, 60, 95]);
        for number in 0..3 * ring {
            let generation = at + HEADING + number * width;
            let position = (number % ring) as u64;
            self.make_generation(generation, position, &windows, empty, random);
        }
    }

    /// A number near the reading: as far from it as a ring spans, at most.
    fn about(&self, windows: &Windows, random: &mut Random) -> u64 {
        let span = windows.ring() * windows.bucket;
        let later = self.reading.saturating_add(random.below(span));
        later.saturating_sub(random.below(span))
    }

    fn stamp(&self, windows: &Windows, random: &mut Random) -> u64 {
        let about = self.about(windows, random);
        random.pick(&[0, 1, u64::MAX, self.reading, about])
    }

    /// Empty at this chance; where few are, those that are not are full.
    fn make_generation(
        &mut self,
        at: usize,
        position: u64,
        windows: &Windows,
        empty: u64,
        random: &mut Random,
    ) {
        self.words[at + 3] = anything(random);
        if random.percent(empty) {
            return;
        }
        let mut slots = 2 << random.below(10);
        while slots > windows.slots {
            slots /= 2;
        }
        let held = if empty < 50 {
            3 * slots / 4
        } else {
            random.between(1, 3 * slots / 4)
        };
        let table = at + HEAD..at + HEAD + slots as usize;
        let first = random.below(slots);
        let mut inserted = 0;
        while inserted < held {
            let fingerprint = match self.held {
                Held::Any => fingerprint(random),
                Held::Crowded => first + slots * random.between(1, 4_000),
                Held::Few => random.between(1, 2 * slots),
            };
            inserted += u64::from(insert(&mut self.words[table.clone()], fingerprint));
        }
        let newest = self.stamp(windows, random);
        let oldest = random.pick(&[0, newest / 2, newest]);
        // The buckets of this position reach up to 2^64.
        let ring = windows.ring();
        let last = (u64::MAX - position) / ring;
        let turn = match random.below(3) {
            0 => last,
            1 => random.below(last) + 1,
            _ => (windows.bucket_of(self.about(windows, random)) / ring).min(last),
        };
        let head = [slots, held, newest, position + turn * ring, oldest];
        self.words[at..at + HEAD].copy_from_slice(&head);
    }
}

/// Settings of these registers, with any book.
pub fn with_any_book(windows: Vec<Windows>, random: &mut Random) -> Settings {
    let limit = |random: &mut Random| random.pick(&[0, 1, 5, 40, 1_000, 1_000_000]);
    Settings {
        registers: windows.len() as u64,
        places: random.pick(&[1, 2, 3, 5]),
        pairs: random.pick(&[2, 3, 4, 9]),
        feeder_units: random.pick(&[0, 1, 3, 4_096]),
        peer_units: random.pick(&[0, 1, 2, 4_096]),
        limits: Limits::of([(); 5].map(|()| limit(random))),
        windows,
    }
}

/// Any word, often a small one.
pub fn anything(random: &mut Random) -> u64 {
    match random.below(4) {
        0 => 0,
        1 => random.below(9),
        2 => random.pick(&[u64::MAX, 1 << 63, 1 << 32]),
        _ => random.word(),
    }
}

fn fingerprint(random: &mut Random) -> u64 {
    match random.below(3) {
        0 => random.between(1, 2_000),
        1 => 8 * random.between(1, 4_000),
        _ => random.word().max(1),
    }
}

/// Probes from the fingerprint's own slot; whether it was put in.
fn insert(table: &mut [u64], fingerprint: u64) -> bool {
    let mut at = (fingerprint % table.len() as u64) as usize;
    while table[at] != 0 {
        if table[at] == fingerprint {
            return false;
        }
        at = (at + 1) % table.len();
    }
    table[at] = fingerprint;
    true
}

fn any_number(random: &mut Random) -> u64 {
    match random.percent(70) {
        true => random.pick(&[0, 1, 2, 3, u64::MAX, 1 << 63]),
        false => random.word(),
    }
}
