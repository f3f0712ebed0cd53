//! One input: an entry point with all that it is handed.

use generator::damage;
use generator::dump::{Dump, Listed, OVERFLOWING};
use generator::random::Random;
use soundness::{Ask, Call, Due, SETTINGS, refusal, view};

use crate::alter::{Altered, alter};
use scenes::{Scene, anything};

/// The words of an output for a view at most: more than a view of any scene takes.
pub const MOST_VIEWED: usize = 1_024;

/// Whether the lent words are none that may be altered.
macro_rules! only_reads {
    (words: &mut [u64] $($left:tt)*) => { false };
    ($next:tt $($left:tt)*) => { only_reads!($($left)*) };
    () => { true };
}

/// The output among the arguments, if there is one.
macro_rules! output {
    (out: &mut [u8] $($left:tt)*) => { Some(Output::Bytes) };
    (out: &mut [u64] $($left:tt)*) => { Some(Output::Words) };
    ($next:tt $($left:tt)*) => { output!($($left)*) };
    () => { None };
}

/// The names of arguments.
macro_rules! names {
    ($($argument:ident $(: $run:ty)?),*) => { &[$(stringify!($argument)),*] };
}

macro_rules! list {
    ($($(#[$doc:meta])* $name:ident($($arguments:tt)*) -> ($($out:ident),*);)*) => {
        /// The entry points under the names that they have in the table (hosts/rust/src/entries.rs).
        #[allow(non_camel_case_types)]
        #[derive(Clone, Copy, Debug, PartialEq, Eq, PartialOrd, Ord)]
        pub enum Entry {
            $($name),*
        }

        impl Entry {
            pub const ALL: &[Self] = &[$(Self::$name),*];

            /// Its arguments by name.
            pub fn arguments(self) -> &'static [&'static str] {
                match self {
                    $(Self::$name => names!($($arguments)*)),*
                }
            }

            /// Its out numbers by name.
            pub fn outs(self) -> &'static [&'static str] {
                match self {
                    $(Self::$name => names!($($out),*)),*
                }
            }

            /// What it writes at the start of an output, if it is lent one.
            pub fn output(self) -> Option<Output> {
                match self {
                    $(Self::$name => output!($($arguments)*)),*
                }
            }

            /// Whether it leaves every word as it is, even where nothing refuses it.
            pub fn only_reads(self) -> bool {
                match self {
                    $(Self::$name => only_reads!($($arguments)*)),*
                }
            }
        }
    };
}

strikes::entries!(list);

/// What an output is of: a dump is bytes, and a view words.
#[derive(Clone, Copy, Debug, PartialEq, Eq)]
pub enum Output {
    Bytes,
    Words,
}

/// The numbers that entry points take, under the names of the arguments; each takes some of them.
#[derive(Clone, Copy, Debug, Default)]
pub struct Numbers {
    pub register: u64,
    pub fingerprint: u64,
    pub stamp: u64,
    /// Near the clock, as a stamp is: it is the same.
    pub floor: u64,
    pub reading: u64,
    pub flag: u64,
    pub kind: u64,
    pub number: u64,
    pub wanted: u64,
    pub class: u64,
}

#[derive(Clone, Debug)]
pub struct Input {
    pub entry: Entry,
    pub settings: Vec<u64>,
    pub words: Vec<u64>,
    pub limits: Vec<u64>,
    pub starts: Vec<u64>,
    pub bytes: Vec<u8>,
    /// The output of a dump as it is lent.
    pub out: Vec<u8>,
    /// That of a view.
    pub view: Vec<u64>,
    pub numbers: Numbers,
    pub altered: Altered,
}

impl Input {
    pub fn new(scene: &Scene, random: &mut Random) -> Self {
        let mut words = scene.words.clone();
        let altered = alter(scene, &mut words, random);
        lend(&mut words, random);
        let mut input = Self {
            entry: random.pick(Entry::ALL),
            settings: settings(scene, random),
            words,
            limits: limits(random),
            starts: starts(random),
            bytes: bytes(scene, random),
            out: vec![random.below(256) as u8; output(random)],
            view: Vec::new(),
            numbers: numbers(scene, random),
            altered,
        };
        if input.entry.output() == Some(Output::Words) {
            input.view = vec![random.word(); input.view_length(scene, random)];
        }
        input
    }

    /// The words of an output for a view: about what the view of the scene's own words takes, enough, or any.
    fn view_length(&self, scene: &Scene, random: &mut Random) -> usize {
        let own = Call {
            words: Some(&scene.words),
            view: Some(usize::MAX),
            ..self.call()
        };
        let settings = machine::settings_words(&scene.settings);
        let about = match refusal(&settings, &own) {
            Due::No => view(&scene.settings, &own).map_or(0, |view| view.len()),
            _ => 0,
        };
        match random.below(8) {
            0 => random.below(64) as usize,
            1 => MOST_VIEWED,
            _ => (about + random.below(5) as usize)
                .saturating_sub(2)
                .min(MOST_VIEWED),
        }
    }

    /// What a take is asked with these numbers.
    pub fn ask(&self) -> Ask {
        let n = self.numbers;
        Ask {
            register: n.register,
            fingerprint: n.fingerprint,
            stamp: n.stamp,
            reading: n.reading,
            flag: n.flag,
            deliverer: (n.kind, n.number),
        }
    }

    /// The length of the output that its entry point is lent.
    pub fn output_length(&self) -> usize {
        match self.entry.output() {
            Some(Output::Bytes) => self.out.len(),
            Some(Output::Words) => self.view.len(),
            None => 0,
        }
    }

    /// What of it can earn a refusal: what its entry point takes, by the names of the arguments.
    pub fn call(&self) -> Call<'_> {
        let n = self.numbers;
        let takes = |argument| self.entry.arguments().contains(&argument);
        let lent = |of| (self.entry.output() == Some(of)).then(|| self.output_length());
        Call {
            words: takes("words").then_some(&self.words),
            limits: takes("limits").then_some(&self.limits),
            starts: takes("starts").then_some(&self.starts),
            register: takes("register").then_some(n.register),
            flag: takes("flag").then_some(n.flag),
            deliverer: takes("kind").then_some((n.kind, n.number)),
            wanted: takes("wanted").then_some(n.wanted),
            class: takes("class").then_some(n.class),
            bytes: takes("bytes").then_some(&self.bytes),
            out: lent(Output::Bytes),
            view: lent(Output::Words),
        }
    }
}

/// As many words as are needed, a few more with any content, or fewer.
fn lend(words: &mut Vec<u64>, random: &mut Random) {
    match random.below(20) {
        0 => words.truncate(random.below(words.len() as u64) as usize),
        1 => words.truncate(words.len() - 1),
        2..8 => {
            for _ in 0..random.between(1, 9) {
                words.push(anything(random));
            }
        }
        _ => {}
    }
}

/// The scene's settings with any words for the registers that it has not; or altered ones.
fn settings(scene: &Scene, random: &mut Random) -> Vec<u64> {
    let mut words = machine::settings_words(&scene.settings).to_vec();
    let read = 5 + 6 * scene.settings.windows.len();
    words[read..].fill_with(|| anything(random));
    match random.below(40) {
        0 => words.truncate(random.below(SETTINGS as u64) as usize),
        1 => words.push(anything(random)),
        2 | 3 => {
            let at = random.below(SETTINGS as u64) as usize;
            words[at] = match random.below(3) {
                0 => words[at].wrapping_add(1),
                1 => words[at].wrapping_sub(1),
                _ => anything(random),
            };
        }
        4 => words.fill_with(|| anything(random)),
        _ => {}
    }
    words
}

fn limits(random: &mut Random) -> Vec<u64> {
    let length = if random.percent(90) {
        5
    } else {
        random.below(8)
    };
    let most = random.percent(15);
    (0..length)
        .map(|_| match random.below(5) {
            0 => 1_000_000,
            1 if most => random.pick(&[1_000_001, u64::MAX]),
            _ => random.below(200),
        })
        .collect()
}

fn starts(random: &mut Random) -> Vec<u64> {
    let length = if random.percent(90) {
        8
    } else {
        random.below(12)
    };
    (0..length)
        .map(|at| match at % 2 {
            0 if random.percent(97) => random.below(3),
            _ => anything(random),
        })
        .collect()
}

fn output(random: &mut Random) -> usize {
    match random.below(4) {
        0 => random.below(64) as usize,
        1 => 32 + 8 * random.below(40) as usize,
        _ => 8_192,
    }
}

fn numbers(scene: &Scene, random: &mut Random) -> Numbers {
    let registers = scene.settings.registers;
    let near = |random: &mut Random| match random.below(8) {
        0 => random.word(),
        1 => random.pick(&[0, 1, u64::MAX, u64::MAX - 1]),
        2..5 => scene.reading,
        _ => scene
            .reading
            .wrapping_add(random.below(20_000))
            .wrapping_sub(10_000),
    };
    let mut numbers = Numbers {
        register: match random.below(12) {
            0 => registers,
            1 => random.word(),
            _ => random.below(registers),
        },
        fingerprint: match random.below(4) {
            0 => random.word(),
            1 => scene.words[random.below(scene.words.len() as u64) as usize],
            _ => random.below(40),
        },
        stamp: near(random),
        reading: near(random),
        flag: if random.percent(95) {
            random.pick(&[0, 1, 1, 1])
        } else {
            anything(random)
        },
        kind: if random.percent(95) {
            random.below(4)
        } else {
            anything(random)
        },
        number: if random.percent(90) {
            random.below(4)
        } else {
            anything(random)
        },
        wanted: if random.percent(95) {
            random.below(6)
        } else {
            anything(random)
        },
        class: if random.percent(90) {
            random.below(3)
        } else {
            anything(random)
        },
        floor: 0,
    };
    numbers.floor = numbers.stamp;
    numbers
}

/// The bytes of a dump: good, damaged, or any.
fn bytes(scene: &Scene, random: &mut Random) -> Vec<u8> {
    let good = dump(scene, random).bytes();
    match random.below(10) {
        0 => good[..random.below(good.len() as u64 + 1) as usize].to_vec(),
        1 | 2 => {
            let at = random.below(good.len() as u64 / 8) as usize;
            damage::altered(&good, at, random)
        }
        3 => {
            let mut bytes = good;
            let at = 8 * random.below(bytes.len() as u64 / 8) as usize;
            let length = random.between(OVERFLOWING.start - 2, OVERFLOWING.end + 2);
            bytes[at..at + 8].copy_from_slice(&length.to_le_bytes());
            bytes
        }
        4 => (0..random.below(200))
            .map(|_| random.below(256) as u8)
            .collect(),
        5 => (0..random.below(40))
            .flat_map(|_| random.below(4).to_le_bytes())
            .collect(),
        6 => [good, vec![0xaa; random.below(20) as usize]].concat(),
        _ => good,
    }
}

fn dump(scene: &Scene, random: &mut Random) -> Dump {
    let mut dump = Dump {
        floor: anything(random),
        ..Dump::default()
    };
    for class in &mut dump.classes {
        *class = (0..random.below(4))
            .map(|_| listed(scene, random))
            .collect();
    }
    dump
}

fn listed(scene: &Scene, random: &mut Random) -> Listed {
    let windows = random.pick(&scene.settings.windows);
    let newest = if random.percent(80) {
        scene.reading
    } else {
        anything(random)
    };
    let fingerprints = (0..random.below(9))
        .map(|_| {
            if random.percent(50) {
                random.below(20)
            } else {
                anything(random)
            }
        })
        .collect();
    Listed {
        bucket: windows.bucket_of(newest).wrapping_add(random.below(4)),
        newest,
        fingerprints,
    }
}
