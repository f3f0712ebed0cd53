//! Sound words, and a ticket whose stamp is looked for.

use calls::{Limits, Settings, Verdict, Window, Windows};
use generator::random::Random;
use machine::settings_words;
use scenes::{HEAD, HEADING, Held, Layout, Scene, with_any_book};
use strikes::raw::{self, Ask};

/// From here on there are 2,000 stamps.
pub const TOP: u64 = u64::MAX - 1_999;

pub struct Question {
    pub settings: Settings,
    pub words: Vec<u64>,
    /// Its stamp is not read.
    pub ask: Ask,
}

impl Question {
    /// Buckets from 1 to 9, spans up to 40, and readings up to 300, about 1,000, where seconds change, or among the last 2,000.
    pub fn small(random: &mut Random) -> Self {
        let registers = random.pick(&[1, 1, 1, 1, 2]);
        let windows = (0..registers).map(|_| small_windows(random)).collect();
        let reading = match random.below(20) {
            0..5 => random.below(12),
            5..8 => random.below(45),
            8..13 => random.below(300),
            13 => random.between(950, 1_050),
            14..17 => u64::MAX - random.below(12),
            _ => TOP + random.between(200, 1_999),
        };
        let held = random.pick(&[Held::Few, Held::Few, Held::Any]);
        let scene = Scene::made(with_any_book(windows, random), reading, held, random);
        Self::about(scene, random)
    }

    /// Words that lists of calls leave, and rings of up to 256 generations.
    pub fn large(random: &mut Random) -> Self {
        let scene = match random.percent(50) {
            true => Scene::called(random),
            false => {
                let windows = large_windows(random);
                let reading = random.pick(&[1 << 20, 1 << 40, u64::MAX]) - random.below(1 << 20);
                let settings = with_any_book(vec![windows], random);
                Scene::made(settings, reading, Held::Few, random)
            }
        };
        Self::about(scene, random)
    }

    /// A ticket at the scene's clock or near it, often one that is held.
    fn about(scene: Scene, random: &mut Random) -> Self {
        let register = random.below(scene.settings.registers);
        let windows = scene.settings.windows[register as usize];
        let span = windows.ring() * windows.bucket;
        let reading = match random.below(10) {
            0 => scene.reading.saturating_add(random.below(span)),
            1 => scene.reading.saturating_sub(random.below(span)),
            _ => scene.reading,
        };
        let kind = random.below(4);
        let mut question = Self {
            ask: Ask {
                register,
                fingerprint: random.below(20),
                stamp: 0,
                reading,
                flag: u64::from(random.percent(93)),
                kind,
                number: random.below(3),
            },
            settings: scene.settings,
            words: scene.words,
        };
        if random.percent(50) {
            question.open_book();
        }
        match random.below(4) {
            0 => {}
            1 => question.hold_at_an_edge(random),
            _ => question.ask_for_held(random),
        }
        question
    }

    /// The largest limits, and not closed.
    fn open_book(&mut self) {
        self.words[5..10].fill(Limits::MOST);
        self.words[10] = 0;
    }

    /// A fingerprint that a generation of the register holds, if one holds any.
    fn ask_for_held(&mut self, random: &mut Random) {
        let slots = self
            .generations()
            .flat_map(|generation| &generation[HEAD..]);
        let held: Vec<u64> = slots.copied().filter(|slot| *slot != 0).collect();
        if !held.is_empty() {
            self.ask.fingerprint = random.pick(&held);
        }
    }

    /// A fingerprint that is held in the bucket of a stamp at which the window starts or ends, or of 0, if something is held at its
    /// position.
    fn hold_at_an_edge(&mut self, random: &mut Random) {
        let (windows, window) = (self.windows(), self.window());
        let stamp = random.pick(&[
            0,
            self.ask.reading.saturating_sub(window.behind),
            self.ask.reading.saturating_add(window.ahead + 1),
        ]);
        let (bucket, ring) = (windows.bucket_of(stamp), windows.ring());
        let (at, width, _) = self.layout();
        let number = random.below(3) * ring + bucket % ring;
        let generation = &mut self.words[at + HEADING + number as usize * width..][..width];
        if let Some(slot) = generation[HEAD..].iter().find(|slot| **slot != 0) {
            self.ask.fingerprint = *slot;
            generation[3] = bucket;
        }
    }

    pub fn windows(&self) -> Windows {
        self.settings.windows[self.ask.register as usize]
    }

    /// The deliverer's window.
    pub fn window(&self) -> Window {
        match self.ask.kind {
            0 => self.windows().origin,
            _ => self.windows().copy,
        }
    }

    /// Whether the register judges.
    pub fn judges(&self) -> bool {
        let (at, _, _) = self.layout();
        self.words[at + 10] == 0 && self.ask.flag == 1
    }

    fn layout(&self) -> (usize, usize, usize) {
        Layout::of(&self.settings).registers[self.ask.register as usize]
    }

    /// The generations of the three classes, whether they hold anything or not.
    pub fn generations(&self) -> impl Iterator<Item = &[u64]> {
        let (at, width, ring) = self.layout();
        self.words[at + HEADING..].chunks(width).take(3 * ring)
    }

    /// The stamp that is told for a verdict.
    pub fn told(&self, wanted: Verdict) -> Option<u64> {
        let ask = &self.ask;
        let (found, stamp) = raw::stamp_for(
            &settings_words(&self.settings),
            &self.words,
            ask.register,
            ask.fingerprint,
            ask.reading,
            ask.flag,
            ask.kind,
            ask.number,
            wanted as u64,
        )
        .expect("sound words");
        (found == 1).then_some(stamp)
    }
}

/// Takes on a copy of the words.
pub struct Takes<'a> {
    question: &'a Question,
    settings: [u64; raw::SETTINGS],
    copy: Vec<u64>,
}

impl<'a> Takes<'a> {
    pub fn of(question: &'a Question) -> Self {
        Self {
            question,
            settings: settings_words(&question.settings),
            copy: question.words.clone(),
        }
    }

    /// On a fresh copy.
    pub fn verdict(&mut self, stamp: u64) -> Verdict {
        self.copy.copy_from_slice(&self.question.words);
        self.next(stamp)
    }

    /// On what the take before it left.
    pub fn next(&mut self, stamp: u64) -> Verdict {
        let ask = Ask {
            stamp,
            ..self.question.ask
        };
        let said = raw::ask(raw::take_batch, &self.settings, &mut self.copy, &ask);
        Verdict::ALL[said.expect("sound words") as usize]
    }

    /// The floor that a sweep at the reading leaves.
    pub fn floor(&mut self) -> Option<u64> {
        self.copy.copy_from_slice(&self.question.words);
        let Ask {
            register, reading, ..
        } = self.question.ask;
        raw::sweep(&self.settings, &mut self.copy, register, reading).expect("sound words");
        let floor = raw::floor(&self.settings, &self.copy, register);
        let (present, floor) = floor.expect("sound words");
        (present == 1).then_some(floor)
    }
}

fn small_windows(random: &mut Random) -> Windows {
    let span = |random: &mut Random| match random.below(4) {
        0 => 0,
        _ => random.below(41),
    };
    let window = |random: &mut Random| Window {
        behind: span(random),
        ahead: span(random),
    };
    Windows {
        origin: window(random),
        copy: window(random),
        bucket: random.between(1, 9),
        slots: random.pick(&[2, 4, 8]),
    }
}

/// Of few slots, so that a take is quick.
fn large_windows(random: &mut Random) -> Windows {
    loop {
        let span = |random: &mut Random| random.below(3_600_001);
        let windows = Windows {
            origin: Window {
                behind: span(random),
                ahead: span(random),
            },
            copy: Window {
                behind: span(random),
                ahead: span(random),
            },
            bucket: random.between(1, 60_000),
            slots: random.pick(&[2, 4, 16]),
        };
        if windows.fit() {
            return windows;
        }
    }
}
