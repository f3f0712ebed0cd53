//! How the cost of a call grows: with the words lent, and not with the calls made. As a picture.

use std::fmt::Write;

use calls::{Limits, Settings, Window, Windows};
use generator::random::Random;
use strikes::raw;

use crate::both::{self, Ours, READING};
use crate::measure::{nanoseconds, repeats};
use crate::settings::Fill;

/// One register, and a book of one place in each class, which is what restored tickets need, or of four.
fn settings(ring: u64, slots: u64, places: u64, pairs: u64) -> Settings {
    let window = Window {
        behind: 1_000 * (ring - 2),
        ahead: 0,
    };
    Settings {
        registers: 1,
        places,
        pairs,
        feeder_units: 0,
        peer_units: 0,
        limits: Limits::of([Limits::MOST; 5]),
        windows: vec![Windows {
            origin: window,
            copy: window,
            bucket: 1_000,
            slots,
        }],
    }
}

/// Of so many words together a processor knows no branch by heart.
const UNKNOWN: u64 = 400_000;

/// The times of a judge.
struct Judged {
    slots: u64,
    words: u64,
    empty: f64,
    /// The same words over and over.
    full: f64,
    /// Several contents in turn, `UNKNOWN` words of them together or more.
    turns: f64,
    /// Fingerprints for which probing starts at one slot.
    alike: f64,
    /// Fingerprints that lie as far on as the soundness test follows probing, and one further.
    distant: f64,
}

/// The least time of a judge over five measures, on contents that take turns.
fn judge(settings: &Settings, fill: Fill, contents: u64) -> f64 {
    let mut all: Vec<Ours> = (1..=contents)
        .map(|seed| both::ours(settings, both::dump(settings, fill, seed).as_deref()))
        .collect();
    let ask = both::ask(&both::ticket(settings, 1));
    let mut at = 0;
    let mut judge = || {
        at = (at + 1) % all.len();
        let ours = &mut all[at];
        raw::ask(raw::judge, &ours.settings, &mut ours.words, &ask).expect("sound words");
    };
    let times = repeats(&mut judge).max(contents);
    (0..5)
        .map(|_| nanoseconds(times, &mut judge))
        .fold(f64::MAX, f64::min)
}

/// The times of a judge by the words lent.
fn by_words() -> Vec<Judged> {
    let sizes = [
        (4, 8),
        (16, 8),
        (16, 32),
        (64, 32),
        (64, 64),
        (128, 128),
        (256, 128),
        (256, 256),
        (256, 512),
        (256, 1_024),
    ];
    sizes
        .iter()
        .map(|(ring, slots)| {
            // A full ring's buckets end in seconds of their own.
            let settings = settings(*ring, *slots, 1, *ring);
            let words = settings.words();
            Judged {
                slots: *slots,
                words,
                empty: judge(&settings, Fill::Empty, 1),
                full: judge(&settings, Fill::Full, 1),
                turns: judge(&settings, Fill::Full, 2.max(UNKNOWN / words)),
                alike: judge(&settings, Fill::Alike, 1),
                distant: judge(&settings, Fill::Distant, 1),
            }
        })
        .collect()
}

/// Of so many fillings of three quarters of 1,024 slots with hashes, those in which a fingerprint lies further on than the soundness
/// test follows probing.
fn beyond(fillings: u64) -> usize {
    const SLOTS: usize = 1_024;
    let mut random = Random::new(1);
    let mut furthest = || {
        let mut held = [false; SLOTS];
        (0..3 * SLOTS / 4)
            .map(|_| {
                let first = random.word() as usize % SLOTS;
                let passed = (0..SLOTS).take_while(|step| held[(first + step) % SLOTS]);
                let passed = passed.count();
                held[(first + passed) % SLOTS] = true;
                passed as u64
            })
            .max()
    };
    (0..fillings)
        .filter(|_| furthest() >= Some(both::NEAR))
        .count()
}

/// The time of a take, over a million of them with the clock going on.
fn by_calls() -> Vec<(u64, f64)> {
    const PART: u64 = 20_000;
    let settings = settings(64, 64, 4, 256);
    let mut ours = both::ours(&settings, None);
    let mut number = 0;
    (0..50)
        .map(|part| {
            let one = nanoseconds(PART, || {
                number += 1;
                let reading = READING + 40 * number;
                let ask = raw::Ask {
                    reading,
                    stamp: reading,
                    fingerprint: number,
                    ..both::ask(&both::ticket(&settings, 0))
                };
                raw::ask(raw::take, &ours.settings, &mut ours.words, &ask).expect("sound words");
                if number % 25 == 0 {
                    raw::expire(&ours.settings, &mut ours.words, reading).expect("sound words");
                }
            });
            (PART * (part + 1), one)
        })
        .collect()
}

/// What was measured.
pub struct Growth {
    words: Vec<Judged>,
    calls: Vec<(u64, f64)>,
}

pub fn measure() -> Growth {
    Growth {
        words: by_words(),
        calls: by_calls(),
    }
}

/// The time of a judge for each word lent.
pub fn table(growth: &Growth) -> String {
    let mut out = String::from(
        "\n### A judge by the words lent, ns for each word\n\n| S | words | empty | full, the same words | full, contents in turn | full, all from one slot | full, as far on as can be |\n|---:|---:|---:|---:|---:|---:|---:|\n",
    );
    for judged in &growth.words {
        let [empty, full, turns, alike, distant] = [
            judged.empty,
            judged.full,
            judged.turns,
            judged.alike,
            judged.distant,
        ]
        .map(|ns| ns / judged.words as f64);
        let _ = writeln!(
            out,
            "| {} | {} | {empty:.2} | {full:.2} | {turns:.2} | {alike:.2} | {distant:.2} |",
            judged.slots, judged.words
        );
    }
    const FILLINGS: u64 = 100_000;
    let _ = writeln!(
        out,
        "\nOf {FILLINGS} fillings of 768 of 1024 slots with hashes, {} have a fingerprint that lies {} slots or more further on than where probing for it starts.",
        beyond(FILLINGS),
        both::NEAR
    );
    out
}

pub fn picture(growth: &Growth) -> String {
    let Growth { words, calls } = growth;
    let mut out = String::from(
        r#"<svg xmlns="http://www.w3.org/2000/svg" width="1000" height="420" font-family="sans-serif" font-size="12"><rect width="1000" height="420" fill="white"/>"#,
    );
    let most = words.last().map_or(1.0, |judged| judged.words as f64);
    let longest = words
        .iter()
        .map(|judged| judged.full.max(judged.turns))
        .fold(1.0, f64::max);
    let x = |words: u64| 80.0 + 380.0 * (words as f64).log10() / most.log10();
    let y = |ns: f64| 360.0 - 300.0 * ns.max(1.0).log10() / longest.log10();
    let _ = writeln!(
        out,
        r#"<text x="80" y="30">a judge by the words lent (both scales logarithmic; grey: 1 ns for each word)</text>"#
    );
    let _ = writeln!(
        out,
        r##"<path d="M{:.1} {:.1}L{:.1} {:.1}" stroke="#bbbbbb" fill="none"/>"##,
        x(100),
        y(100.0),
        x(most as u64),
        y(most)
    );
    type Of = fn(&Judged) -> f64;
    let lines: [(&str, &str, Of); 3] = [
        ("empty", "#3b7dd8", |judged| judged.empty),
        ("full, the same words", "#c03030", |judged| judged.full),
        ("full, contents in turn", "#d08020", |judged| judged.turns),
    ];
    for (row, (name, colour, of)) in lines.into_iter().enumerate() {
        let mut path = String::new();
        for (at, judged) in words.iter().enumerate() {
            let (x, y) = (x(judged.words), y(of(judged)));
            let _ = write!(path, "{}{x:.1} {y:.1}", if at == 0 { 'M' } else { 'L' });
            let _ = writeln!(
                out,
                r#"<circle cx="{x:.1}" cy="{y:.1}" r="3" fill="{colour}"/>"#
            );
        }
        let _ = writeln!(
            out,
            r#"<path d="{path}" stroke="{colour}" fill="none"/><text x="330" y="{}" fill="{colour}">{name}</text>"#,
            300 + 20 * row
        );
    }
    for power in 2..=6 {
        let (words, ns) = (10u64.pow(power), 10f64.powi(power as i32));
        let _ = writeln!(
            out,
            r#"<text x="{:.0}" y="380" text-anchor="middle">10^{power}</text>"#,
            x(words)
        );
        let _ = writeln!(
            out,
            r#"<text x="74" y="{:.0}" text-anchor="end">10^{power} ns</text>"#,
            y(ns) + 4.0
        );
    }
    let top = calls.iter().map(|(_, ns)| *ns).fold(1.0, f64::max) * 1.2;
    let (u, v) = (
        |calls: u64| 560.0 + 400.0 * calls as f64 / 1e6,
        |ns: f64| 360.0 - 300.0 * ns / top,
    );
    let _ = writeln!(
        out,
        r#"<text x="560" y="30">a take by the calls made, a million of them (ring 64, S 64)</text>"#
    );
    let mut path = String::new();
    for (at, (calls, ns)) in calls.iter().enumerate() {
        let _ = write!(
            path,
            "{}{:.1} {:.1}",
            if at == 0 { 'M' } else { 'L' },
            u(*calls),
            v(*ns)
        );
    }
    let _ = writeln!(out, r##"<path d="{path}" stroke="#306030" fill="none"/>"##);
    for part in 0..=4 {
        let ns = top * f64::from(part) / 4.0;
        let _ = writeln!(
            out,
            r#"<text x="554" y="{:.0}" text-anchor="end">{ns:.0} ns</text>"#,
            v(ns) + 4.0
        );
        let _ = writeln!(
            out,
            r#"<text x="{:.0}" y="380" text-anchor="middle">{}</text>"#,
            u(u64::from(part as u32) * 250_000),
            part * 250_000
        );
    }
    out + "</svg>\n"
}
