//! The tables for one size and fill.

use std::cell::RefCell;
use std::fmt::Write;
use std::hint::black_box;

use calls::call::Ticket;
use calls::{Form, Look, Who};
use strikes::raw;

use crate::book::Book;
use crate::both::{self, Ours, READING};
use crate::measure::{FEW_TIMES, Figures, Measures, nanoseconds, short};
use crate::settings::{Fill, Size};
use crate::stamps;

/// The tickets that are judged in turn, too many for a processor to know what becomes of them.
const TICKETS: u64 = 131_072;

/// The contents that are gone through in turn, so that no branch predictor knows them by heart.
const CONTENTS: u64 = 8;

pub fn of(size: &Size, fill: Fill, runs: usize) -> String {
    let settings = size.settings();
    let needed = settings.words();
    // Of so many words no predictor knows anything by heart.
    let contents = if needed > 1_000_000 { 2 } else { CONTENTS };
    let same = soundness(size, fill, 1, runs);
    let turns = soundness(size, fill, contents, runs);
    let mut out = format!("\n### {}, {}: {needed} words\n\n", size.name, fill.name());
    out += "| soundness test | the same words over and over, ns | ";
    let _ = writeln!(out, "{contents} contents in turn, ns |\n|---|---:|---:|");
    let mut row = |name: &str, of: &dyn Fn(&Named) -> Figures| {
        let _ = writeln!(
            out,
            "| {name} | {} | {} |",
            of(&same).spread(),
            of(&turns).spread()
        );
    };
    row("plain read of the words (their sum)", &|read| {
        read.of("sum").clone()
    });
    row("the test in Rust", &|read| read.of("test").clone());
    row(
        "`floor`, which is the register's test and little else",
        &|read| read.of("floor").clone(),
    );
    row("`judge`", &|read| read.of("judge").clone());
    row("**`floor` to the test in Rust**", &|read| {
        read.of("floor").to(read.of("test"))
    });
    row("`floor` to the plain read", &|read| {
        read.of("floor").to(read.of("sum"))
    });
    row("**`judge` to the plain read**", &|read| {
        read.of("judge").to(read.of("sum"))
    });
    let dump = both::dump(&settings, fill, 1);
    out += &calls(size, fill, dump.as_deref(), runs);
    out += &stamps::table(size, fill, runs);
    out
}

/// A plain read.
#[inline(never)]
fn sum(words: &[u64]) -> u64 {
    words.iter().fold(0, |sum, word| sum.wrapping_add(*word))
}

/// The register's soundness test beside a plain read and the same test in Rust.
fn soundness(size: &Size, fill: Fill, contents: u64, runs: usize) -> Named {
    let settings = size.settings();
    let all: Vec<Ours> = (1..=contents)
        .map(|seed| both::ours(&settings, both::dump(&settings, fill, seed).as_deref()))
        .collect();
    let ask = both::ask(&both::ticket(&settings, 0));
    let next = |at: &mut usize| {
        *at = (*at + 1) % all.len();
        &all[*at]
    };
    let mut judged: Vec<Vec<u64>> = all.iter().map(|ours| ours.words.clone()).collect();
    let [mut a, mut b, mut c, mut d] = [0; 4];
    let mut measures = Measures::default();
    measures.add("sum", || {
        black_box(sum(black_box(&next(&mut a).words)));
    });
    measures.add("test", || {
        black_box(soundness::sound(
            black_box(&settings),
            black_box(&next(&mut b).words),
        ));
    });
    measures.add("floor", || look(next(&mut c)));
    measures.add("judge", || {
        d = (d + 1) % judged.len();
        let kept = &all[0].settings;
        black_box(raw::ask(raw::judge, kept, &mut judged[d], black_box(&ask)))
            .expect("sound words");
    });
    measures.run(runs);
    Named(
        measures
            .0
            .iter()
            .map(|measure| (measure.name, measure.figures.clone()))
            .collect(),
    )
}

/// Figures by name, without what was timed.
struct Named(Vec<(&'static str, Figures)>);

impl Named {
    fn of(&self, name: &str) -> &Figures {
        &self
            .0
            .iter()
            .find(|(found, _)| *found == name)
            .expect("a measure")
            .1
    }
}

/// A call: its figures on the register, those of `floor` on the same words in the same runs, those of the Rust, and those of `floor`
/// and the Rust's call one after the other.
struct Compared {
    name: &'static str,
    ours: Figures,
    floor: Figures,
    rust: Figures,
    both: Figures,
}

/// Each call on both. What a call costs beyond its soundness test is its time less that of `floor`; and it is no slower than the Rust's
/// beyond that where it takes no longer than `floor` and the Rust's call one after the other. The two differ: a call whose branches
/// nobody can foresee makes the soundness test after it slower.
fn calls(size: &Size, fill: Fill, dump: Option<&[u8]>, runs: usize) -> String {
    let mut out = String::from(
        "\n| call | register ns | less `floor` ns | Rust ns | (call less `floor`) to Rust | call to Rust | call less (`floor`, then Rust) ns |\n",
    );
    out += "|---|---:|---:|---:|---:|---:|---:|\n";
    for Compared {
        name,
        ours,
        floor,
        rust,
        both,
    } in pairs(size, fill, dump, runs)
    {
        let less = ours.minus(&floor);
        let _ = writeln!(
            out,
            "| {name} | {} | {} | {} | {} | {} | {} |",
            short(ours.median()),
            less.spread_or_noise(),
            short(rust.median()),
            less.to(&rust).spread_or_noise(),
            short(ours.to(&rust).median()),
            ours.minus(&both).spread()
        );
    }
    out
}

fn pairs(size: &Size, fill: Fill, dump: Option<&[u8]>, runs: usize) -> Vec<Compared> {
    let mut all = Vec::new();
    // The tickets are made before, and gone through in turn.
    let tickets: Vec<_> = (0..TICKETS)
        .map(|number| both::ticket(&size.settings(), number))
        .collect();
    let of = |number: u64| &tickets[(number % TICKETS) as usize];
    for (name, form, flag) in [
        ("judge", Form::Judge, 1),
        ("judge_batch", Form::JudgeBatch, 1),
        ("judge, the clock not synchronised", Form::Judge, 0),
    ] {
        all.push(repeated(
            name,
            size,
            dump,
            runs,
            |ours, number, _| {
                let ask = raw::Ask {
                    flag,
                    ..both::ask(of(number))
                };
                black_box(raw::ask(
                    machine::manner(form),
                    &ours.settings,
                    &mut ours.words,
                    &ask,
                ))
                .expect("sound words");
            },
            |book, number, _| {
                let ticket = Ticket {
                    flag,
                    ..*of(number)
                };
                black_box(book.ask(form, &ticket, Who::Feeder(1)));
            },
        ));
    }
    all.push(taken("take", Form::Take, size, dump, runs));
    all.push(taken("take_batch", Form::TakeBatch, size, dump, runs));
    // The Rust names no rules. Its judge goes the same way, up to the share.
    all.push(repeated(
        "explain (the Rust's judge)",
        size,
        dump,
        runs,
        |ours, number, _| {
            let ask = both::ask(of(number));
            black_box(raw::explain(
                &ours.settings,
                &ours.words,
                ask.register,
                ask.fingerprint,
                ask.stamp,
                ask.reading,
                ask.flag,
                ask.kind,
                ask.number,
            ))
            .expect("sound words");
        },
        |book, number, _| {
            black_box(book.ask(Form::Judge, of(number), Who::Feeder(1)));
        },
    ));
    all.push(repeated(
        "contains_hash",
        size,
        dump,
        runs,
        |ours, number, _| {
            black_box(raw::contains_hash(&ours.settings, &ours.words, 0, number))
                .expect("sound words");
        },
        |book, number, _| {
            black_box(book.look(&Look::ContainsHash {
                register: 0,
                fingerprint: number,
            }));
        },
    ));
    all.push(repeated(
        "sweep",
        size,
        dump,
        runs,
        |ours, _, _| raw::sweep(&ours.settings, &mut ours.words, 0, READING).expect("sound words"),
        |book, _, _| {
            black_box(book.sweep(0, READING));
        },
    ));
    all.push(repeated(
        "expire",
        size,
        dump,
        runs,
        |ours, _, _| raw::expire(&ours.settings, &mut ours.words, READING).expect("sound words"),
        |book, _, _| {
            black_box(book.expire(READING));
        },
    ));
    all.push(repeated(
        "class",
        size,
        dump,
        runs,
        |ours, _, _| {
            black_box(raw::class(&ours.settings, &ours.words, 0)).expect("sound words");
        },
        |book, _, _| {
            black_box(book.look(&Look::Class { class: 0 }));
        },
    ));
    let mut output = vec![0; 8 * size.settings().words() as usize];
    all.push(repeated(
        "dump",
        size,
        dump,
        runs,
        move |ours, _, _| {
            black_box(raw::dump(&ours.settings, &ours.words, 0, &mut output)).expect("room enough");
        },
        |book, _, _| {
            black_box(book.dump(0)).expect("not pending");
        },
    ));
    let mut view = vec![0; raw::REGISTER_VIEW];
    all.push(repeated(
        "view_register",
        size,
        dump,
        runs,
        move |ours, _, _| {
            black_box(raw::view_register(
                &ours.settings,
                &ours.words,
                0,
                &mut view,
            ))
            .expect("room enough");
        },
        |book, _, _| {
            black_box(book.look(&Look::ViewRegister {
                register: 0,
                length: None,
            }));
        },
    ));
    if let Some(dump) = dump.filter(|_| fill == Fill::Full) {
        let (fresh, held) = (
            "restore of the longest dump",
            "restore of the longest dump, held already",
        );
        all.push(restored(fresh, size, None, dump, runs));
        all.push(restored(held, size, Some(dump), dump, runs));
    }
    all
}

/// A call that can be repeated on the same words.
fn repeated(
    name: &'static str,
    size: &Size,
    dump: Option<&[u8]>,
    runs: usize,
    mut ours: impl FnMut(&mut Ours, u64, &calls::Settings),
    mut theirs: impl FnMut(&mut Book, u64, &calls::Settings),
) -> Compared {
    let settings = size.settings();
    let (mut register, mut book) = (both::ours(&settings, dump), both::rust(&settings, dump));
    let other = both::ours(&settings, dump);
    let book = RefCell::new(&mut book);
    let theirs = RefCell::new(&mut theirs);
    let (mut a, mut b, mut c) = (0, 0, 0);
    let mut measures = Measures::default();
    measures.add("floor", || look(&other));
    measures.add("ours", || {
        a += 1;
        ours(&mut register, a, &settings);
    });
    measures.add("rust", || {
        b += 1;
        theirs.borrow_mut()(&mut book.borrow_mut(), b, &settings);
    });
    measures.add("both", || {
        c += 1;
        look(&other);
        theirs.borrow_mut()(&mut book.borrow_mut(), c, &settings);
    });
    measures.run(runs);
    Compared {
        name,
        ours: measures.of("ours").clone(),
        floor: measures.of("floor").clone(),
        rust: measures.of("rust").clone(),
        both: measures.of("both").clone(),
    }
}

/// The reader that does little beside its soundness test.
fn look(ours: &Ours) {
    black_box(raw::floor(&ours.settings, black_box(&ours.words), 0)).expect("sound words");
}

/// The tickets of a stretch of takes: all are New in an empty register, and all Full in a full one.
const STRETCH: u64 = 48;

/// Takes alter what they are timed on, so each stretch of them starts anew, and `floor` is timed before and after it.
fn taken(
    name: &'static str,
    form: Form,
    size: &Size,
    dump: Option<&[u8]>,
    runs: usize,
) -> Compared {
    let settings = size.settings();
    let fresh = both::ours(&settings, dump);
    let mut register = both::ours(&settings, dump);
    let tickets: Vec<_> = (0..STRETCH)
        .map(|number| both::ticket(&settings, number))
        .collect();
    let stretches = if settings.words() > 100_000 { 2 } else { 64 };
    let mut stretch = || {
        register.words.copy_from_slice(&fresh.words);
        let before = nanoseconds(STRETCH, || look(&register));
        let mut next = tickets.iter();
        let ours = nanoseconds(STRETCH, || {
            let ask = both::ask(next.next().expect("as many"));
            black_box(raw::ask(
                machine::manner(form),
                &register.settings,
                &mut register.words,
                &ask,
            ))
            .expect("sound words");
        });
        let after = nanoseconds(STRETCH, || look(&register));
        let mut book = both::rust(&settings, dump);
        let mut next = tickets.iter();
        let rust = nanoseconds(STRETCH, || {
            let ticket = next.next().expect("as many");
            black_box(book.ask(form, ticket, ticket.who));
        });
        let mut book = both::rust(&settings, dump);
        let mut next = tickets.iter();
        let both = nanoseconds(STRETCH, || {
            look(&register);
            let ticket = next.next().expect("as many");
            black_box(book.ask(form, ticket, ticket.who));
        });
        [ours, (before + after) / 2.0, rust, both]
    };
    least_of(name, runs, stretches, &mut stretch)
}

/// The longest dump into registers that hold nothing, or what another dump brought.
fn restored(
    name: &'static str,
    size: &Size,
    held: Option<&[u8]>,
    dump: &[u8],
    runs: usize,
) -> Compared {
    let settings = size.settings();
    let fresh = both::ours(&settings, held);
    let mut register = both::ours(&settings, held);
    let mut once = || {
        register.words.copy_from_slice(&fresh.words);
        let floor = nanoseconds(1, || look(&register));
        let ours = nanoseconds(1, || {
            black_box(raw::restore(
                &register.settings,
                &mut register.words,
                0,
                dump,
            ))
            .expect("a whole dump");
        });
        let mut book = both::rust(&settings, held);
        let rust = nanoseconds(1, || {
            black_box(book.restore(0, dump));
        });
        [ours, floor, rust, floor + rust]
    };
    least_of(name, runs, FEW_TIMES, &mut once)
}

/// In each run the least of so many times of the register's, of `floor`, of the Rust's and of both.
fn least_of(
    name: &'static str,
    runs: usize,
    times: usize,
    once: &mut impl FnMut() -> [f64; 4],
) -> Compared {
    let mut compared = Compared {
        name,
        ours: Figures::default(),
        floor: Figures::default(),
        rust: Figures::default(),
        both: Figures::default(),
    };
    for _ in 0..runs {
        let all: Vec<[f64; 4]> = (0..times).map(|_| once()).collect();
        let least = |of: usize| all.iter().map(|one| one[of]).fold(f64::MAX, f64::min);
        compared.ours.0.push(least(0));
        compared.floor.0.push(least(1));
        compared.rust.0.push(least(2));
        compared.both.0.push(least(3));
    }
    compared
}
