//! The smallest stamp for a verdict, beside one take.

use std::cell::RefCell;
use std::fmt::Write;
use std::hint::black_box;

use calls::Verdict;
use strikes::raw;

use crate::both::{self, Ours};
use crate::measure::{Measures, short};
use crate::settings::{Fill, Size};

/// The stamps that are tried at most: the bound of include/strikes.h.
fn most_tried(ring: u64) -> u64 {
    7 * ring + 4
}

/// `stamp_for` of each verdict, and a `take_batch` that is not New, so that it can be repeated. Where there is no stamp all of them are
/// tried.
pub fn table(size: &Size, fill: Fill, runs: usize) -> String {
    let settings = size.settings();
    let dump = both::dump(&settings, fill, 1);
    let mut ours = both::ours(&settings, dump.as_deref());
    let ask = both::ask(&both::ticket(&settings, 0));
    let take = |ours: &mut Ours| {
        let taken = raw::ask(raw::take_batch, &ours.settings, &mut ours.words, &ask);
        black_box(taken).expect("sound words")
    };
    // From its second time on it is held, or else it has no slot.
    take(&mut ours);
    let stamp_for = |ours: &Ours, wanted: Verdict| {
        let told = raw::stamp_for(
            &ours.settings,
            &ours.words,
            ask.register,
            ask.fingerprint,
            ask.reading,
            ask.flag,
            ask.kind,
            ask.number,
            wanted as u64,
        );
        black_box(told).expect("sound words")
    };
    let told = Verdict::ALL.map(|wanted| stamp_for(&ours, wanted));
    // All on the same words, which no other then drives out of the caches.
    let ours = RefCell::new(ours);
    let mut measures = Measures::default();
    measures.add("floor", || {
        let ours = ours.borrow();
        black_box(raw::floor(&ours.settings, &ours.words, 0)).expect("sound words");
    });
    measures.add("take_batch", || {
        take(&mut ours.borrow_mut());
    });
    for wanted in Verdict::ALL {
        let ours = &ours;
        measures.add(NAMES[wanted as usize], move || {
            stamp_for(&ours.borrow(), wanted);
        });
    }
    measures.run(runs);
    let tries = most_tried(settings.windows[0].ring());
    let mut out = format!("\n| `stamp_for`, with {tries} stamps tried at most | smallest stamp | ");
    out += "ns | less `floor` ns | for each of them ns | to one `take_batch` |\n";
    out += "|---|---:|---:|---:|---:|---:|\n";
    for (name, (found, stamp)) in NAMES.iter().zip(told) {
        let told = match found {
            1 => stamp.to_string(),
            _ => "none".into(),
        };
        let figures = measures.of(name);
        let less = figures.minus(measures.of("floor"));
        let _ = writeln!(
            out,
            "| {name} | {told} | {} | {} | {} | {} |",
            short(figures.median()),
            less.spread_or_noise(),
            less.by(tries as f64).spread_or_noise(),
            figures.to(measures.of("take_batch")).spread(),
        );
    }
    out
}

/// By the verdicts' numbers.
const NAMES: [&str; 6] = ["new", "duplicate", "late", "ahead", "full", "unjudged"];
