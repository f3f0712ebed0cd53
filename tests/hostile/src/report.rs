//! An input that went wrong, cut down to the smallest and printed as a list of calls (docs/CALLS.md).

use std::ops::Range;

use calls::bytes::Hex;
use soundness::settings_of;
use strikes::raw;

use crate::guard::Against;
use crate::input::{Entry, Input, Numbers};
use crate::judge::judge;
use crate::lent::Lent;
use scenes::{HEADING, Layout};

/// Makes every part, and then every word, that plays no part what an opening would make it.
pub fn cut(lent: &mut Lent, input: &Input, against: Against) -> Input {
    let mut small = input.clone();
    let opened = opened(input);
    if opened.is_empty() || opened.len() > small.words.len() {
        return small;
    }
    for range in parts(input) {
        let before = small.words[range.clone()].to_vec();
        small.words[range.clone()].copy_from_slice(&opened[range.clone()]);
        if judge(lent, &small, against).is_ok() {
            small.words[range].copy_from_slice(&before);
        }
    }
    small
}

/// The parts of the words: classes, registers, generations, places, and then each word.
fn parts(input: &Input) -> Vec<Range<usize>> {
    let Some(settings) = settings_of(&input.settings) else {
        return Vec::new();
    };
    let layout = Layout::of(&settings);
    let mut parts = Vec::new();
    for class in 0..3 {
        parts.push(layout.class_at(class)..layout.class_at(class) + layout.class);
    }
    for (at, width, ring) in &layout.registers {
        let rings = at + HEADING..at + HEADING + 3 * ring * width;
        parts.push(*at..rings.end);
        parts.extend(rings.step_by(*width).map(|at| at..at + width));
    }
    parts.extend((0..layout.needed).map(|at| at..at + 1));
    parts
}

/// The words of an opening with these settings; none where they are unfit.
fn opened(input: &Input) -> Vec<u64> {
    let Ok(needed) = raw::words_needed(&input.settings) else {
        return Vec::new();
    };
    let mut words = vec![0; needed as usize];
    match raw::open(
        &input.settings,
        &[0; raw::LIMITS],
        &[0; raw::STARTS],
        &mut words,
    ) {
        Ok(()) => words,
        Err(_) => Vec::new(),
    }
}

pub fn print(input: &Input) {
    let opened = opened(input);
    if opened.is_empty() {
        println!(
            "# settings {:?}, {} words",
            input.settings,
            input.words.len()
        );
    } else {
        println!("{}", open_line(&input.settings));
    }
    for (at, (word, opened)) in input.words.iter().zip(&opened).enumerate() {
        if word != opened {
            println!("poke {at} {word}");
        }
    }
    if input.words.len() < opened.len() {
        println!("lend {}", input.words.len());
    }
    println!("{}", call_line(input));
}

fn open_line(settings: &[u64]) -> String {
    let mut line = String::from("open");
    for word in &settings[..5] {
        line += &format!(" {word}");
    }
    line += " 0 0 0 0 0";
    for windows in settings[5..].chunks(6).take(settings[0] as usize) {
        line += " ";
        for word in windows {
            line += &format!(" {word}");
        }
        line += " empty";
    }
    line
}

fn call_line(input: &Input) -> String {
    let Input { limits, starts, .. } = input;
    let name = match input.entry {
        Entry::words_needed => return "# words_needed".into(),
        Entry::open => return format!("# open with limits {limits:?} and starts {starts:?}"),
        Entry::resume => return resume_line(input),
        Entry::set_limits => "limits".into(),
        // Its name in a list is that of the table.
        entry => format!("{entry:?}"),
    };
    let parts = arguments(input).into_iter().filter(|part| !part.is_empty());
    parts.fold(name, |line, part| format!("{line} {part}"))
}

fn resume_line(input: &Input) -> String {
    let Numbers {
        register,
        flag,
        floor,
        ..
    } = input.numbers;
    let proven = match flag {
        1 => floor.to_string(),
        _ => "none".into(),
    };
    format!("resume {register} {} {proven}", Hex(&input.bytes))
}

macro_rules! argument {
    ($input:ident, $run:ident: $of:ty) => {
        run($input, stringify!($run))
    };
    ($input:ident, $number:ident) => {
        number($input, stringify!($number), $input.numbers.$number)
    };
}

macro_rules! arguments {
    ($($(#[$doc:meta])* $name:ident($($argument:ident $(: $run:ty)?),*) -> $outs:tt;)*) => {
        /// The arguments of the entry point as a list has them; empty where a list leaves one out.
        fn arguments(input: &Input) -> Vec<String> {
            match input.entry {
                $(Entry::$name => vec![$(argument!(input, $argument $(: $run)?)),*]),*
            }
        }
    };
}

strikes::entries!(arguments);

fn run(input: &Input, name: &str) -> String {
    match name {
        "limits" => {
            let limits: Vec<String> = input.limits.iter().map(u64::to_string).collect();
            limits.join(" ")
        }
        "bytes" => Hex(&input.bytes).to_string(),
        "out" => input.output_length().to_string(),
        _ => String::new(),
    }
}

fn number(input: &Input, name: &str, number: u64) -> String {
    match name {
        "kind" => format!("k:{number}:{}", input.numbers.number),
        // It stands with its kind.
        "number" => String::new(),
        "wanted" => format!("v:{number}"),
        _ => number.to_string(),
    }
}
