//! Which refusal a call earns, from its arguments and the lent words: "Tried in the order 1, 2, 3, 4, 6, 5, 7", and 8 "tried after 4".

use calls::{Limits, Settings};

use crate::view::view;
use crate::words::broken;
use crate::{Broken, parts, settings_of};

/// What of a call's arguments, beside the settings, can earn a refusal. What it does not take is None.
#[derive(Clone, Copy, Debug, Default)]
pub struct Call<'a> {
    pub words: Option<&'a [u64]>,
    pub limits: Option<&'a [u64]>,
    /// An opening alone takes them.
    pub starts: Option<&'a [u64]>,
    pub register: Option<u64>,
    pub flag: Option<u64>,
    /// A kind and a number.
    pub deliverer: Option<(u64, u64)>,
    /// The number of a verdict.
    pub wanted: Option<u64>,
    pub class: Option<u64>,
    /// A dump to be read.
    pub bytes: Option<&'a [u8]>,
    /// The bytes of an output for a dump.
    pub out: Option<usize>,
    /// The words of an output for a view.
    pub view: Option<usize>,
}

/// What refuses a call, with the rule that the words break.
#[derive(Clone, Copy, Debug, PartialEq, Eq)]
pub enum Due {
    No,
    Number(u64),
    Unsound(Broken),
}

impl Due {
    pub fn number(self) -> u64 {
        match self {
            Self::No => 0,
            Self::Number(number) => number,
            Self::Unsound(_) => 3,
        }
    }
}

/// The refusal that is due, or none.
pub fn refusal(settings: &[u64], call: &Call<'_>) -> Due {
    let Some(settings) = settings_of(settings).filter(|settings| fits(settings, call)) else {
        return Due::Number(1);
    };
    let Some(words) = call.words else {
        return Due::No;
    };
    if (words.len() as u64) < settings.words() {
        return Due::Number(2);
    }
    // An opening overwrites the words, whatever they hold.
    if call.starts.is_some() {
        return Due::No;
    }
    if let Some(rule) = broken(&settings, words) {
        return Due::Unsound(rule);
    }
    on_sound(&settings, words, call).map_or(Due::No, Due::Number)
}

/// Of a call whose words are sound.
fn on_sound(settings: &Settings, words: &[u64], call: &Call<'_>) -> Option<u64> {
    if call
        .register
        .is_some_and(|register| register >= settings.registers)
    {
        return Some(4);
    }
    if let Some(length) = call.view {
        let view = view(settings, call)?;
        return (length < view.len()).then_some(8);
    }
    if let (Some(out), Some(register)) = (call.out, call.register) {
        return dump_refusal(settings, words, register, out);
    }
    let cut = |bytes: &[u8]| length_of(bytes).is_none();
    call.bytes.is_some_and(cut).then_some(7)
}

/// Whether its codes are listed and its numbers within their bounds.
fn fits(settings: &Settings, call: &Call<'_>) -> bool {
    call.limits.is_none_or(limits_fit)
        && call
            .starts
            .is_none_or(|starts| starts_fit(settings, starts))
        && call.flag.is_none_or(|flag| flag <= 1)
        && call.deliverer.is_none_or(deliverer_fits)
        && call.wanted.is_none_or(|wanted| wanted <= 5)
        && call.class.is_none_or(|class| class <= 2)
}

fn limits_fit(limits: &[u64]) -> bool {
    limits.len() == 5 && limits.iter().all(|limit| *limit <= Limits::MOST)
}

/// Of registers not below R the starts are not read.
fn starts_fit(settings: &Settings, starts: &[u64]) -> bool {
    starts.len() == 8
        && starts
            .chunks(2)
            .take(settings.registers as usize)
            .all(|start| start[0] <= 2)
}

/// Feeder 0, Peer 1, Relay 2 with any number, Restored 3 with a class.
fn deliverer_fits((kind, number): (u64, u64)) -> bool {
    kind <= 2 || kind == 3 && number <= 2
}

/// 6 for a register that is pending, 5 for an output shorter than its dump.
fn dump_refusal(settings: &Settings, words: &[u64], register: u64, out: usize) -> Option<u64> {
    let (heading, generations) = parts::register(settings, words, register);
    if heading[10] == 1 {
        return Some(6);
    }
    // A floor, a count for each class, and of each held generation its bucket, newest, length and fingerprints.
    let listed: u64 = generations.map(|(_, generation)| 3 + generation[1]).sum();
    ((out as u64) < 8 * (4 + listed)).then_some(5)
}

/// The bytes that a dump takes of `bytes`; none where it is cut short. Reckoned in 128 bits.
fn length_of(bytes: &[u8]) -> Option<usize> {
    let mut at = 8u128;
    word(bytes, 0)?;
    for _ in 0..3 {
        let count = word(bytes, at)?;
        at += 8;
        for _ in 0..count {
            let length = word(bytes, at + 16)?;
            at += 24 + 8 * u128::from(length);
            if at > bytes.len() as u128 {
                return None;
            }
        }
    }
    Some(at as usize)
}

fn word(bytes: &[u8], at: u128) -> Option<u64> {
    let at = usize::try_from(at).ok()?;
    let chunk = bytes.get(at..at.checked_add(8)?)?;
    Some(u64::from_le_bytes(chunk.try_into().ok()?))
}
