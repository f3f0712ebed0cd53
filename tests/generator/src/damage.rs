//! Damage done to a good dump: cuts and altered words.
//!
//! No altered word is a length at which the Rust breaks off.

use crate::dump::OVERFLOWING;
use crate::random::Random;

/// What may stand in place of a word.
fn instead(word: u64, random: &mut Random) -> u64 {
    match random.below(9) {
        0 => 0,
        1 => 1,
        2 => word.wrapping_add(1),
        3 => word.wrapping_sub(1),
        4 => word ^ (1 << random.below(64)),
        5 => u64::MAX,
        6 => 1 << 61,
        7 => (1 << 61) - 4,
        _ => random.below(300),
    }
}

/// The dump with the word at `at` (counted in words) altered.
pub fn altered(bytes: &[u8], at: usize, random: &mut Random) -> Vec<u8> {
    let mut out = bytes.to_vec();
    let Some(field) = out.get_mut(at * 8..at * 8 + 8) else {
        return out;
    };
    let word = u64::from_le_bytes(field.try_into().expect("eight bytes"));
    let mut new = instead(word, random);
    while OVERFLOWING.contains(&new) {
        new = instead(word, random);
    }
    field.copy_from_slice(&new.to_le_bytes());
    out
}

/// The dump altered in each of its words in turn.
pub fn every_field(bytes: &[u8], random: &mut Random) -> Vec<Vec<u8>> {
    (0..bytes.len() / 8)
        .map(|at| altered(bytes, at, random))
        .collect()
}

/// The dump cut at each of its lengths.
pub fn every_cut(bytes: &[u8]) -> Vec<Vec<u8>> {
    (0..=bytes.len())
        .map(|length| bytes[..length].to_vec())
        .collect()
}
