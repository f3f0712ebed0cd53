//! Words that a host has kept in a file, as little-endian bytes.

use std::process::ExitCode;

use strikes::words::{self, View};

use crate::list::left_by_list;

/// The words of a file, or the status to end with.
pub fn read(file: &str) -> Result<Vec<u64>, ExitCode> {
    let bytes = std::fs::read(file).map_err(|why| failed(&format!("{file}: {why}"), 2))?;
    let (words, _) = bytes.as_chunks::<8>();
    Ok(words.iter().map(|word| u64::from_le_bytes(*word)).collect())
}

/// What the words hold, or the status to end with.
pub fn view(words: &[u64]) -> Result<View, ExitCode> {
    words::view(words).ok_or_else(|| failed("these are no words of a gateway", 1))
}

/// Runs the list on the standard input and keeps the words that it leaves.
pub fn of_list(file: &str) -> ExitCode {
    left_by_list(|product| {
        let words = product.words().iter();
        let bytes: Vec<u8> = words.flat_map(|word| word.to_le_bytes()).collect();
        match std::fs::write(file, bytes) {
            Ok(()) => ExitCode::SUCCESS,
            Err(why) => failed(&format!("{file}: {why}"), 2),
        }
    })
}

/// Says why, and has the status to end with.
pub fn failed(why: &str, status: u8) -> ExitCode {
    eprintln!("strikes: {why}");
    ExitCode::from(status)
}
