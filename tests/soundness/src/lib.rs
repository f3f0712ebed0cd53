//! Whether lent words are sound, which refusal a call earns, what a view of them tells, and which rule gives a take's verdict: written from
//! the scope paper ("Who causes which reply", "Settings and soundness", "Judge and take", "Sweep and floor", "Entry shares", "Dump"), the
//! requests for views and reasons and the table of words in docs/ARCHITECTURE.md alone. It shares no line with the register, and is what the
//! register's answers to damaged words are held against.

mod parts;
mod reason;
mod refusal;
mod view;
mod words;

pub use reason::{Ask, Told, batch_verdict, reason};
pub use refusal::{Call, Due, refusal};
pub use view::view;
pub use words::{Broken, broken, sound};

use calls::{Settings, Window, Windows};

/// The words of the settings that come with a call.
pub const SETTINGS: usize = 29;

/// The settings that 29 words name; none where they are of another number or out of bounds. Of registers not below R nothing is read.
pub fn settings_of(words: &[u64]) -> Option<Settings> {
    if words.len() != SETTINGS || !Settings::REGISTERS.contains(&words[0]) {
        return None;
    }
    let windows = words[5..]
        .chunks(6)
        .take(words[0] as usize)
        .map(windows_of)
        .collect();
    let settings = Settings {
        registers: words[0],
        places: words[1],
        pairs: words[2],
        feeder_units: words[3],
        peer_units: words[4],
        limits: calls::Limits::default(),
        windows,
    };
    settings.fit().then_some(settings)
}

fn windows_of(words: &[u64]) -> Windows {
    Windows {
        origin: Window {
            behind: words[0],
            ahead: words[1],
        },
        copy: Window {
            behind: words[2],
            ahead: words[3],
        },
        bucket: words[4],
        slots: words[5],
    }
}

#[cfg(test)]
mod tests;
