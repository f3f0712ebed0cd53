//! What a view of sound words tells, in the words of the request: "given a deliverer, list its pairs of second and count, rising, then its
//! entries; given a register, list in dump sequence each held generation's bucket, oldest stamp, newest stamp and number held".

use calls::Settings;

use crate::{Call, parts};

/// The words of the view that a call asks for: of its register, or else of its deliverer.
pub fn view(settings: &Settings, call: &Call<'_>) -> Option<Vec<u64>> {
    let words = call.words?;
    match call.register {
        Some(number) => Some(of_register(settings, words, number)),
        None => Some(of_deliverer(settings, words, call.deliverer?)),
    }
}

fn of_register(settings: &Settings, words: &[u64], number: u64) -> Vec<u64> {
    let (_, generations) = parts::register(settings, words, number);
    generations
        .flat_map(|(_, generation)| [generation[3], generation[4], generation[2], generation[1]])
        .collect()
}

fn of_deliverer(settings: &Settings, words: &[u64], deliverer: (u64, u64)) -> Vec<u64> {
    match parts::place_of(settings, words, deliverer) {
        Some(place) => [&place[4..4 + 2 * place[3] as usize], &place[2..3]].concat(),
        None => vec![0],
    }
}
