//! The settings that damage starts from: those of generated lists, small ones, and one with many slots.

use calls::{Settings, Window, Windows};
use generator::random::Random;

use scenes::{Held, Scene, with_any_book};

pub fn scene(random: &mut Random) -> Scene {
    let reading = if random.percent(20) {
        random.word()
    } else {
        random.between(0, 1_000_000)
    };
    match random.below(20) {
        0..12 => Scene::called(random),
        12 => Scene::made(crowded_settings(random), reading, Held::Crowded, random),
        _ => Scene::made(small_settings(random), reading, Held::Any, random),
    }
}

fn small_settings(random: &mut Random) -> Settings {
    let registers = random.pick(&[1, 1, 1, 2, 3, 4]);
    let windows = (0..registers).map(|_| small_windows(random)).collect();
    with_any_book(windows, random)
}

/// One register of few generations with many slots.
fn crowded_settings(random: &mut Random) -> Settings {
    let windows = Windows {
        slots: random.pick(&[256, 512]),
        bucket: 60_000,
        ..Windows::default()
    };
    with_any_book(vec![windows], random)
}

fn small_windows(random: &mut Random) -> Windows {
    let bucket = random.pick(&[1, 7, 1_000, 60_000]);
    let span = |random: &mut Random| (bucket * random.below(4)).min(3_600_000);
    Windows {
        origin: Window {
            behind: span(random),
            ahead: span(random),
        },
        copy: Window {
            behind: span(random),
            ahead: span(random),
        },
        bucket,
        slots: random.pick(&[2, 4, 8, 16, 64]),
    }
}
