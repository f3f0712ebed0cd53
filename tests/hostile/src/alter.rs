//! Sound words altered: in one word, in several, in words that belong together so that sums still agree or agree modulo 2^64 alone,
//! and at random.

use generator::random::Random;

use scenes::{FRONT, HEAD, HEADING, Scene, anything};

/// What was done to the words, for the counts.
#[derive(Clone, Copy, Debug, PartialEq, Eq, PartialOrd, Ord, Hash)]
pub enum Altered {
    Not,
    OneWord,
    SeveralWords,
    Together,
    Random,
}

pub fn alter(scene: &Scene, words: &mut [u64], random: &mut Random) -> Altered {
    match random.below(20) {
        0..2 => Altered::Not,
        2..9 => {
            one_word(scene, words, random);
            Altered::OneWord
        }
        9..13 => {
            for _ in 0..random.between(2, 6) {
                one_word(scene, words, random);
            }
            Altered::SeveralWords
        }
        13..18 => {
            together(scene, words, random);
            Altered::Together
        }
        _ => {
            at_random(scene, words, random);
            Altered::Random
        }
    }
}

/// A word, more often one that a rule speaks of.
fn place_of(scene: &Scene, random: &mut Random) -> usize {
    let layout = &scene.layout;
    match random.below(8) {
        0 => random.below(FRONT as u64) as usize,
        1 => layout.class_at(random.below(3) as usize) + random.below(4) as usize,
        2 | 3 => {
            let place = random.below(scene.settings.places) as usize;
            layout.place_at(random.below(3) as usize, place)
                + random.below(layout.place.min(8) as u64) as usize
        }
        4 => random.pick(&layout.registers).0 + random.below(HEADING as u64) as usize,
        5 | 6 => {
            let (at, width, ring) = random.pick(&layout.registers);
            at + HEADING
                + random.below(3 * ring as u64) as usize * width
                + random.below(width as u64) as usize
        }
        _ => random.below(layout.needed as u64) as usize,
    }
}

fn instead(word: u64, words: &[u64], random: &mut Random) -> u64 {
    match random.below(12) {
        0 => 0,
        1 => 1,
        2 | 3 => word.wrapping_add(1),
        4 | 5 => word.wrapping_sub(1),
        6 => word ^ (1 << random.below(64)),
        7 => word.wrapping_add(1 << random.pick(&[32, 61, 62, 63])),
        8 => word.wrapping_mul(2),
        9 => words[random.below(words.len() as u64) as usize],
        10 => random.below(70),
        _ => anything(random),
    }
}

fn one_word(scene: &Scene, words: &mut [u64], random: &mut Random) {
    let at = place_of(scene, random);
    words[at] = instead(words[at], words, random);
}

/// Everything, or a part, exchanged for random words; the kept settings often stay.
fn at_random(scene: &Scene, words: &mut [u64], random: &mut Random) {
    let kept = random.percent(80);
    let sparse = random.percent(50);
    let from = random.below(words.len() as u64) as usize;
    let front = words[..FRONT].to_vec();
    let headings: Vec<Vec<u64>> = scene
        .layout
        .registers
        .iter()
        .map(|(at, _, _)| words[*at..at + 8].to_vec())
        .collect();
    for word in &mut words[from..] {
        *word = if sparse {
            random.below(4)
        } else {
            anything(random)
        };
    }
    if kept {
        words[..FRONT].copy_from_slice(&front);
        for ((at, _, _), heading) in scene.layout.registers.iter().zip(headings) {
            words[*at..at + 8].copy_from_slice(&heading);
        }
    }
}

/// Alterations of words that a rule ties to each other.
fn together(scene: &Scene, words: &mut [u64], random: &mut Random) {
    match random.below(4) {
        0 | 1 => in_a_class(scene, words, random),
        2 => in_a_generation(scene, words, random),
        _ => in_a_register(scene, words, random),
    }
}

/// The used places of a class.
fn used(scene: &Scene, words: &[u64], class: usize) -> usize {
    (0..scene.settings.places as usize)
        .take_while(|place| words[scene.layout.place_at(class, *place) + 3] != 0)
        .count()
}

fn in_a_class(scene: &Scene, words: &mut [u64], random: &mut Random) {
    let layout = &scene.layout;
    let class = random.below(3) as usize;
    let totals = layout.class_at(class);
    let used = used(scene, words, class);
    if used == 0 {
        return one_word(scene, words, random);
    }
    let number = random.below(used as u64) as usize;
    let at = layout.place_at(class, number);
    let pairs = (words[at + 3] as usize).min(scene.settings.pairs as usize);
    let (a, b) = (
        random.below(pairs as u64) as usize,
        random.below(pairs as u64) as usize,
    );
    let (count_a, count_b) = (at + 5 + 2 * a, at + 5 + 2 * b);
    match random.below(12) {
        // Counts whose sum is the same modulo 2^64.
        0 => {
            let by = random.pick(&[1 << 63, 1 << 62, 3 << 62]);
            words[count_a] = words[count_a].wrapping_add(by);
            words[count_b] = words[count_b].wrapping_sub(by);
        }
        // A count with all its sums, which stay true as long as they are within their bounds.
        1 | 2 => {
            let by = random.pick(&[1, 2, 1_000, 2_000_000, 1 << 32, 1 << 63, u64::MAX]);
            for sum in [count_a, at + 2, totals, totals + 2] {
                words[sum] = words[sum].wrapping_add(by);
            }
        }
        // Entries of two places exchanged against each other modulo 2^64.
        3 => {
            let other = layout.place_at(class, random.below(used as u64) as usize);
            let by = random.pick(&[1, 1 << 63]);
            for (word, up) in [
                (count_a, true),
                (at + 2, true),
                (other + 5, false),
                (other + 2, false),
            ] {
                words[word] = if up {
                    words[word].wrapping_add(by)
                } else {
                    words[word].wrapping_sub(by)
                };
            }
        }
        // Two pairs exchanged.
        4 => {
            words.swap(at + 4 + 2 * a, at + 4 + 2 * b);
            words.swap(count_a, count_b);
        }
        // A second moved by one.
        5 => {
            words[at + 4 + 2 * a] = words[at + 4 + 2 * a].wrapping_add(random.pick(&[1, u64::MAX]))
        }
        // Two places exchanged: their order is free.
        6 => {
            let other = layout.place_at(class, random.below(used as u64) as usize);
            for word in 0..layout.place {
                words.swap(at + word, other + word);
            }
        }
        // A place that goes, its sums with it: later ones should have closed up.
        7 => {
            let units = [
                scene.settings.feeder_units,
                scene.settings.peer_units,
                0,
                scene.settings.peer_units,
            ];
            let own = words[at + 2] + units[(words[at] as usize).min(3)];
            words[totals] = words[totals].wrapping_sub(words[at + 2]);
            words[totals + 1] = words[totals + 1].wrapping_sub(1);
            words[totals + 2] = words[totals + 2].wrapping_sub(own);
            words[at..at + layout.place].fill(0);
        }
        // One deliverer in two places.
        8 => {
            let other = layout.place_at(class, random.below(used as u64) as usize);
            let free = words[at] > 1 && random.percent(50);
            words[at] = words[other];
            if !free {
                words[at + 1] = words[other + 1];
            }
        }
        // One pair more or less than the counts say, the rest kept true.
        9 => {
            words[at + 3] = words[at + 3].wrapping_sub(1);
            let last = words[at + 3 + 2 * pairs];
            for sum in [at + 2, totals, totals + 2] {
                words[sum] = words[sum].wrapping_sub(last);
            }
        }
        // Free cells and numbers.
        10 => {
            for cell in at + 4 + 2 * pairs..at + layout.place {
                words[cell] = anything(random);
            }
        }
        // Totals that agree modulo 2^64.
        _ => {
            let by = random.pick(&[1 << 63, 1 << 32, u64::MAX]);
            words[at + 2] = words[at + 2].wrapping_add(by);
            words[totals] = words[totals].wrapping_add(by);
            words[totals + 2] = words[totals + 2].wrapping_add(by);
        }
    }
}

fn in_a_generation(scene: &Scene, words: &mut [u64], random: &mut Random) {
    let (register, width, ring) = random.pick(&scene.layout.registers);
    let at_of =
        |random: &mut Random| register + HEADING + random.below(3 * ring as u64) as usize * width;
    let at = (0..8)
        .map(|_| at_of(random))
        .find(|at| words[at + 1] != 0)
        .unwrap_or_else(|| at_of(random));
    let slots = (words[at] as usize).min(width - HEAD);
    if slots == 0 {
        // A generation that holds nothing but says otherwise.
        match random.below(3) {
            0 => words[at + random.pick(&[0, 1, 2, 4])] = random.pick(&[1, 2, 1 << 62]),
            1 => words[at + 3] = anything(random),
            _ => {
                words[at] = 2;
                words[at + 1] = 1;
                words[at + HEAD + random.below(2) as usize] = random.between(1, 9);
            }
        }
        return;
    }
    let slot = |random: &mut Random| at + HEAD + random.below(slots as u64) as usize;
    match random.below(11) {
        // Two slots exchanged: reached or not.
        0 | 1 => {
            let (a, b) = (slot(random), slot(random));
            words.swap(a, b);
        }
        // A fingerprint twice.
        2 => {
            let (a, b) = (slot(random), slot(random));
            words[a] = words[b];
        }
        // One fingerprint more or less, counted.
        3 => {
            let a = slot(random);
            words[at + 1] = words[at + 1].wrapping_sub(u64::from(words[a] != 0));
            words[a] = 0;
        }
        4 => {
            let a = slot(random);
            words[at + 1] = words[at + 1].wrapping_add(u64::from(words[a] == 0));
            words[a] = random.word().max(1);
        }
        // A held number whose fourfold wraps.
        5 => words[at + 1] = words[at + 1].wrapping_add(1 << random.pick(&[62, 63])),
        // More or fewer slots with the same content.
        6 => words[at] = random.pick(&[words[at] / 2, words[at].wrapping_mul(2), 1 << 63, 3, 1]),
        // Another bucket, of the same position or not.
        7 => {
            words[at + 3] =
                words[at + 3].wrapping_add(random.pick(&[ring as u64, 1, u64::MAX, 1 << 63]))
        }
        // The oldest stamp up to the newest, and past it.
        8 => {
            words[at + 4] = words[at + 2]
                .saturating_add(random.below(3))
                .wrapping_sub(1)
        }
        9 => words.swap(at + 2, at + 4),
        // Another generation's words.
        _ => {
            let other = at_of(random);
            words.copy_within(other..other + width, at);
        }
    }
}

fn in_a_register(scene: &Scene, words: &mut [u64], random: &mut Random) {
    let number = random.below(scene.layout.registers.len() as u64) as usize;
    let at = scene.layout.registers[number].0;
    let bucket = scene.settings.windows[number].bucket;
    match random.below(4) {
        // A sweep with what it publishes, capped or wrapped.
        0 | 1 => {
            let swept = anything(random);
            words[at + 6] = swept;
            words[at + 7] = match random.percent(70) {
                true => swept.saturating_mul(bucket),
                false => swept.wrapping_mul(bucket),
            };
        }
        // A floor that is there or not.
        2 => {
            words[at + 8] = random.below(3);
            words[at + 9] = anything(random);
        }
        _ => words[at + 10] = random.below(3),
    }
}
