//! The rules tried one by one on the smallest words: one register of ring 2 and S 2, two places of two pairs.

use crate::{Ask, Broken, Call, Told, batch_verdict, broken, reason, refusal, settings_of, view};

fn settings() -> [u64; 29] {
    let mut words = [0; 29];
    words[..11].copy_from_slice(&[1, 2, 2, 1, 1, 0, 0, 0, 0, 1, 2]);
    words
}

/// 20 words of the front, three classes of 4 + 2 × 8, then a register of 24 + 3 × 2 × 7, then 3 × 24.
const CLASSES: usize = 20;
const REGISTER: usize = 20 + 3 * 20;
const NEEDED: usize = REGISTER + 24 + 42 + 72;

fn opened() -> Vec<u64> {
    let mut words = vec![0; NEEDED];
    words[..5].copy_from_slice(&[1, 2, 2, 1, 1]);
    words[REGISTER + 4] = 1;
    words[REGISTER + 5] = 2;
    words
}

/// One Feeder with two entries in one second, and one fingerprint in bucket 4 at position 0, with stamps from 3 to 5.
fn taken() -> Vec<u64> {
    let mut words = opened();
    words[CLASSES..CLASSES + 12].copy_from_slice(&[2, 1, 3, 0, 0, 77, 2, 1, 9, 2, 0, 0]);
    words[REGISTER + 24..REGISTER + 31].copy_from_slice(&[2, 1, 5, 4, 3, 0, 7]);
    words
}

fn rule(words: &[u64]) -> Option<Broken> {
    broken(&settings_of(&settings()).expect("fit settings"), words)
}

#[test]
fn the_words_needed_are_the_papers() {
    assert_eq!(
        settings_of(&settings()).expect("fit settings").words(),
        NEEDED as u64
    );
}

#[test]
fn opened_and_taken_words_are_sound() {
    assert_eq!(rule(&opened()), None);
    assert_eq!(rule(&taken()), None);
}

#[test]
fn each_rule_is_noticed() {
    let place = CLASSES + 4;
    let generation = REGISTER + 24;
    let cases: [(&[(usize, u64)], Option<Broken>); 38] = [
        (&[(0, 2)], Some(Broken::KeptSettings)),
        (&[(REGISTER + 3, 1)], Some(Broken::KeptSettings)),
        (&[(5, 1_000_001)], Some(Broken::KeptLimits)),
        (&[(10, 2)], Some(Broken::Flag)),
        (&[(11, 9), (19, 9)], None),
        (&[(place + 3, 0)], Some(Broken::UnusedPlace)),
        (&[(place + 8 + 3, 1)], Some(Broken::Counts)),
        (&[(place, 1)], Some(Broken::DelivererOfClass)),
        (&[(place, 3)], None),
        (&[(place + 3, 3)], Some(Broken::PairsNumber)),
        (&[(place + 3, u64::MAX)], Some(Broken::PairsNumber)),
        (&[(place + 4, 1 << 32)], Some(Broken::SecondsRising)),
        (&[(place + 5, 0)], Some(Broken::Counts)),
        (&[(place + 5, 3)], Some(Broken::Entries)),
        (&[(place + 6, 5), (place + 7, 6)], None),
        // Counts whose sum is 2 modulo 2^64.
        (
            &[
                (place + 3, 2),
                (place + 5, 1 << 63),
                (place + 6, 10),
                (place + 7, (1 << 63) + 2),
            ],
            Some(Broken::Entries),
        ),
        (&[(CLASSES, 1)], Some(Broken::Totals)),
        (&[(CLASSES + 2, 4)], Some(Broken::Totals)),
        (&[(CLASSES + 3, 1 << 32)], Some(Broken::Expired)),
        (
            &[
                (place + 5, 2_000_001),
                (place + 2, 2_000_001),
                (CLASSES, 2_000_001),
                (CLASSES + 2, 2_000_002),
            ],
            Some(Broken::MostEntries),
        ),
        (&[(REGISTER + 6, 3)], Some(Broken::Published)),
        (&[(REGISTER + 6, 3), (REGISTER + 7, 3)], None),
        (&[(REGISTER + 8, 2)], Some(Broken::Flag)),
        (&[(REGISTER + 9, 1)], Some(Broken::AbsentFloor)),
        (&[(generation, 0)], Some(Broken::EmptyGeneration)),
        (&[(generation, 3)], Some(Broken::Slots)),
        (&[(generation + 1, 1 << 62)], Some(Broken::Load)),
        (&[(generation + 3, 3)], Some(Broken::Position)),
        (&[(generation + 4, 6)], Some(Broken::Oldest)),
        (&[(generation + 4, u64::MAX)], Some(Broken::Oldest)),
        (&[(generation + 4, 5)], None),
        (&[(generation + 4, 0)], None),
        (&[(generation + 5, 8)], Some(Broken::HeldNumber)),
        (&[(generation + 6, 8)], Some(Broken::Reached)),
        (&[(generation + 7 + 2, 12)], Some(Broken::EmptyGeneration)),
        (&[(generation + 7 + 3, 12)], None),
        (&[(generation + 7 + 4, 12)], Some(Broken::EmptyGeneration)),
        (&[(generation + 7 + 5, 12)], Some(Broken::SlotsPast)),
    ];
    for (pokes, due) in cases {
        let mut words = taken();
        for (at, value) in pokes {
            words[*at] = *value;
        }
        assert_eq!(rule(&words), due, "{pokes:?}");
    }
}

#[test]
fn refusals_come_in_their_order() {
    let (settings, words) = (settings(), taken());
    let number = |settings: &[u64], words: &[u64], call| {
        let words = Some(words);
        refusal(settings, &Call { words, ..call }).number()
    };
    let ask = |register, flag| Call {
        register: Some(register),
        flag: Some(flag),
        deliverer: Some((0, 1)),
        ..Call::default()
    };
    assert_eq!(number(&settings, &words, ask(0, 1)), 0);
    assert_eq!(number(&settings[1..], &words, ask(0, 1)), 1);
    assert_eq!(number(&settings, &words[1..], ask(9, 2)), 1);
    assert_eq!(number(&settings, &words[1..], ask(9, 1)), 2);
    let mut other = settings;
    other[9] = 2;
    assert_eq!(number(&other, &words, ask(9, 1)), 3);
    assert_eq!(number(&settings, &words, ask(1, 1)), 4);
    let dump = |out| Call {
        register: Some(0),
        out: Some(out),
        ..Call::default()
    };
    assert_eq!(number(&settings, &words, dump(63)), 5);
    assert_eq!(number(&settings, &words, dump(64)), 0);
    let mut pending = words.clone();
    pending[REGISTER + 10] = 1;
    assert_eq!(number(&settings, &pending, dump(0)), 6);
    let restore = |bytes| Call {
        register: Some(0),
        bytes: Some(bytes),
        ..Call::default()
    };
    assert_eq!(number(&settings, &words, restore(&[0; 31])), 7);
    assert_eq!(number(&settings, &words, restore(&[0; 32])), 0);
    let mut long = [0; 56];
    long[8] = 1;
    long[32..40].copy_from_slice(&((1u64 << 61) - 3).to_le_bytes());
    assert_eq!(number(&settings, &words, restore(&long)), 7);
}

#[test]
fn views_are_as_long_as_what_they_list() {
    let (settings, words) = (settings(), taken());
    let of = |register, deliverer| Call {
        words: Some(&words),
        register,
        deliverer,
        ..Call::default()
    };
    let cases: [(Call<'_>, &[u64]); 6] = [
        (of(Some(0), None), &[4, 3, 5, 1]),
        (of(None, Some((0, 77))), &[9, 2, 2]),
        (of(None, Some((0, 78))), &[0]),
        (of(None, Some((1, 77))), &[0]),
        (of(None, Some((2, 77))), &[0]),
        (of(None, Some((3, 0))), &[0]),
    ];
    for (call, due) in cases {
        let fit = settings_of(&settings).expect("fit settings");
        assert_eq!(view(&fit, &call).as_deref(), Some(due), "{call:?}");
        let refused = |length| {
            let view = Some(length);
            refusal(&settings, &Call { view, ..call }).number()
        };
        assert_eq!(refused(due.len() - 1), 8, "{call:?}");
        assert_eq!(refused(due.len()), 0, "{call:?}");
        assert_eq!(refused(due.len() + 1), 0, "{call:?}");
    }
}

#[test]
fn a_view_is_refused_as_too_short_after_all_else() {
    let (settings, mut words) = (settings(), taken());
    let number = |words: &[u64], register, deliverer| {
        let call = Call {
            words: Some(words),
            register,
            deliverer,
            view: Some(0),
            ..Call::default()
        };
        refusal(&settings, &call).number()
    };
    assert_eq!(number(&words[1..], None, Some((3, 3))), 1);
    assert_eq!(number(&words[1..], None, Some((0, 77))), 2);
    assert_eq!(number(&words[1..], Some(1), None), 2);
    assert_eq!(number(&words, Some(1), None), 4);
    // A pending register is served, and one that holds nothing has no words to write.
    words[REGISTER + 10] = 1;
    assert_eq!(number(&words, Some(0), None), 8);
    assert_eq!(number(&opened(), Some(0), None), 0);
    assert_eq!(number(&opened(), None, Some((0, 77))), 8);
    words[REGISTER + 24 + 4] = 6;
    assert_eq!(number(&words, Some(1), None), 3);
}

/// With limits of 9, the book as `taken` has it: at 4 the generation of bucket 4 is held, and at 5 a sweep drops it.
#[test]
fn each_rule_is_named() {
    let ask = |fingerprint, stamp, reading, deliverer| Ask {
        register: 0,
        fingerprint,
        stamp,
        reading,
        flag: 1,
        deliverer,
    };
    let (meter, other) = ((0, 77), (0, 78));
    let off = Ask {
        flag: 0,
        ..ask(7, 4, 4, meter)
    };
    let (place, register) = (CLASSES + 4, REGISTER);
    let second_place = [
        (CLASSES, 3),
        (CLASSES + 1, 2),
        (CLASSES + 2, 5),
        (place + 9, 78),
        (place + 10, 1),
        (place + 11, 1),
        (place + 12, 9),
        (place + 13, 1),
    ];
    let second_pair = [
        (place + 3, 2),
        (place + 5, 1),
        (place + 6, 10),
        (place + 7, 1),
    ];
    let twenty = [
        (CLASSES, 20),
        (CLASSES + 2, 21),
        (place + 2, 20),
        (place + 5, 20),
        (6, 4),
    ];
    let swept_to_5 = [(register + 6, 5), (register + 7, 5)];
    let floor = [(register + 8, 1), (register + 9, 4)];
    let cases: [(&[(usize, u64)], Ask, [u64; 3]); 24] = [
        (&[(register + 10, 1)], off, [1, 0, 5]),
        (&[], off, [2, 0, 5]),
        (&[], ask(7, 4, 4, meter), [3, 0, 1]),
        (&floor, ask(7, 4, 4, (2, 5)), [3, 0, 1]),
        (&floor, ask(8, 4, 4, meter), [4, 0, 2]),
        (&[], ask(7, 5, 5, meter), [4, 0, 2]),
        (&[], ask(7, 5, 9, meter), [4, 0, 2]),
        (&[], ask(7, 6, 5, meter), [6, 0, 2]),
        (&swept_to_5, ask(7, 4, 5, meter), [3, 0, 1]),
        (&[], ask(8, 3, 4, meter), [5, 0, 2]),
        (&[], ask(8, 5, 4, meter), [6, 0, 2]),
        (&[(10, 1)], ask(8, 4, 4, meter), [7, 0, 4]),
        (&[(5, 2)], ask(8, 4, 4, meter), [8, 0, 4]),
        (&[(6, 4)], ask(8, 4, 4, (3, 0)), [9, 0, 4]),
        (&[(6, 3)], ask(8, 4, 4, meter), [10, 0, 4]),
        (&twenty, ask(8, 4, 4, other), [11, 0, 4]),
        (&second_place, ask(8, 4, 4, (0, 79)), [12, 0, 4]),
        (&second_pair, ask(8, 4, 4, meter), [13, 0, 4]),
        (&swept_to_5, ask(8, 6, 6, meter), [14, 0, 2]),
        (&swept_to_5, ask(8, 5, 5, meter), [0, 0, 0]),
        (&[], ask(8, 4, 4, meter), [15, 0, 4]),
        (&[], ask(8, 4, 4, (1, 77)), [0, 0, 0]),
        (&[], ask(8, 6, 6, meter), [0, 0, 0]),
        (&[], ask(8, 4, 4, (2, 0)), [0, 0, 0]),
    ];
    for (pokes, ask, [rule, class, verdict]) in cases {
        let mut words = taken();
        words[5..10].fill(9);
        for (at, value) in pokes {
            words[*at] = *value;
        }
        let fit = settings_of(&settings()).expect("fit settings");
        assert_eq!(broken(&fit, &words), None, "{pokes:?}");
        let due = Told {
            rule,
            class,
            verdict,
        };
        assert_eq!(reason(&fit, &words, &ask), due, "{pokes:?}, {ask:?}");
    }
}

/// At 4 with a floor of 9: past the front at 5, whether at the floor or above it.
#[test]
fn a_batch_form_says_ahead_past_the_front_alone() {
    let fit = settings_of(&settings()).expect("fit settings");
    let mut words = taken();
    words[REGISTER + 8] = 1;
    words[REGISTER + 9] = 9;
    let said = |fingerprint, stamp| {
        let ask = Ask {
            register: 0,
            fingerprint,
            stamp,
            reading: 4,
            flag: 1,
            deliverer: (0, 77),
        };
        let take = reason(&fit, &words, &ask).verdict;
        (take, batch_verdict(&fit, &words, &ask))
    };
    assert_eq!(said(8, 3), (2, 2));
    assert_eq!(said(7, 4), (1, 1));
    assert_eq!(said(8, 5), (2, 3));
    assert_eq!(said(8, 10), (2, 3));
}

#[test]
fn each_argument_earns_its_refusal() {
    let (settings, words) = (settings(), taken());
    let number = |words, call| refusal(&settings, &Call { words, ..call }).number();
    let all = Some(&words[..]);
    let unfit = [
        Call {
            limits: Some(&[0; 4]),
            ..Call::default()
        },
        Call {
            limits: Some(&[0, 0, 0, 0, 1_000_001]),
            ..Call::default()
        },
        Call {
            starts: Some(&[3, 0, 0, 0, 0, 0, 0, 0]),
            ..Call::default()
        },
        Call {
            flag: Some(2),
            ..Call::default()
        },
        Call {
            deliverer: Some((3, 3)),
            ..Call::default()
        },
        Call {
            wanted: Some(6),
            ..Call::default()
        },
        Call {
            class: Some(3),
            ..Call::default()
        },
    ];
    for call in unfit {
        assert_eq!(number(all, call), 1, "{call:?}");
    }
    // An opening needs room alone, and the words needed are told without any.
    let open = Call {
        limits: Some(&[0; 5]),
        starts: Some(&[2, 9, 3, 3, 3, 3, 3, 3]),
        ..Call::default()
    };
    assert_eq!(number(Some(&words[1..]), open), 2);
    assert_eq!(number(Some(&[9; NEEDED]), open), 0);
    assert_eq!(number(Some(&[9; NEEDED]), Call::default()), 3);
    assert_eq!(number(all, Call::default()), 0);
    assert_eq!(number(None, Call::default()), 0);
}
