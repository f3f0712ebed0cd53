//! What a start makes of every state of the folder. That a running host counts once is shown by killing it (tests/crashes).

use super::*;
use crate::settings::{Window, Windows};

/// A folder of its own for each test.
struct Folder(PathBuf);

impl Folder {
    fn new(name: &str) -> Self {
        let path = std::env::temp_dir().join(format!("keep-{}-{name}", std::process::id()));
        fs::create_dir(&path).expect("a new folder");
        Self(path)
    }

    fn file(&self, name: &str) -> PathBuf {
        self.0.join(name)
    }

    fn read(&self, name: &str) -> Vec<u8> {
        fs::read(self.file(name)).expect("the file is there")
    }

    fn write(&self, name: &str, bytes: &[u8]) {
        fs::write(self.file(name), bytes).expect("the folder can be written");
    }

    fn start(&self, settings: &Settings) -> Keep {
        Keep::start(&self.0, settings, &LIMITS, MINUTE).expect("it starts")
    }
}

impl Drop for Folder {
    fn drop(&mut self) {
        let _ = fs::remove_dir_all(&self.0);
    }
}

const LIMITS: Limits = Limits {
    feeder: 90,
    feeders: 90,
    peer: 90,
    peers: 90,
    relay: 90,
};
const METER: Deliverer = Deliverer::Feeder(1);
const COUNTED: Ticket = Ticket {
    fingerprint: 7,
    stamp: 102_000,
};
const NOW: Reading = Reading::at(100_000);

fn windows(ahead: u64) -> Windows {
    let window = Window::of(10_000, ahead);
    Windows {
        origin: window,
        copy: window,
        bucket: 1_000,
        slots: 8,
    }
}

fn settings() -> Settings {
    Settings::new().places(4).register(windows(2_000))
}

/// A gateway that has counted a ticket, stamped as far ahead as the window lets it.
fn counted(folder: &Folder) -> Keep {
    let mut keep = folder.start(&settings());
    assert_eq!(keep.take(0, COUNTED, NOW, METER).unwrap(), Verdict::New);
    keep
}

/// A folder in which a gateway that counted a ticket has stopped.
fn stopped(name: &str) -> Folder {
    let folder = Folder::new(name);
    counted(&folder).stop().unwrap();
    folder
}

/// The start after it finds this, and does not count the ticket again.
fn finds(folder: &Folder, settings: &Settings, found: Found) {
    let mut keep = folder.start(settings);
    assert_eq!(keep.found(), found);
    let late = Reading::at(COUNTED.stamp);
    let verdict = keep.take(0, COUNTED, late, METER).unwrap();
    let expected = match found {
        Found::First => Verdict::New,
        Found::Whole => Verdict::Duplicate,
        Found::Partly | Found::Fallback => Verdict::Late,
        Found::MarkLost => Verdict::Unjudged,
    };
    assert_eq!(verdict, expected);
}

#[test]
fn checksum_is_that_of_its_name() {
    assert_eq!(checksum(b"123456789"), 0x995d_c9bb_df19_39fa);
}

#[test]
fn first_start_is_empty_and_no_other() {
    let folder = Folder::new("first");
    finds(&folder, &settings(), Found::First);
    finds(&folder, &settings(), Found::Fallback);
}

#[test]
fn start_that_crashes_before_its_first_ticket_costs_none() {
    let folder = Folder::new("early");
    drop(folder.start(&settings()));
    let mut keep = folder.start(&settings());
    assert_eq!((keep.found(), keep.mark()), (Found::Fallback, 0));
    assert_eq!(keep.take(0, COUNTED, NOW, METER).unwrap(), Verdict::New);
}

#[test]
fn save_is_restored_once() {
    let folder = stopped("once");
    finds(&folder, &settings(), Found::Whole);
    assert!(!folder.file("saved").exists() && folder.file("used").exists());
    finds(&folder, &settings(), Found::Fallback);
}

#[test]
fn start_that_is_refused_leaves_the_save() {
    let folder = stopped("refused");
    let limits = Limits {
        relay: 1_000_001,
        ..LIMITS
    };
    let refused = Keep::start(&folder.0, &settings(), &limits, MINUTE);
    assert!(matches!(refused, Err(KeepError::Refused(Refusal::Unfit))));
    finds(&folder, &settings(), Found::Whole);
}

#[test]
fn save_that_is_put_back_is_not_restored() {
    let folder = stopped("back");
    let saved = folder.read("saved");
    finds(&folder, &settings(), Found::Whole);
    folder.write("saved", &saved);
    finds(&folder, &settings(), Found::Fallback);
}

#[test]
fn save_with_any_bit_turned_is_refused() {
    let folder = stopped("bits");
    let (saved, mark) = (folder.read("saved"), folder.read("mark"));
    for bit in 0..8 * saved.len() {
        let mut turned = saved.clone();
        turned[bit / 8] ^= 1 << (bit % 8);
        folder.write("mark", &mark);
        folder.write("saved", &turned);
        finds(&folder, &settings(), Found::Fallback);
    }
}

#[test]
fn save_that_is_cut_or_lengthened_is_refused() {
    let folder = stopped("cut");
    let (saved, mark) = (folder.read("saved"), folder.read("mark"));
    for length in 0..saved.len() + 16 {
        let mut cut = saved.clone();
        cut.resize(length, 0);
        folder.write("mark", &mark);
        folder.write("saved", &cut);
        let whole = length == saved.len();
        let found = if whole { Found::Whole } else { Found::Fallback };
        finds(&folder, &settings(), found);
    }
}

#[test]
fn mark_with_any_bit_turned_is_lost() {
    let folder = stopped("mark");
    let mark = folder.read("mark");
    for bit in 0..8 * mark.len() {
        let mut turned = mark.clone();
        turned[bit / 8] ^= 1 << (bit % 8);
        folder.write("mark", &turned);
        finds(&folder, &settings(), Found::MarkLost);
    }
}

#[test]
fn missing_mark_is_no_first_start() {
    let folder = stopped("missing");
    fs::remove_file(folder.file("mark")).unwrap();
    finds(&folder, &settings(), Found::MarkLost);
    fs::rename(folder.file("saved"), folder.file("used")).unwrap();
    finds(&folder, &settings(), Found::MarkLost);
}

#[test]
fn lost_mark_is_brought_by_hand() {
    let folder = stopped("hand");
    let saved = folder.read("saved");
    fs::remove_file(folder.file("mark")).unwrap();
    let mut keep = folder.start(&settings());
    let dump = &saved[..saved.len() - SEAL];
    assert!(matches!(keep.restore(0, dump), Err(KeepError::NoMark)));
    keep.begin(COUNTED.stamp).unwrap();
    assert_eq!(keep.take(0, COUNTED, NOW, METER).unwrap(), Verdict::Late);
    drop(keep);
    folder.write("saved", &saved);
    finds(&folder, &settings(), Found::Fallback);
}

#[test]
fn other_settings_fall_back_to_what_was_counted_under_the_old() {
    let folder = stopped("settings");
    let narrow = Settings::new().places(4).register(windows(0));
    finds(&folder, &narrow, Found::Fallback);
}

#[test]
fn lower_limits_restore_partly() {
    let folder = stopped("partly");
    let limits = Limits {
        feeders: 0,
        ..LIMITS
    };
    let mut keep = Keep::start(&folder.0, &settings(), &limits, MINUTE).unwrap();
    assert_eq!(keep.found(), Found::Partly);
    assert_eq!(keep.take(0, COUNTED, NOW, METER).unwrap(), Verdict::Late);
}

#[test]
fn all_registers_are_in_one_save() {
    let folder = Folder::new("registers");
    let two = settings().register(windows(1_000));
    let mut keep = folder.start(&two);
    let near = Ticket {
        fingerprint: 8,
        stamp: 101_000,
    };
    assert_eq!(keep.take(0, COUNTED, NOW, METER).unwrap(), Verdict::New);
    assert_eq!(keep.take(1, near, NOW, METER).unwrap(), Verdict::New);
    keep.stop().unwrap();
    let mut keep = folder.start(&two);
    assert_eq!(keep.found(), Found::Whole);
    let again = [
        keep.take(0, COUNTED, NOW, METER).unwrap(),
        keep.take(1, near, NOW, METER).unwrap(),
    ];
    assert_eq!(again, [Verdict::Duplicate; 2]);
    assert_eq!(
        keep.take(1, COUNTED, Reading::at(102_000), METER).unwrap(),
        Verdict::New
    );
}

#[test]
fn one_process_at_a_time_has_the_folder() {
    let folder = Folder::new("lock");
    let _first = folder.start(&settings());
    let second = Keep::start(&folder.0, &settings(), &LIMITS, MINUTE);
    assert!(matches!(second, Err(KeepError::InUse)));
}

#[test]
fn missing_folder_is_no_first_start() {
    let folder = Folder::new("gone");
    let missing = Keep::start(&folder.file("none"), &settings(), &LIMITS, MINUTE);
    assert!(matches!(missing, Err(KeepError::Disk(_))));
}

#[test]
fn mark_rises_for_new_tickets_alone() {
    let folder = Folder::new("rises");
    let mut keep = counted(&folder);
    let mark = keep.mark();
    assert_eq!(mark, COUNTED.stamp + MINUTE);
    let wrong = Reading::at(u64::MAX / 2);
    let verdicts = [
        keep.take(
            0,
            Ticket {
                fingerprint: 8,
                stamp: mark + 1,
            },
            wrong,
            METER,
        )
        .unwrap(),
        keep.take(
            0,
            Ticket {
                fingerprint: 8,
                stamp: mark + 1,
            },
            NOW,
            METER,
        )
        .unwrap(),
        keep.take(
            0,
            Ticket {
                fingerprint: 8,
                stamp: mark + 1,
            },
            Reading {
                ms: mark,
                judging: false,
            },
            METER,
        )
        .unwrap(),
    ];
    assert_eq!(verdicts, [Verdict::Late, Verdict::Ahead, Verdict::Unjudged]);
    assert_eq!(keep.mark(), mark);
}

#[test]
fn disk_that_cannot_be_written_takes_no_ticket() {
    let folder = Folder::new("full");
    let mut keep = folder.start(&settings());
    fs::create_dir(folder.file("mark.new")).unwrap();
    assert!(matches!(
        keep.take(0, COUNTED, NOW, METER),
        Err(KeepError::Disk(_))
    ));
    fs::remove_dir(folder.file("mark.new")).unwrap();
    assert_eq!(keep.take(0, COUNTED, NOW, METER).unwrap(), Verdict::New);
}

#[test]
fn neighbours_tickets_are_late_after_a_crash() {
    let neighbour = Folder::new("neighbour");
    let dump = counted(&neighbour).gateway().dump(0).unwrap();
    let folder = Folder::new("taken-in");
    let mut keep = folder.start(&settings());
    assert_eq!(
        keep.restore(0, &dump).unwrap(),
        Restored::Whole(dump.len() as u64)
    );
    assert_eq!(
        keep.take(0, COUNTED, NOW, METER).unwrap(),
        Verdict::Duplicate
    );
    drop(keep);
    finds(&folder, &settings(), Found::Fallback);
}

/// Why words are not kept in a mapping, and dumps not without a checksum: words that were altered, or a call that was cut off, can be
/// sound and count again.
#[test]
fn sound_words_need_not_be_whole() {
    let folder = Folder::new("sound");
    let mut gateway = counted(&folder).gateway().clone();
    let before = gateway.words().to_vec();
    let count_again = |words| {
        Gateway::over(&settings(), words)
            .and_then(|mut half| half.take(0, COUNTED, NOW, METER))
            .is_ok_and(|verdict| verdict == Verdict::New)
    };
    let mut turned = before.clone();
    let slot = before.iter().rposition(|word| *word == COUNTED.fingerprint);
    turned[slot.expect("the ticket is held")] ^= 1 << 40;
    assert!(count_again(turned));

    gateway.sweep(0, COUNTED.stamp + 60_000).unwrap();
    let after = gateway.words();
    let some_cut = (0..before.len())
        .filter(|at| before[*at] != after[*at])
        .any(|at| count_again([&before[..at], &after[at..]].concat()));
    assert!(some_cut);
}
