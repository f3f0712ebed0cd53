//! The profiles.

use crate::profile::{Clock, Levels, Profile, Spans, Weights};

const USUAL: Profile = Profile::USUAL;
const WEIGHTS: Weights = Weights::USUAL;

const STEADY: Profile = Profile {
    name: "steady",
    about: "readings that never fall, equal or past a ring often, and nothing restored",
    registers: (1, 3),
    spans: Spans::Mixed,
    clock: Clock::Rising,
    fallback: 30,
    weights: Weights {
        begin: 40,
        sweep: 40,
        dump: 8,
        restore: 0,
        restore_made: 0,
        resume: 0,
        ..WEIGHTS
    },
    stretch: (40, 160),
    meant: &[
        "new",
        "duplicate",
        "late: window",
        "late: floor",
        "ahead",
        "unjudged",
        "begun",
        "dumped",
        "struck again",
        "steady",
        "reading: same",
        "reading: past a ring",
        "expired",
    ],
    never: &["late: position", "reading: back", "whole", "partly"],
    ..USUAL
};

pub static ALL: [Profile; 18] = [
    Profile {
        name: "full",
        about: "tables that are often full: slots, places, pairs and limits of a few",
        slots: &[2, 4, 8],
        places: &[1, 2, 3],
        pairs: &[2, 3, 5, 7],
        units: &[0, 1, 3, 4_096],
        levels: Levels::Tight,
        weights: Weights {
            limits: 12,
            close: 3,
            ..WEIGHTS
        },
        meant: &[
            "full: closed",
            "full: share",
            "full: limit",
            "full: part",
            "full: places",
            "full: pairs",
            "full: slots",
            "limits",
        ],
        ..USUAL
    },
    Profile {
        name: "pairs",
        about: "E of 2, 3, 5 and 7 with ample limits, the lists of pairs growing and expiring",
        slots: &[16, 32],
        places: &[1, 2, 3],
        pairs: &[2, 3, 5, 7],
        parties: 2,
        weights: Weights {
            take: 600,
            tick: 80,
            expire: 20,
            ..WEIGHTS
        },
        meant: &["full: pairs", "full: places", "expired"],
        ..USUAL
    },
    Profile {
        name: "clocks",
        about: "clocks stepping back and forth",
        clock: Clock::Steps,
        spans: Spans::Mixed,
        fallback: 20,
        weights: Weights {
            tick: 60,
            expire: 30,
            sweep: 40,
            again: 250,
            ..WEIGHTS
        },
        meant: &[
            "late: window",
            "late: floor",
            "late: position",
            "struck again",
            "reading: back",
            "expired",
        ],
        ..USUAL
    },
    Profile {
        name: "edges",
        about: "stamps and readings near 2^64 ms, seconds near 2^32, and the first ones",
        clock: Clock::Edges,
        spans: Spans::Mixed,
        pairs: &[2, 4, 8],
        weights: Weights {
            tick: 60,
            dump: 12,
            restore: 8,
            resume: 6,
            ..WEIGHTS
        },
        meant: &[
            "duplicate",
            "late: position",
            "ahead",
            "full: slots",
            "full: pairs",
        ],
        ..USUAL
    },
    Profile {
        name: "shares",
        about: "many deliverers near their shares, limits up to twice T",
        slots: &[32, 64],
        places: &[8, 16, 64],
        pairs: &[16, 32],
        units: &[0, 1, 2, 3, 7],
        levels: Levels::Shared,
        clock: Clock::Still,
        parties: 8,
        own: 6,
        weights: Weights {
            take: 900,
            tick: 6,
            expire: 2,
            limits: 2,
            restore: 0,
            restore_made: 0,
            ..WEIGHTS
        },
        stretch: (300, 900),
        meant: &["full: share", "full: limit", "full: part", "full: twice"],
        ..USUAL
    },
    Profile {
        name: "registers",
        about: "two to four registers of different widths under one book, with expire",
        registers: (2, 4),
        spans: Spans::Mixed,
        levels: Levels::Shared,
        weights: Weights {
            tick: 50,
            expire: 50,
            sweep: 60,
            ..WEIGHTS
        },
        meant: &["new", "expired", "full: part", "full: pairs"],
        ..USUAL
    },
    Profile {
        name: "dumps",
        about: "dumps restored into the same, another and a fresh register, fingerprints repeated",
        registers: (1, 3),
        slots: &[2, 4, 8],
        levels: Levels::Shared,
        weights: Weights {
            dump: 60,
            dump_into: 20,
            restore: 60,
            restore_made: 60,
            ..WEIGHTS
        },
        stretch: (40, 160),
        meant: &["whole", "partly", "dumped", "refused 5", "refused 6"],
        ..USUAL
    },
    Profile {
        name: "damaged",
        about: "dumps cut at every length and altered in every field",
        slots: &[2, 4],
        weights: Weights {
            dump: 40,
            damage: 60,
            every_cut: 2,
            every_field: 6,
            ..WEIGHTS
        },
        stretch: (60, 200),
        meant: &["refused 7", "whole", "partly"],
        ..USUAL
    },
    Profile {
        name: "resumes",
        about: "dumps resumed, with and without a proven floor, and registers that start pending",
        slots: &[2, 4, 8],
        fallback: 50,
        weights: Weights {
            dump: 50,
            resume: 80,
            begin: 40,
            damage: 10,
            again: 250,
            ..WEIGHTS
        },
        stretch: (40, 160),
        meant: &[
            "unjudged",
            "begun",
            "already",
            "whole",
            "partly",
            "refused 6",
            "refused 7",
        ],
        ..USUAL
    },
    Profile {
        name: "large",
        about: "each of the largest settings in turn, on at most 100,000 words",
        registers: (1, 4),
        spans: Spans::Largest,
        slots: &[2, 16, 1_024],
        places: &[1, 8, 64],
        pairs: &[2, 32, 512],
        units: &[0, 4_096],
        levels: Levels::Largest,
        clock: Clock::Still,
        parties: 70,
        stretch: (500, 1_200),
        weights: Weights {
            take: 900,
            dump: 0,
            restore: 0,
            dump_into: 0,
            ..WEIGHTS
        },
        meant: &["full: slots", "full: places", "full: pairs"],
        ..USUAL
    },
    Profile {
        name: "largest",
        about: "the largest settings together: four registers of 256 generations of 1,024 slots",
        registers: (4, 4),
        spans: Spans::Largest,
        slots: &[1_024],
        places: &[64],
        pairs: &[512],
        units: &[4_096],
        levels: Levels::Largest,
        clock: Clock::Still,
        parties: 70,
        stretch: (8_000, 16_000),
        weights: Weights {
            take: 900,
            close: 0,
            dump: 0,
            restore: 0,
            dump_into: 0,
            resume: 0,
            ..WEIGHTS
        },
        words: u64::MAX,
        meant: &[
            "new",
            "duplicate",
            "late: position",
            "by relay",
            "by restored",
        ],
        ..USUAL
    },
    Profile {
        name: "unfit",
        about: "codes and numbers that are not listed, among fit calls",
        registers: (1, 4),
        spans: Spans::Mixed,
        fallback: 30,
        weights: Weights {
            unfit: 500,
            dump_into: 40,
            dump: 20,
            damage: 20,
            ..WEIGHTS
        },
        meant: &[
            "refused 1",
            "refused 4",
            "refused 5",
            "refused 6",
            "refused 7",
        ],
        ..USUAL
    },
    Profile {
        name: "modest",
        about: "at most three parties in a class: the modest meter gets its equal part",
        slots: &[32, 64],
        places: &[3, 4],
        pairs: &[8, 16],
        units: &[0, 1, 2, 3],
        levels: Levels::Shared,
        parties: 3,
        own: 3,
        weights: Weights {
            take: 700,
            limits: 1,
            tick: 20,
            ..WEIGHTS
        },
        stretch: (150, 400),
        meant: &["modest", "full: part", "late: position"],
        ..USUAL
    },
    Profile {
        name: "meters",
        about: "what is remembered of meters and registers, viewed between tickets, dumps and expiry",
        slots: &[4, 8, 16],
        pairs: &[2, 3, 5, 8],
        parties: 3,
        weights: Weights {
            tick: 50,
            dump: 30,
            restore: 30,
            restore_made: 40,
            view: 500,
            ..WEIGHTS
        },
        stretch: (40, 160),
        meant: &[
            "viewed",
            "refused 1",
            "refused 4",
            "refused 8",
            "whole",
            "partly",
            "expired",
        ],
        ..USUAL
    },
    Profile {
        name: "repeats",
        about: "a register's own dump restored into it two and three times, tickets in between",
        slots: &[2, 4, 8],
        places: &[4, 8],
        pairs: &[8, 16, 32],
        weights: Weights {
            restore_own: 40,
            ..WEIGHTS
        },
        stretch: (40, 160),
        meant: &["restored again", "restored full", "whole", "partly"],
        ..USUAL
    },
    Profile {
        name: "neighbours",
        about: "neighbours' dumps over live tickets, mostly too much for them, and those tickets again",
        slots: &[2, 4, 8],
        pairs: &[8, 16, 32],
        weights: Weights {
            restore_over: 40,
            ..WEIGHTS
        },
        stretch: (40, 160),
        meant: &["partly over live", "struck again", "whole", "partly"],
        ..USUAL
    },
    STEADY,
    Profile {
        name: "fallen",
        about: "as steady, with one step back from one opening to the next",
        clock: Clock::Fallen,
        meant: &["late: position", "reading: back", "steady"],
        never: &["whole", "partly"],
        ..STEADY
    },
];
