//! The register and the Rust as one machine, whose answer is the Rust's as long as the two agree, and the register's where the Rust has
//! none.

use std::collections::BTreeSet;

use calls::{Answer, Call, Look, Machine, Settings, Who};

use crate::oracle::Oracle;
use crate::watched::Watched;

/// Everything is looked at after so many calls, and less often where a look is dear.
const OFTEN: u64 = 8;
const SELDOM: u64 = 200;
/// From so many words on.
const MANY: u64 = 20_000;

#[derive(Default)]
pub struct Pair {
    rust: Oracle,
    product: Watched,
    /// The calls since the last opening that went through, with those that looked.
    list: Vec<Call>,
    settings: Option<Settings>,
    /// The deliverers that came up since then.
    parties: BTreeSet<Who>,
    since_look: u64,
    /// The calls compared, and how often everything was looked at.
    pub calls: u64,
    pub looks: u64,
    differs: bool,
}

impl Machine for Pair {
    fn run(&mut self, call: &Call) -> Answer {
        let answer = self.compare(call);
        // A take is looked at after it, and not between it and what explains it.
        let explains = matches!(call, Call::Look(Look::Explain { .. }));
        self.calls += u64::from(!explains);
        self.since_look += u64::from(!explains);
        let many = self
            .settings
            .as_ref()
            .is_some_and(|settings| settings.words() > MANY);
        if self.since_look >= if many { SELDOM } else { OFTEN } {
            self.since_look = 0;
            self.look_at_everything();
        }
        if self.differs { Answer::Broke } else { answer }
    }
}

impl Pair {
    /// The list that ends with a difference, if there was one.
    pub fn differing(&self) -> Option<Vec<Call>> {
        self.differs.then(|| self.list.clone())
    }

    /// One call on both. From a difference on nothing more is run.
    fn compare(&mut self, call: &Call) -> Answer {
        if self.differs {
            return Answer::Broke;
        }
        let (theirs, ours) = (self.rust.run(call), self.product.run(call));
        self.note(call, &theirs);
        self.differs = !agree(&theirs, &ours);
        match theirs {
            Answer::Apart => ours,
            theirs => theirs,
        }
    }

    fn note(&mut self, call: &Call, answer: &Answer) {
        if let (Call::Open { settings, .. }, Answer::Opened) = (call, answer) {
            self.list.clear();
            self.parties.clear();
            self.settings = Some(settings.clone());
        }
        if let Call::Ask { ticket, .. } = call {
            self.parties.extend(ticket.who.listed());
        }
        self.list.push(call.clone());
    }

    fn look_at_everything(&mut self) {
        let Some(settings) = &self.settings else {
            return;
        };
        self.looks += 1;
        for call in looks(settings.registers, &self.parties) {
            self.compare(&call);
        }
    }
}

/// Whether two answers agree: what the Rust does not run is not compared, and a breakdown agrees with nothing.
pub fn agree(theirs: &Answer, ours: &Answer) -> bool {
    *ours != Answer::Broke && (*theirs == Answer::Apart || theirs == ours)
}

/// The calls that tell everything: the dumps, and each reading call of all that it can be asked of.
fn looks(registers: u64, parties: &BTreeSet<Who>) -> Vec<Call> {
    let restored = (0..3).map(Who::Restored);
    let all = All {
        register: (0..registers).collect(),
        who: parties.iter().copied().chain(restored).collect(),
        class: (0..3).collect(),
    };
    let dump = |register| Call::Dump {
        register,
        length: None,
    };
    let dumps = (0..registers).map(dump);
    dumps
        .chain(all.looks().into_iter().map(Call::Look))
        .collect()
}

/// What a reading call can be asked of, by the names of its parts.
struct All {
    register: Vec<u64>,
    who: Vec<Who>,
    class: Vec<u64>,
}

/// The calls of one name: of all that is of its part, a view into an output that is long enough, and none where it has more parts.
macro_rules! each {
    ($all:ident, $look:ident($part:ident)) => {
        $all.$part
            .iter()
            .map(|$part| Look::$look { $part: *$part })
            .collect()
    };
    ($all:ident, $look:ident($part:ident, length)) => {
        $all.$part
            .iter()
            .map(|$part| Look::$look {
                $part: *$part,
                length: None,
            })
            .collect()
    };
    ($all:ident, $look:ident($($part:ident),*)) => {
        Vec::new()
    };
}

macro_rules! each_of_all {
    ($($look:ident $name:ident($($part:ident $(: $of:ident)?),*) -> $answer:ident;)*) => {
        impl All {
            fn looks(&self) -> Vec<Look> {
                [$(each!(self, $look($($part),*))),*].concat()
            }
        }
    };
}

calls::looks!(each_of_all);
