//! The register on example tickets: what happens when a clock is stepped, a sweep forgets a ticket, and a neighbour's copy of it comes
//! late; and when a neighbour's dump does not fit beside what is held. Each verdict is printed with the rule that gives it, as the register
//! names it, and the numbers that decide.

use std::fmt::Write as _;
use std::process::ExitCode;

use generator::dump::{Dump, Listed};
use strikes::{
    Deliverer, Gateway, Limits, Reading, Refusal, Restored, Settings, Start, Ticket, Verdict,
    Window, Windows,
};

use crate::why::{Brought, Why, why};

/// The example of the scope paper: a meter's own copy may be 10 s old, a neighbour's 20 s.
const WINDOWS: Windows = Windows {
    origin: Window::of(10_000, 2_000),
    copy: Window::of(20_000, 2_000),
    bucket: 1_000,
    slots: 8,
};

const LIMITS: Limits = Limits {
    feeder: 4,
    feeders: 12,
    peer: 4,
    peers: 12,
    relay: 12,
};

const METER: Deliverer = Deliverer::Feeder(1);
const FLOODING: Deliverer = Deliverer::Feeder(2);
const NEIGHBOUR: Deliverer = Deliverer::Peer(9);

/// A take of either form.
type Take = fn(&mut Gateway, u64, Ticket, Reading, Deliverer) -> Result<Verdict, Refusal>;

pub fn run() -> ExitCode {
    match tell() {
        Ok(text) => crate::tell(&text),
        Err(refusal) => {
            eprintln!("strikes: refused: {refusal}");
            ExitCode::FAILURE
        }
    }
}

/// The whole story as text.
fn tell() -> Result<String, Refusal> {
    let settings = Settings::new()
        .places(4)
        .pairs(16)
        .place_units(1, 1)
        .register(WINDOWS);
    let gateway = Gateway::open(&settings, &LIMITS, &[Start::Empty])?;
    let mut story = Story {
        gateway,
        text: String::new(),
    };
    story.line(&format!(
        "One register in {} words. Times are milliseconds.",
        story.gateway.words().len()
    ));
    story.line(
        "A meter's own ticket may be 10000 old, a neighbour's copy 20000, and each 2000 ahead.",
    );

    story.chapter("A ticket and its copy");
    story.take(100_000, METER, 7, 100_000)?;
    story.take(100_400, NEIGHBOUR, 7, 100_000)?;

    story
        .chapter("The clock is stepped forward by 20000: a correction, which is found wrong later");
    story.tick(120_400)?;

    story.chapter("The clock is stepped back, and the neighbour's copy comes late");
    story.tick(100_500)?;
    story.take(100_600, NEIGHBOUR, 7, 100_000)?;
    story.line("    The register holds the ticket no more. Without the floor this copy would be New, and counted twice.");
    story.take(100_700, METER, 8, 100_650)?;

    story.chapter("Clocks that are off");
    story.take(112_000, METER, 9, 101_000)?;
    story.take(112_000, NEIGHBOUR, 9, 101_000)?;
    story.batch(112_000, METER, 10, 114_001)?;
    story.unsynced(112_000, METER, 11, 112_000)?;

    story.chapter("One meter floods, another is modest");
    for fingerprint in 20..25 {
        story.take(112_100, FLOODING, fingerprint, 112_100)?;
    }
    story.take(112_200, METER, 30, 112_200)?;

    story.chapter("A neighbour's dump comes, and does not fit beside what is held");
    story.restore(112_300, 133, 112_050, &[40, 41, 42])?;
    story.take(112_400, NEIGHBOUR, 30, 112_200)?;
    story.line("    The register holds the ticket no more. With the dump's newest as its floor this copy would be New, and counted twice.");
    story.take(112_500, METER, 31, 112_450)?;
    Ok(story.text)
}

struct Story {
    gateway: Gateway,
    text: String,
}

impl Story {
    fn line(&mut self, text: &str) {
        let _ = writeln!(self.text, "{text}");
    }

    fn chapter(&mut self, title: &str) {
        self.line("");
        self.line(&format!("{title}."));
    }

    fn tick(&mut self, ms: u64) -> Result<(), Refusal> {
        let before = self.gateway.floor(0)?;
        self.gateway.tick(ms)?;
        let after = self.gateway.floor(0)?;
        let swept = self.gateway.swept(0)?.bucket;
        let what = match after {
            Some(floor) if after != before => {
                format!(
                    "what they held is forgotten, and the floor rises to {floor}, the newest stamp among it"
                )
            }
            Some(floor) => format!("nothing more is forgotten, and the floor stays at {floor}"),
            None => "nothing is forgotten".into(),
        };
        self.line(&format!(
            "    {ms:>6}  sweep: buckets before {swept} are past; {what}"
        ));
        Ok(())
    }

    /// A neighbour's dump: one bucket of its meters' tickets.
    fn restore(
        &mut self,
        ms: u64,
        bucket: u64,
        newest: u64,
        fingerprints: &[u64],
    ) -> Result<(), Refusal> {
        let mut dump = Dump::default();
        dump.classes[0].push(Listed {
            bucket,
            newest,
            fingerprints: fingerprints.to_vec(),
        });
        let outcome = match self.gateway.restore(0, &dump.bytes())? {
            Restored::Whole(_) => "Whole".into(),
            Restored::Partly(_) => format!(
                "Partly; what is held in that bucket goes, and the floor rises to {}, the newest stamp of both",
                self.gateway.floor(0)?.unwrap_or(0)
            ),
        };
        let number = fingerprints.len();
        self.line(&format!(
            "    {ms:>6}  restore: {number} tickets in bucket {bucket}, the newest of {newest}: {outcome}"
        ));
        Ok(())
    }

    fn take(
        &mut self,
        ms: u64,
        who: Deliverer,
        fingerprint: u64,
        stamp: u64,
    ) -> Result<(), Refusal> {
        let ticket = Ticket { fingerprint, stamp };
        self.bring(Gateway::take, Reading::at(ms), who, ticket)
    }

    fn batch(
        &mut self,
        ms: u64,
        who: Deliverer,
        fingerprint: u64,
        stamp: u64,
    ) -> Result<(), Refusal> {
        let ticket = Ticket { fingerprint, stamp };
        self.bring(Gateway::take_batch, Reading::at(ms), who, ticket)
    }

    /// A ticket that comes while the clock is not synchronised.
    fn unsynced(
        &mut self,
        ms: u64,
        who: Deliverer,
        fingerprint: u64,
        stamp: u64,
    ) -> Result<(), Refusal> {
        let ticket = Ticket { fingerprint, stamp };
        self.bring(Gateway::take, Reading { ms, judging: false }, who, ticket)
    }

    /// Brings a ticket, and prints its verdict with the rule that gives it.
    fn bring(
        &mut self,
        take: Take,
        now: Reading,
        who: Deliverer,
        ticket: Ticket,
    ) -> Result<(), Refusal> {
        let brought = Brought {
            register: 0,
            ticket,
            now,
            who,
        };
        let Why {
            reason, numbers, ..
        } = why(&self.gateway, &brought)?;
        let verdict = take(&mut self.gateway, 0, ticket, now, who)?.to_string();
        let (ms, who) = (now.ms, name(who));
        let Ticket { fingerprint, stamp } = ticket;
        let numbers = numbers.map_or(String::new(), |numbers| format!(": {numbers}"));
        self.line(&format!(
            "    {ms:>6}  {who:<12} ticket {fingerprint:>2} of {stamp:>6}: {verdict:<9}  {reason}{numbers}"
        ));
        Ok(())
    }
}

fn name(who: Deliverer) -> String {
    match who {
        Deliverer::Feeder(id) => format!("meter {id}"),
        Deliverer::Peer(id) => format!("neighbour {id}"),
        Deliverer::Relay => "this gateway".into(),
        Deliverer::Restored(_) => "a dump".into(),
    }
}
