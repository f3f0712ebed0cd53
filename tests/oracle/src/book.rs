//! The Rust's shares and tables behind plain calls: names and numbers are exchanged, and nothing
//! is decided here.

use std::sync::Arc;

use calls::call::Ticket;
use calls::{Answer, Form, Length, Limits, Look, Settings, Start, Verdict, Who};
use relay::footprint;
use relay::ingest::Stamp;
use relay::stage::{self, Stage};
use relay::strikes::{
    self as rust, Begun, Class, Deliverer, Entries, Restored, Shares, StrikeStores, Strikes,
    Usable, reading,
};
use tally_wire::batch::Hash;
use tally_wire::budget::Window;
use tally_wire::clocks::Judged;
use tally_wire::{FingerprintKey, PublicKey};

use crate::refusals;

const CLASSES: [Class; 3] = Class::ALL;

/// A share book and its registers.
pub struct Book {
    stage: Stage,
    shares: Arc<Shares>,
    tables: Vec<Strikes>,
}

impl Book {
    /// Fit settings and listed starts, opened.
    pub fn open(settings: &Settings, starts: &[Start]) -> Self {
        let most = footprint::most_for_pairs(settings.pairs as usize);
        let stores = StrikeStores::limited([most; 3]);
        let shares = Shares::keyed(&stores, entries(&settings.limits), FingerprintKey);
        let tables = settings
            .windows
            .iter()
            .zip(starts)
            .map(|(windows, start)| {
                let stores = StrikeStores::limited([windows.slots as usize * size_of::<u64>(); 3]);
                Strikes::starting(
                    usable(windows),
                    &stores,
                    Arc::clone(&shares),
                    &start_of(*start),
                )
            })
            .collect();
        let stage = Stage {
            places: settings.places as usize,
            pairs: settings.pairs as usize,
            feeder_units: settings.feeder_units as usize,
            peer_units: settings.peer_units as usize,
        };
        Self {
            stage,
            shares,
            tables,
        }
    }

    /// To be called before any call below: the settings that the Rust reads as constants.
    pub fn set_stage(&self) {
        stage::set(self.stage);
    }

    pub fn ask(&mut self, form: Form, ticket: &Ticket, who: Who) -> Verdict {
        let table = &mut self.tables[ticket.register as usize];
        let hash = Hash(ticket.fingerprint);
        let now = Stamp {
            judged: Judged(ticket.reading),
            judging: ticket.flag == 1,
        }
        .into();
        let who = deliverer(who);
        verdict(match form {
            Form::Judge => table.judge(&hash, ticket.stamp, now, who),
            Form::Take => table.take(&hash, ticket.stamp, now, who),
            Form::JudgeBatch => table.judge_batch(&hash, ticket.stamp, now, who),
            Form::TakeBatch => table.take_batch(&hash, ticket.stamp, now, who),
        })
    }

    pub fn begin(&mut self, register: u64, number: u64) -> Answer {
        match self.tables[register as usize].begin(Judged(number)) {
            Begun::Begun => Answer::Begun,
            Begun::Already => Answer::Already,
            Begun::LeaseAhead { .. } => unreachable!("no register here has a lease"),
        }
    }

    pub fn expire(&self, reading: u64) -> Answer {
        self.shares.expire(Judged(reading));
        Answer::Ok
    }

    pub fn sweep(&mut self, register: u64, reading: u64) -> Answer {
        self.tables[register as usize].sweep(Judged(reading));
        Answer::Ok
    }

    pub fn set_limits(&self, limits: &Limits) -> Answer {
        self.shares.set(entries(limits));
        Answer::Ok
    }

    pub fn close(&self) -> Answer {
        self.shares.close();
        Answer::Ok
    }

    /// The dump, or the refusal for a register that is pending.
    pub fn dump(&self, register: u64) -> Result<Vec<u8>, u64> {
        let mut out = Vec::new();
        match self.tables[register as usize].dump(&mut out) {
            true => Ok(out),
            false => Err(refusals::PENDING),
        }
    }

    pub fn restore(&mut self, register: u64, bytes: &[u8]) -> Answer {
        restored(self.tables[register as usize].restore(bytes))
    }

    pub fn resume(&mut self, register: u64, bytes: &[u8], proven: Option<u64>) -> Answer {
        restored(self.tables[register as usize].resume(bytes, proven))
    }

    /// A call that only reads.
    pub fn look(&self, look: &Look) -> Answer {
        let table = |register: u64| &self.tables[register as usize];
        match *look {
            Look::ContainsHash {
                register,
                fingerprint,
            } => Answer::Whether(table(register).contains_hash(&Hash(fingerprint))),
            Look::Floor { register } => Answer::Perhaps(table(register).floor_ms()),
            Look::Pending { register } => Answer::Whether(table(register).is_pending()),
            Look::Swept { register } => {
                let (bucket, published) = reading::swept(table(register));
                Answer::Numbers(vec![bucket, published])
            }
            Look::Held { who } => {
                let who = deliverer(who.listed().expect("refused as unfit"));
                Answer::Numbers(vec![reading::held(&self.shares, who) as u64])
            }
            Look::Class { class } => {
                let (entries, holders, place_units, expired) =
                    reading::class(&self.shares, CLASSES[class as usize]);
                let units = entries + place_units;
                Answer::Numbers(vec![
                    entries as u64,
                    holders as u64,
                    units as u64,
                    expired.into(),
                ])
            }
            Look::ViewRegister { register, length } => {
                view(reading::generations(table(register)).concat(), length)
            }
            Look::ViewDeliverer { who, length } => {
                let who = deliverer(who.listed().expect("refused as unfit"));
                let pairs = reading::pairs(&self.shares, who).into_iter();
                let words = pairs.flat_map(|(second, count)| [second.into(), count.into()]);
                let entries = reading::held(&self.shares, who) as u64;
                view(words.chain([entries]).collect(), length)
            }
            // What the Rust has no answer to: the rule behind a verdict, and the stamp for one.
            _ => Answer::Apart,
        }
    }
}

/// A view's words, where the output has room for them.
fn view(words: Vec<u64>, length: Length) -> Answer {
    match length {
        Some(length) if length < words.len() as u64 => Answer::Refused(refusals::SHORT_VIEW),
        _ => Answer::Viewed(words),
    }
}

fn entries(limits: &Limits) -> Entries {
    Entries {
        feeder: limits.feeder as usize,
        feeders: limits.feeders as usize,
        peer: limits.peer as usize,
        peers: limits.peers as usize,
        relay: limits.relay as usize,
    }
}

fn usable(windows: &calls::Windows) -> Usable {
    Usable {
        origin: Window::of(windows.origin.behind, windows.origin.ahead),
        copy: Window::of(windows.copy.behind, windows.copy.ahead),
        bucket_ms: windows.bucket,
    }
}

fn start_of(start: Start) -> rust::Start {
    match start {
        Start::Empty | Start::Code(0, _) => rust::Start::Empty,
        Start::Fallback | Start::Code(1, _) => rust::Start::Fallback,
        Start::At(floor) | Start::Code(2, floor) => rust::Start::At(floor),
        Start::Code(..) => unreachable!("refused as unfit"),
    }
}

fn deliverer(who: Who) -> Deliverer {
    match who {
        Who::Feeder(id) => Deliverer::Feeder(PublicKey(id)),
        Who::Peer(id) => Deliverer::Peer(PublicKey(id)),
        Who::Relay => Deliverer::Relay,
        Who::Restored(class) => Deliverer::Restored(CLASSES[class as usize]),
        Who::Kind(..) => unreachable!("exchanged for the deliverer that it names"),
    }
}

fn verdict(of: rust::Verdict) -> Verdict {
    match of {
        rust::Verdict::New => Verdict::New,
        rust::Verdict::Duplicate => Verdict::Duplicate,
        rust::Verdict::Late => Verdict::Late,
        rust::Verdict::Ahead => Verdict::Ahead,
        rust::Verdict::Full => Verdict::Full,
        rust::Verdict::Unjudged => Verdict::Unjudged,
        rust::Verdict::Unanchored => unreachable!("no table answers it"),
    }
}

fn restored(of: Result<(usize, Restored), String>) -> Answer {
    match of {
        Ok((read, Restored::Whole)) => Answer::Whole(read as u64),
        Ok((read, Restored::Partly)) => Answer::Partly(read as u64),
        Err(_) => Answer::Refused(refusals::CUT_SHORT),
    }
}
