//! The register behind the trait of a machine that runs lists of calls (docs/CALLS.md): what `build/strikes replay` runs, and what is
//! compared with the Rust.

use calls::call::Ticket;
use calls::{
    Answer, Call, Form, Length, Limits, Look, Machine, Reason, Settings, Start, Verdict, Who,
};
use strikes::raw::{self, Ask, Manner};
use strikes::{Reason as Why, Refusal, Verdict as Said};

/// The words that a list can be lent at most, whatever a `lend` line says.
const MOST: u64 = 1 << 24;

/// A run of words with the settings of the last opening that went through.
#[derive(Default)]
pub struct Product {
    /// None before the first opening that went through.
    kept: Option<[u64; raw::SETTINGS]>,
    /// What the next call brings instead.
    brought: Option<[u64; raw::SETTINGS]>,
    /// The words lent, once a line has said so.
    lent: Option<u64>,
    words: Vec<u64>,
    /// For the bytes of a dump.
    out: Vec<u8>,
    /// For the words of a view.
    view: Vec<u64>,
}

impl Machine for Product {
    fn run(&mut self, call: &Call) -> Answer {
        match call {
            Call::Lend { words } => self.lend(*words),
            Call::Bring(settings) => {
                self.brought = Some(settings_words(settings));
                Answer::Ok
            }
            Call::Poke { at, value } => self.poke(*at, *value),
            Call::Open { settings, starts } => self.open(settings, starts),
            _ => self.serve(call),
        }
    }
}

impl Product {
    /// The whole run of words, for looking at.
    pub fn words(&self) -> &[u64] {
        &self.words
    }

    fn lend(&mut self, words: u64) -> Answer {
        self.lent = Some(words);
        self.make_room(words);
        Answer::Ok
    }

    /// The run is as long as the longest part of it that was asked for; it keeps its content.
    fn make_room(&mut self, words: u64) {
        let wanted = words.min(MOST) as usize;
        if self.words.len() < wanted {
            self.words.resize(wanted, 0);
        }
    }

    fn poke(&mut self, at: u64, value: u64) -> Answer {
        let word = usize::try_from(at)
            .ok()
            .and_then(|at| self.words.get_mut(at));
        match word {
            Some(word) => {
                *word = value;
                Answer::Ok
            }
            None => Answer::Apart,
        }
    }

    /// How much of the run is lent: all of it unless a line said otherwise.
    fn lent(&self) -> usize {
        let all = self.words.len();
        self.lent
            .map_or(all, |lent| all.min(usize::try_from(lent).unwrap_or(all)))
    }

    fn open(&mut self, settings: &Settings, starts: &[Start]) -> Answer {
        self.brought = None;
        let words = settings_words(settings);
        if let (None, Ok(needed)) = (self.lent, raw::words_needed(&words)) {
            self.make_room(needed);
        }
        let lent = self.lent();
        let limits = settings.limits.all();
        match raw::open(
            &words,
            &limits,
            &start_words(starts),
            &mut self.words[..lent],
        ) {
            Ok(()) => {
                self.kept = Some(words);
                Answer::Opened
            }
            Err(refusal) => refused(refusal),
        }
    }

    /// Any call on what was opened.
    fn serve(&mut self, call: &Call) -> Answer {
        let brought = self.brought.take();
        let Some(kept) = self.kept else {
            return Answer::Apart;
        };
        let settings = brought.unwrap_or(kept);
        let lent = self.lent();
        let words = &mut self.words[..lent];
        let answer = match call {
            Call::Dump { register, length } => {
                return dump(&settings, words, *register, *length, &mut self.out);
            }
            Call::Look(of) => look(&settings, words, of, &mut self.view),
            _ => serve(&settings, words, call),
        };
        answer.unwrap_or_else(refused)
    }
}

/// A call that is no opening and no dump, does not only read and sets no stage.
fn serve(settings: &[u64], words: &mut [u64], call: &Call) -> Result<Answer, Refusal> {
    Ok(match call {
        Call::Ask { form, ticket } => {
            let verdict = raw::ask(manner(*form), settings, words, &ask(ticket))?;
            Said::of(verdict).map_or(Answer::Broke, |said| Answer::Verdict(verdict_of(said)))
        }
        Call::Begin { register, number } => {
            match raw::begin(settings, words, *register, *number)? {
                1 => Answer::Begun,
                _ => Answer::Already,
            }
        }
        Call::Expire { reading } => done(raw::expire(settings, words, *reading)?),
        Call::Sweep { register, reading } => {
            done(raw::sweep(settings, words, *register, *reading)?)
        }
        Call::Limits(limits) => done(raw::set_limits(settings, words, &Limits::all(limits))?),
        Call::Close => done(raw::close(settings, words)?),
        Call::Restore { register, bytes } => {
            restored(raw::restore(settings, words, *register, bytes)?)
        }
        Call::Resume {
            register,
            bytes,
            proven,
        } => {
            let (flag, floor) = proven.map_or((0, 0), |floor| (1, floor));
            restored(raw::resume(settings, words, *register, bytes, flag, floor)?)
        }
        Call::Open { .. }
        | Call::Dump { .. }
        | Call::Look(_)
        | Call::Lend { .. }
        | Call::Bring(_)
        | Call::Poke { .. } => {
            unreachable!("served elsewhere")
        }
    })
}

/// Hands a reading call's parts to its entry point, one by one: a deliverer is two numbers there, a wanted verdict its number, and a length
/// an output of so many words, which is told with what was written into it.
macro_rules! hand {
    ($out:ident, $name:ident($($handed:expr),*)) => {
        raw::$name($($handed),*)
    };
    ($out:ident, $name:ident($($handed:expr),*) $length:ident: Length,) => {
        raw::$name($($handed),*, lend_view($out, $length)).map(|written| (written, &$out[..]))
    };
    ($out:ident, $name:ident($($handed:expr),*) $who:ident: Who, $($left:tt)*) => {
        hand!($out, $name($($handed),*, codes($who).0, codes($who).1) $($left)*)
    };
    ($out:ident, $name:ident($($handed:expr),*) $wanted:ident: Wanted, $($left:tt)*) => {
        hand!($out, $name($($handed),*, $wanted.number()) $($left)*)
    };
    ($out:ident, $name:ident($($handed:expr),*) $number:ident, $($left:tt)*) => {
        hand!($out, $name($($handed),*, $number) $($left)*)
    };
}

macro_rules! run {
    ($($look:ident $name:ident($($part:ident $(: $of:ident)?),*) -> $answer:ident;)*) => {
        /// A reading call at the entry point of its name; a view goes into `out`.
        fn look(settings: &[u64], words: &[u64], look: &Look, out: &mut Vec<u64>) -> Result<Answer, Refusal> {
            Ok(match *look {
                $(Look::$look { $($part),* } => $answer(hand!(out, $name(settings, words) $($part $(: $of)?,)*)?)),*
            })
        }
    };
}

calls::looks!(run);

/// A dump into an output of `length` bytes, or one that is long enough: no dump is longer than the words that it is of.
fn dump(
    settings: &[u64],
    words: &[u64],
    register: u64,
    length: Option<u64>,
    out: &mut Vec<u8>,
) -> Answer {
    lend(out, length, 8 * words.len());
    match raw::dump(settings, words, register, out) {
        Ok(written) => out
            .get(..written as usize)
            .map_or(Answer::Broke, |bytes| Answer::Bytes(bytes.to_vec())),
        Err(refusal) => refused(refusal),
    }
}

/// An output of `length`, or one that is enough; none is longer.
fn lend<T: Clone + Default>(out: &mut Vec<T>, length: Length, enough: usize) {
    let length = length.and_then(|length| usize::try_from(length).ok());
    let length = length.map_or(enough, |length| length.min(enough));
    out.resize(length, T::default());
}

/// An output for a view.
fn lend_view(out: &mut Vec<u64>, length: Length) -> &mut [u64] {
    lend(out, length, raw::REGISTER_VIEW.max(raw::DELIVERER_VIEW));
    out
}

fn done(_: ()) -> Answer {
    Answer::Ok
}

fn refused(refusal: Refusal) -> Answer {
    Answer::Refused(refusal.number())
}

fn whether(number: u64) -> Answer {
    Answer::Whether(number == 1)
}

fn perhaps((present, number): (u64, u64)) -> Answer {
    Answer::Perhaps((present == 1).then_some(number))
}

fn number(number: u64) -> Answer {
    Answer::Numbers(vec![number])
}

fn numbers<const N: usize>(numbers: impl Into<[u64; N]>) -> Answer {
    Answer::Numbers(numbers.into().to_vec())
}

fn view((written, out): (u64, &[u64])) -> Answer {
    out.get(..written as usize)
        .map_or(Answer::Broke, |words| Answer::Viewed(words.to_vec()))
}

/// The verdict that is told must be the one that the rule gives.
fn reason((rule, class, verdict): (u64, u64, u64)) -> Answer {
    match (Why::of(rule, class), Said::of(verdict)) {
        (Some(why), Some(said)) if why.verdict() == said => {
            Answer::Because(verdict_of(said), reason_of(why))
        }
        _ => Answer::Broke,
    }
}

/// Where there is none, the stamp that is told must be 0.
fn stamp((found, stamp): (u64, u64)) -> Answer {
    match (found, stamp) {
        (1, stamp) => Answer::Stamp(Some(stamp)),
        (0, 0) => Answer::Stamp(None),
        _ => Answer::Broke,
    }
}

fn restored((whole, read): (u64, u64)) -> Answer {
    match whole {
        1 => Answer::Whole(read),
        _ => Answer::Partly(read),
    }
}

/// The entry point that a ticket is brought to.
pub fn manner(form: Form) -> Manner {
    match form {
        Form::Judge => raw::judge,
        Form::Take => raw::take,
        Form::JudgeBatch => raw::judge_batch,
        Form::TakeBatch => raw::take_batch,
    }
}

fn ask(ticket: &Ticket) -> Ask {
    let (kind, number) = codes(ticket.who);
    Ask {
        register: ticket.register,
        fingerprint: ticket.fingerprint,
        stamp: ticket.stamp,
        reading: ticket.reading,
        flag: ticket.flag,
        kind,
        number,
    }
}

fn verdict_of(said: Said) -> Verdict {
    match said {
        Said::New => Verdict::New,
        Said::Duplicate => Verdict::Duplicate,
        Said::Late => Verdict::Late,
        Said::Ahead => Verdict::Ahead,
        Said::Full => Verdict::Full,
        Said::Unjudged => Verdict::Unjudged,
    }
}

fn reason_of(why: Why) -> Reason {
    match why {
        Why::Accepted => Reason::Accepted,
        Why::Pending => Reason::Pending,
        Why::Flag => Reason::Flag,
        Why::Held(class) => Reason::Held(class.number()),
        Why::Floor => Reason::Floor,
        Why::Behind => Reason::Behind,
        Why::Ahead => Reason::Ahead,
        Why::Closed => Reason::Closed,
        Why::OwnShare => Reason::OwnShare,
        Why::ClassLimit => Reason::ClassLimit,
        Why::EqualPart => Reason::EqualPart,
        Why::TwiceLimit => Reason::TwiceLimit,
        Why::Places => Reason::Places,
        Why::Pairs => Reason::Pairs,
        Why::Position => Reason::Position,
        Why::Slots => Reason::Slots,
    }
}

/// A deliverer's kind and number.
fn codes(who: Who) -> (u64, u64) {
    match who {
        Who::Feeder(id) => (0, id),
        Who::Peer(id) => (1, id),
        Who::Relay => (2, 0),
        Who::Restored(class) => (3, class),
        Who::Kind(kind, number) => (kind, number),
    }
}

/// The settings as the entry points take them. Registers past the fourth have no words there.
pub fn settings_words(settings: &Settings) -> [u64; raw::SETTINGS] {
    let mut words = [0; raw::SETTINGS];
    words[..5].copy_from_slice(&[
        settings.registers,
        settings.places,
        settings.pairs,
        settings.feeder_units,
        settings.peer_units,
    ]);
    for (at, one) in settings.windows.iter().take(4).enumerate() {
        words[5 + 6 * at..11 + 6 * at].copy_from_slice(&[
            one.origin.behind,
            one.origin.ahead,
            one.copy.behind,
            one.copy.ahead,
            one.bucket,
            one.slots,
        ]);
    }
    words
}

fn start_words(starts: &[Start]) -> [u64; raw::STARTS] {
    let mut words = [0; raw::STARTS];
    for (at, start) in starts.iter().take(4).enumerate() {
        let (code, floor) = match *start {
            Start::Empty => (0, 0),
            Start::Fallback => (1, 0),
            Start::At(floor) => (2, floor),
            Start::Code(code, number) => (code, number),
        };
        (words[2 * at], words[2 * at + 1]) = (code, floor);
    }
    words
}
