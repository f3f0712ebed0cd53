//! A share book and its registers, which own their words.

use crate::answers::{
    Begun, Class, Deliverer, Generation, Reason, Refusal, Restored, Start, Swept, Totals, Verdict,
};
use crate::raw::{self, Ask, Manner};
use crate::settings::{Limits, Settings};

/// A meter's ticket.
#[derive(Clone, Copy, Debug, PartialEq, Eq, Hash)]
pub struct Ticket {
    /// 0 is read as 1.
    pub fingerprint: u64,
    /// Milliseconds of the clock of whoever made it.
    pub stamp: u64,
}

/// A reading of this gateway's clock.
#[derive(Clone, Copy, Debug, PartialEq, Eq, Hash)]
pub struct Reading {
    pub ms: u64,
    /// Whether the clock can be relied on; where it cannot, every ticket is [`Verdict::Unjudged`].
    pub judging: bool,
}

impl Reading {
    /// Of a clock that judges.
    pub const fn at(ms: u64) -> Self {
        Self { ms, judging: true }
    }
}

/// A share book and its registers. A register is named by its number, from 0, in the order of the settings.
///
/// Its calls take `&mut self` wherever they may alter a word, so one gateway serves one thread at a time.
///
/// ```
/// use strikes::{Deliverer, Gateway, Limits, Reading, Settings, Start, Ticket, Verdict, Window, Windows};
///
/// # fn main() -> Result<(), strikes::Refusal> {
/// let windows = Windows { origin: Window::of(10_000, 2_000), copy: Window::of(20_000, 2_000), bucket: 1_000, slots: 8 };
/// let settings = Settings::new().register(windows);
/// let limits = Limits { feeder: 100, feeders: 1_000, peer: 100, peers: 1_000, relay: 100 };
/// let mut gateway = Gateway::open(&settings, &limits, &[Start::Empty])?;
///
/// let ticket = Ticket { fingerprint: 7, stamp: 100_000 };
/// let (meter, neighbour) = (Deliverer::Feeder(1), Deliverer::Peer(9));
/// assert_eq!(gateway.take(0, ticket, Reading::at(100_000), meter)?, Verdict::New);
/// assert_eq!(gateway.take(0, ticket, Reading::at(100_400), neighbour)?, Verdict::Duplicate);
///
/// // The clock passes the ticket's bucket: it is forgotten, and the floor stands for it.
/// gateway.tick(120_001)?;
/// assert_eq!(gateway.floor(0)?, Some(100_000));
/// // Stepped back, the clock finds the neighbour's copy in its window again, and it is not counted.
/// assert_eq!(gateway.take(0, ticket, Reading::at(100_000), neighbour)?, Verdict::Late);
/// # Ok(())
/// # }
/// ```
#[derive(Clone, Debug, PartialEq, Eq)]
pub struct Gateway {
    settings: [u64; raw::SETTINGS],
    words: Vec<u64>,
}

impl Gateway {
    /// A new book and its registers, one start for each.
    ///
    /// ```
    /// use strikes::{Gateway, Limits, Refusal, Settings, Start, Window, Windows};
    ///
    /// let windows = Windows { bucket: 1_000, slots: 3, ..Windows::default() };
    /// let refused = Gateway::open(&Settings::new().register(windows), &Limits::default(), &[Start::Empty]);
    /// assert_eq!(refused.err(), Some(Refusal::Unfit)); // 3 is no power of two
    /// ```
    pub fn open(settings: &Settings, limits: &Limits, starts: &[Start]) -> Result<Self, Refusal> {
        if starts.len() != settings.registers().len() {
            return Err(Refusal::Unfit);
        }
        let needed = settings.words_needed()?;
        let mut gateway = Self {
            settings: settings.words(),
            words: vec![0; needed as usize],
        };
        let mut codes = [0; raw::STARTS];
        for (at, start) in starts.iter().enumerate() {
            (codes[2 * at], codes[2 * at + 1]) = start.codes();
        }
        raw::open(
            &gateway.settings,
            &limits.words(),
            &codes,
            &mut gateway.words,
        )?;
        Ok(gateway)
    }

    /// A gateway over words that one of the same settings left, as a host may keep them over a restart. They are tested here, and
    /// with every later call.
    ///
    /// ```
    /// # use strikes::{Gateway, Limits, Refusal, Settings, Start, Window, Windows};
    /// # fn main() -> Result<(), Refusal> {
    /// # let settings = Settings::new().register(Windows { bucket: 1_000, slots: 8, ..Windows::default() });
    /// let gateway = Gateway::open(&settings, &Limits::default(), &[Start::At(5)])?;
    /// let mut words = gateway.into_words();
    /// assert_eq!(Gateway::over(&settings, words.clone())?.floor(0)?, Some(5));
    /// words[0] = 9;
    /// assert_eq!(Gateway::over(&settings, words).err(), Some(Refusal::Unsound));
    /// # Ok(())
    /// # }
    /// ```
    pub fn over(settings: &Settings, words: Vec<u64>) -> Result<Self, Refusal> {
        let gateway = Self {
            settings: settings.words(),
            words,
        };
        gateway.totals(Class::Feeders)?;
        Ok(gateway)
    }

    /// Its words, to be kept or looked at.
    pub fn words(&self) -> &[u64] {
        &self.words
    }

    pub fn into_words(self) -> Vec<u64> {
        self.words
    }

    fn ask(
        &mut self,
        manner: Manner,
        register: u64,
        ticket: Ticket,
        now: Reading,
        who: Deliverer,
    ) -> Result<Verdict, Refusal> {
        let ask = ask_of(register, ticket, now, who);
        let verdict = raw::ask(manner, &self.settings, &mut self.words, &ask)?;
        Ok(Verdict::of(verdict).expect("the library answers one of six verdicts"))
    }

    /// What a take would make of the ticket, shares and room apart. It sweeps, and remembers nothing.
    pub fn judge(
        &mut self,
        register: u64,
        ticket: Ticket,
        now: Reading,
        who: Deliverer,
    ) -> Result<Verdict, Refusal> {
        self.ask(raw::judge, register, ticket, now, who)
    }

    /// As [`judge`](Self::judge), with [`Verdict::Ahead`] for a ticket past the front of its window.
    pub fn judge_batch(
        &mut self,
        register: u64,
        ticket: Ticket,
        now: Reading,
        who: Deliverer,
    ) -> Result<Verdict, Refusal> {
        self.ask(raw::judge_batch, register, ticket, now, who)
    }

    /// Judges the ticket, and where it is New draws a share and remembers it. Count a ticket only where this says New.
    pub fn take(
        &mut self,
        register: u64,
        ticket: Ticket,
        now: Reading,
        who: Deliverer,
    ) -> Result<Verdict, Refusal> {
        self.ask(raw::take, register, ticket, now, who)
    }

    /// As [`take`](Self::take), with [`Verdict::Ahead`] for a ticket past the front of its window.
    pub fn take_batch(
        &mut self,
        register: u64,
        ticket: Ticket,
        now: Reading,
        who: Deliverer,
    ) -> Result<Verdict, Refusal> {
        self.ask(raw::take_batch, register, ticket, now, who)
    }

    /// Why a [`take`](Self::take) of the ticket would answer as it would: the first rule that is met by the register as a sweep at this
    /// reading would leave it. Nothing is altered, and no sweep is made. A take that was not New can be explained after it too, with the
    /// same arguments.
    ///
    /// ```
    /// # use strikes::{Class, Deliverer, Gateway, Limits, Reading, Reason, Refusal, Settings, Start, Ticket, Verdict, Window, Windows};
    /// # fn main() -> Result<(), Refusal> {
    /// let windows = Windows { origin: Window::of(10_000, 2_000), copy: Window::of(20_000, 2_000), bucket: 1_000, slots: 8 };
    /// # let settings = Settings::new().register(windows);
    /// # let limits = Limits { feeder: 9, feeders: 9, peer: 9, peers: 9, relay: 9 };
    /// let mut gateway = Gateway::open(&settings, &limits, &[Start::Empty])?;
    /// let (ticket, meter) = (Ticket { fingerprint: 7, stamp: 100_000 }, Deliverer::Feeder(1));
    /// let why = |gateway: &Gateway, ms| gateway.explain(0, ticket, Reading::at(ms), meter);
    /// assert_eq!(why(&gateway, 100_000)?, Reason::Accepted);
    /// gateway.take(0, ticket, Reading::at(100_000), meter)?;
    /// assert_eq!(why(&gateway, 100_000)?, Reason::Held(Class::Feeders));
    ///
    /// // At this reading a take would sweep the ticket's bucket away and find its stamp at the floor. Explained, it is still there.
    /// let reason = why(&gateway, 120_001)?;
    /// assert_eq!((reason, reason.verdict()), (Reason::Floor, Verdict::Late));
    /// assert_eq!(reason.to_string(), "its stamp is not above the floor");
    /// assert_eq!(gateway.floor(0)?, None);
    /// assert_eq!(gateway.take(0, ticket, Reading::at(120_001), meter)?, Verdict::Late);
    /// assert_eq!(why(&gateway, 120_001)?, Reason::Floor);
    /// # Ok(())
    /// # }
    /// ```
    pub fn explain(
        &self,
        register: u64,
        ticket: Ticket,
        now: Reading,
        who: Deliverer,
    ) -> Result<Reason, Refusal> {
        let ask = ask_of(register, ticket, now, who);
        let (rule, class, _) = raw::explain(
            &self.settings,
            &self.words,
            ask.register,
            ask.fingerprint,
            ask.stamp,
            ask.reading,
            ask.flag,
            ask.kind,
            ask.number,
        )?;
        Ok(Reason::of(rule, class).expect("the library names one of sixteen rules"))
    }

    /// The smallest stamp with which a [`take_batch`](Self::take_batch) of the fingerprint would get the wanted verdict; none where no
    /// stamp would. Nothing is altered, and no sweep is made. docs/HOST-GUIDE.md, "How to provoke each verdict", has an order in which
    /// the verdicts can be brought about.
    ///
    /// ```
    /// # use strikes::{Deliverer, Gateway, Limits, Reading, Refusal, Settings, Start, Ticket, Verdict, Window, Windows};
    /// # fn main() -> Result<(), Refusal> {
    /// let windows = Windows { origin: Window::of(10_000, 2_000), copy: Window::of(20_000, 2_000), bucket: 1_000, slots: 8 };
    /// # let settings = Settings::new().register(windows);
    /// # let limits = Limits { feeder: 9, feeders: 9, peer: 9, peers: 9, relay: 9 };
    /// let mut gateway = Gateway::open(&settings, &limits, &[Start::Empty])?;
    /// let (now, meter) = (Reading::at(100_000), Deliverer::Feeder(1));
    /// gateway.take(0, Ticket { fingerprint: 7, stamp: 100_000 }, now, meter)?;
    ///
    /// let stamp_for = |gateway: &Gateway, wanted| gateway.stamp_for(0, 7, now, meter, wanted);
    /// assert_eq!(stamp_for(&gateway, Verdict::Late)?, Some(0));
    /// assert_eq!(stamp_for(&gateway, Verdict::New)?, Some(90_000)); // the window's first
    /// assert_eq!(stamp_for(&gateway, Verdict::Duplicate)?, Some(99_001)); // the first of the bucket that holds it
    /// assert_eq!(stamp_for(&gateway, Verdict::Ahead)?, Some(102_001));
    /// assert_eq!(stamp_for(&gateway, Verdict::Full)?, None);
    ///
    /// gateway.close()?;
    /// assert_eq!((stamp_for(&gateway, Verdict::New)?, stamp_for(&gateway, Verdict::Full)?), (None, Some(90_000)));
    /// # Ok(())
    /// # }
    /// ```
    pub fn stamp_for(
        &self,
        register: u64,
        fingerprint: u64,
        now: Reading,
        who: Deliverer,
        wanted: Verdict,
    ) -> Result<Option<u64>, Refusal> {
        let (kind, number) = who.codes();
        let (found, stamp) = raw::stamp_for(
            &self.settings,
            &self.words,
            register,
            fingerprint,
            now.ms,
            u64::from(now.judging),
            kind,
            number,
            wanted.number(),
        )?;
        Ok((found == 1).then_some(stamp))
    }

    /// Whether any bucket of the register holds the fingerprint.
    pub fn contains_hash(&self, register: u64, fingerprint: u64) -> Result<bool, Refusal> {
        let held = raw::contains_hash(&self.settings, &self.words, register, fingerprint)?;
        Ok(held == 1)
    }

    /// Lets a register that started as [`Start::Fallback`] judge, with nothing New up to `floor`.
    ///
    /// ```
    /// # use strikes::{Begun, Deliverer, Gateway, Limits, Reading, Refusal, Settings, Start, Ticket, Verdict, Window, Windows};
    /// # fn main() -> Result<(), Refusal> {
    /// # let window = Window::of(10_000, 2_000);
    /// # let settings = Settings::new().register(Windows { origin: window, copy: window, bucket: 1_000, slots: 8 });
    /// # let limits = Limits { feeder: 9, feeders: 9, ..Limits::default() };
    /// let mut gateway = Gateway::open(&settings, &limits, &[Start::Fallback])?;
    /// let ticket = Ticket { fingerprint: 7, stamp: 100_001 };
    /// let now = Reading::at(100_500);
    /// assert_eq!(gateway.take(0, ticket, now, Deliverer::Feeder(1))?, Verdict::Unjudged);
    /// assert_eq!(gateway.begin(0, 100_000)?, Begun::Begun);
    /// assert_eq!(gateway.take(0, ticket, now, Deliverer::Feeder(1))?, Verdict::New);
    /// assert_eq!(gateway.begin(0, 200_000)?, Begun::Already);
    /// # Ok(())
    /// # }
    /// ```
    pub fn begin(&mut self, register: u64, floor: u64) -> Result<Begun, Refusal> {
        let begun = raw::begin(&self.settings, &mut self.words, register, floor)?;
        Ok(match begun {
            1 => Begun::Begun,
            _ => Begun::Already,
        })
    }

    /// The host's tick: sweeps every register by the clock, then frees the entries that all of them are past.
    pub fn tick(&mut self, ms: u64) -> Result<(), Refusal> {
        for register in 0..self.settings[0] {
            self.sweep(register, ms)?;
        }
        self.expire(ms)
    }

    /// Drops what the clock has passed in one register.
    pub fn sweep(&mut self, register: u64, ms: u64) -> Result<(), Refusal> {
        raw::sweep(&self.settings, &mut self.words, register, ms)
    }

    /// Frees the entries of seconds that every register is swept past, by this reading at most.
    pub fn expire(&mut self, ms: u64) -> Result<(), Refusal> {
        raw::expire(&self.settings, &mut self.words, ms)
    }

    /// Other limits from now on; what is drawn stays drawn.
    pub fn set_limits(&mut self, limits: &Limits) -> Result<(), Refusal> {
        raw::set_limits(&self.settings, &mut self.words, &limits.words())
    }

    /// Draws no share from now on: before the dumps of a stop, so that nothing is counted after them.
    pub fn close(&mut self) -> Result<(), Refusal> {
        raw::close(&self.settings, &mut self.words)
    }

    /// A register's dump.
    ///
    /// ```
    /// # use strikes::{Deliverer, Gateway, Limits, Reading, Refusal, Restored, Settings, Start, Ticket, Verdict, Window, Windows};
    /// # fn main() -> Result<(), Refusal> {
    /// # let window = Window::of(10_000, 2_000);
    /// # let settings = Settings::new().register(Windows { origin: window, copy: window, bucket: 1_000, slots: 8 });
    /// # let limits = Limits { feeder: 9, feeders: 9, ..Limits::default() };
    /// let mut gateway = Gateway::open(&settings, &limits, &[Start::Empty])?;
    /// let (ticket, now) = (Ticket { fingerprint: 7, stamp: 100_000 }, Reading::at(100_000));
    /// gateway.take(0, ticket, now, Deliverer::Feeder(1))?;
    /// gateway.close()?;
    /// let dump = gateway.dump(0)?;
    ///
    /// let mut next = Gateway::open(&settings, &limits, &[Start::Empty])?;
    /// assert_eq!(next.restore(0, &dump)?, Restored::Whole(dump.len() as u64));
    /// assert_eq!(next.take(0, ticket, now, Deliverer::Feeder(1))?, Verdict::Duplicate);
    /// assert_eq!(next.restore(0, &dump[1..]), Err(Refusal::CutShort));
    /// # Ok(())
    /// # }
    /// ```
    pub fn dump(&self, register: u64) -> Result<Vec<u8>, Refusal> {
        // No dump has more words than the register itself.
        let mut out = vec![0; 8 * self.words.len()];
        let written = raw::dump(&self.settings, &self.words, register, &mut out)?;
        out.truncate(written as usize);
        Ok(out)
    }

    /// Brings back what a dump lists, charged to [`Deliverer::Restored`]. A ticket that was New before is not New again, however the
    /// restore comes out.
    pub fn restore(&mut self, register: u64, dump: &[u8]) -> Result<Restored, Refusal> {
        raw::restore(&self.settings, &mut self.words, register, dump).map(restored)
    }

    /// As [`restore`](Self::restore), but the register's floor becomes the dump's own, or `proven` where that is larger: only for
    /// the dump of a stop, read back into a register that has taken nothing since.
    pub fn resume(
        &mut self,
        register: u64,
        dump: &[u8],
        proven: Option<u64>,
    ) -> Result<Restored, Refusal> {
        let (flag, floor) = proven.map_or((0, 0), |floor| (1, floor));
        raw::resume(&self.settings, &mut self.words, register, dump, flag, floor).map(restored)
    }

    /// A register's floor: nothing stamped up to it is New.
    pub fn floor(&self, register: u64) -> Result<Option<u64>, Refusal> {
        let (present, floor) = raw::floor(&self.settings, &self.words, register)?;
        Ok((present == 1).then_some(floor))
    }

    /// Whether a register waits for its [`begin`](Self::begin).
    pub fn pending(&self, register: u64) -> Result<bool, Refusal> {
        Ok(raw::pending(&self.settings, &self.words, register)? == 1)
    }

    /// How far a register is swept.
    pub fn swept(&self, register: u64) -> Result<Swept, Refusal> {
        let (bucket, published) = raw::swept(&self.settings, &self.words, register)?;
        Ok(Swept { bucket, published })
    }

    /// A deliverer's entries.
    pub fn held(&self, who: Deliverer) -> Result<u64, Refusal> {
        let (kind, number) = who.codes();
        raw::held(&self.settings, &self.words, kind, number)
    }

    /// What the book remembers of a deliverer: the seconds in which its entries expire with the number in each, seconds rising, and its
    /// entries together. Of one that has none: no pair, and 0.
    ///
    /// ```
    /// # use strikes::{Deliverer, Gateway, Limits, Reading, Refusal, Settings, Start, Ticket, Window, Windows};
    /// # fn main() -> Result<(), Refusal> {
    /// # let window = Window::of(10_000, 2_000);
    /// # let settings = Settings::new().register(Windows { origin: window, copy: window, bucket: 1_000, slots: 8 });
    /// # let limits = Limits { feeder: 9, feeders: 9, ..Limits::default() };
    /// let mut gateway = Gateway::open(&settings, &limits, &[Start::Empty])?;
    /// let meter = Deliverer::Feeder(1);
    /// for (fingerprint, stamp) in [(7, 100_000), (8, 99_500), (9, 99_000)] {
    ///     gateway.take(0, Ticket { fingerprint, stamp }, Reading::at(100_000), meter)?;
    /// }
    /// assert_eq!(gateway.pairs_of(meter)?, (vec![(109, 1), (110, 2)], 3));
    /// assert_eq!(gateway.pairs_of(Deliverer::Feeder(2))?, (vec![], 0));
    /// # Ok(())
    /// # }
    /// ```
    pub fn pairs_of(&self, who: Deliverer) -> Result<(Vec<(u64, u64)>, u64), Refusal> {
        let (kind, number) = who.codes();
        let mut out = vec![0; raw::DELIVERER_VIEW];
        let written = raw::view_deliverer(&self.settings, &self.words, kind, number, &mut out)?;
        let (pairs, entries) = out[..written as usize].as_chunks();
        let pairs = pairs.iter().map(|&[second, count]| (second, count));
        Ok((pairs.collect(), entries[0]))
    }

    /// What a register holds: its generations that hold something, in the sequence of a dump, so those of Feeders first, then those of
    /// Peers and Own, each by position. A register that is pending is told too, and nothing is swept.
    ///
    /// ```
    /// # use strikes::{Deliverer, Gateway, Generation, Limits, Reading, Refusal, Settings, Start, Ticket, Window, Windows};
    /// # fn main() -> Result<(), Refusal> {
    /// # let window = Window::of(10_000, 2_000);
    /// # let settings = Settings::new().register(Windows { origin: window, copy: window, bucket: 1_000, slots: 8 });
    /// # let limits = Limits { feeder: 9, feeders: 9, ..Limits::default() };
    /// let mut gateway = Gateway::open(&settings, &limits, &[Start::Empty])?;
    /// assert_eq!(gateway.generations(0)?, vec![]);
    /// for (fingerprint, stamp) in [(7, 99_400), (8, 99_900), (9, 99_100)] {
    ///     gateway.take(0, Ticket { fingerprint, stamp }, Reading::at(100_000), Deliverer::Feeder(1))?;
    /// }
    /// let held = Generation { bucket: 110, oldest: 99_100, newest: 99_900, held: 3 };
    /// assert_eq!(gateway.generations(0)?, vec![held]);
    /// assert_eq!(gateway.generations(1), Err(Refusal::NoRegister));
    /// # Ok(())
    /// # }
    /// ```
    pub fn generations(&self, register: u64) -> Result<Vec<Generation>, Refusal> {
        let mut out = vec![0; raw::REGISTER_VIEW];
        let written = raw::view_register(&self.settings, &self.words, register, &mut out)?;
        let (all, _) = out[..written as usize].as_chunks();
        Ok(all.iter().copied().map(generation).collect())
    }

    /// A class's part of the book.
    pub fn totals(&self, class: Class) -> Result<Totals, Refusal> {
        let (entries, holders, units, expired) =
            raw::class(&self.settings, &self.words, class.number())?;
        Ok(Totals {
            entries,
            holders,
            units,
            expired,
        })
    }
}

fn ask_of(register: u64, ticket: Ticket, now: Reading, who: Deliverer) -> Ask {
    let (kind, number) = who.codes();
    Ask {
        register,
        fingerprint: ticket.fingerprint,
        stamp: ticket.stamp,
        reading: now.ms,
        flag: u64::from(now.judging),
        kind,
        number,
    }
}

fn generation([bucket, oldest, newest, held]: [u64; 4]) -> Generation {
    Generation {
        bucket,
        oldest,
        newest,
        held,
    }
}

fn restored((whole, read): (u64, u64)) -> Restored {
    match whole {
        1 => Restored::Whole(read),
        _ => Restored::Partly(read),
    }
}
