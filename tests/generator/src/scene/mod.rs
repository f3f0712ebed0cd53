//! One list as it comes about: the present opening, its clock, the tickets brought so far and the
//! dumps taken, from which the next call is drawn.

mod clock;
mod dumps;
mod host;
mod opening;
mod ticket;

use std::collections::VecDeque;

use calls::call::Ticket;
use calls::{Answer, Call, Form, Look, Settings};

use crate::profile::{Profile, Weights};
use crate::random::Random;

/// The tickets and dumps that are remembered.
const TICKETS: usize = 64;
const DUMPS: usize = 8;

/// Draws a call of one sort.
type Act = fn(&mut Scene) -> Call;

pub struct Scene {
    profile: &'static Profile,
    random: Random,
    settings: Settings,
    reading: u64,
    /// About where the clock goes, if it goes along an edge.
    edge: u64,
    /// The calls that are left when a clock steps back that does so once.
    fall: Option<u64>,
    /// Whether each register waits for its begin.
    pending: Vec<bool>,
    /// The last floor that each register told.
    floors: Vec<u64>,
    tickets: VecDeque<Ticket>,
    dumps: VecDeque<Vec<u8>>,
    /// How often the next dump goes back into its own register.
    returns: u64,
    /// Calls already drawn.
    ahead: VecDeque<Call>,
    /// Calls from this opening to the next, and how many of them are left.
    stretch: u64,
    left: u64,
}

impl Scene {
    pub fn new(profile: &'static Profile, seed: u64) -> Self {
        Self {
            profile,
            random: Random::new(seed),
            settings: Settings::default(),
            reading: 0,
            edge: 0,
            fall: None,
            pending: Vec::new(),
            floors: Vec::new(),
            tickets: VecDeque::new(),
            dumps: VecDeque::new(),
            returns: 0,
            ahead: VecDeque::new(),
            stretch: 0,
            left: 0,
        }
    }

    /// The next call of the list.
    pub fn call(&mut self) -> Call {
        let mut call = self.next();
        if self.profile.clock.rises() {
            self.read_clock(&mut call);
        }
        call
    }

    fn next(&mut self) -> Call {
        if let Some(call) = self.ahead.pop_front() {
            return call;
        }
        if self.left == 0 {
            return self.open();
        }
        self.left -= 1;
        self.draw()
    }

    /// What an answer tells that later calls are drawn from.
    pub fn learn(&mut self, call: &Call, answer: &Answer) {
        match (call, answer) {
            (Call::Dump { register, .. }, Answer::Bytes(bytes)) => {
                keep(&mut self.dumps, DUMPS, bytes.clone());
                self.bring_back(*register, bytes);
            }
            (Call::Dump { .. }, _) => self.returns = 0,
            (Call::Look(Look::Floor { register }), Answer::Perhaps(Some(floor))) => {
                self.floors[*register as usize] = *floor;
                let windows = self.settings.windows[*register as usize];
                if *floor > self.reading.saturating_add(windows.ahead()) {
                    self.end_soon();
                }
            }
            (Call::Begin { register, .. }, Answer::Begun) => {
                self.pending[*register as usize] = false;
            }
            (Call::Close, _) => self.end_soon(),
            (Call::Ask { form, ticket }, Answer::Verdict(_)) if form.takes() => {
                keep(&mut self.tickets, TICKETS, *ticket);
            }
            _ => {}
        }
    }

    /// What is closed, or has its floor past its windows, has one answer left: a few calls more.
    fn end_soon(&mut self) {
        self.left = self.left.min(12);
    }

    fn draw(&mut self) -> Call {
        self.tick_clock();
        let Weights {
            take,
            take_batch,
            judge,
            judge_batch,
            again,
            contains,
            begin,
            tick,
            expire,
            sweep,
            limits,
            close,
            dump,
            dump_into,
            restore,
            restore_made,
            restore_own,
            restore_over,
            resume,
            damage,
            every_cut,
            every_field,
            look,
            unfit,
            view,
        } = self.profile.weights;
        let acts: [(u64, Act); 25] = [
            (take, |scene| scene.ask(Form::Take)),
            (take_batch, |scene| scene.ask(Form::TakeBatch)),
            (judge, |scene| scene.ask(Form::Judge)),
            (judge_batch, |scene| scene.ask(Form::JudgeBatch)),
            (again, Self::again),
            (contains, Self::contains),
            (begin, Self::begin),
            (tick, Self::tick),
            (expire, Self::expire),
            (sweep, Self::sweep),
            (limits, |scene| Call::Limits(scene.limits())),
            (close, |_| Call::Close),
            (dump, |scene| Call::Dump {
                register: scene.register(),
                length: None,
            }),
            (dump_into, Self::dump_into),
            (restore, Self::restore),
            (restore_made, Self::restore_made),
            (restore_own, Self::restore_own),
            (restore_over, Self::restore_over),
            (resume, Self::resume),
            (damage, Self::damaged),
            (every_cut, Self::every_cut),
            (every_field, Self::every_field),
            (look, Self::look),
            (unfit, Self::unfit),
            (view, Self::view),
        ];
        let mut at = self
            .random
            .below(acts.iter().map(|(weight, _)| weight).sum());
        for (weight, act) in acts {
            if at < weight {
                return act(self);
            }
            at -= weight;
        }
        unreachable!("a number below the sum falls into one of its parts")
    }
}

/// The newest `most` are kept.
fn keep<T>(list: &mut VecDeque<T>, most: usize, one: T) {
    if list.len() == most {
        list.pop_front();
    }
    list.push_back(one);
}
