//! An account of its own of what the calls of a list did, kept from their arguments and verdicts
//! by document 01's rules, and held against every answer.
//!
//! - **Once.** A ticket that take answered New is never New again on its register, up to an
//!   opening or a resume on that register that went through. A restore ends nothing, however it
//!   came out.
//! - **Equal part.** A party within its equal part is never turned away (`modest`).
//! - **Steady.** Where takes' readings never fell and nothing was restored or resumed since the
//!   opening, no take is Late that judge would answer New.
//! - **Entries** are counted here, draw by draw, and compared with what the machine says.
//!
//! The ledger keeps no floor, no stamps and no slots: Late and Ahead, the order within a dump, and
//! the stamps of a view are left to the comparison of two machines.

mod shares;
mod table;

use std::collections::HashSet;

use calls::call::Ticket;
use calls::{Answer, Call, Form, Look, Reason, Start, Verdict};

use crate::dump::{self, Dump};
use shares::{Draw, Shares};
pub use table::Step;
use table::Table;

/// What a call showed, beside its answer.
#[derive(Default)]
pub struct Noted {
    /// The rule that gave a take's verdict; none where it was the floor or the window, and only the floor tells which.
    pub reason: Option<Reason>,
    /// The side on which the ticket was outside its window.
    pub outside: Option<Reason>,
    /// A ticket struck before was asked for again.
    pub struck: bool,
    /// The equal part's promise was due.
    pub modest: bool,
    /// The promise of a steady clock was due.
    pub steady: bool,
    /// It was due by takes' readings alone, for another had fallen.
    pub steady_takes: bool,
    /// How the register's reading went, where it swept.
    pub step: Option<Step>,
    /// A generation of a dump failed, and what was held in its bucket before it went.
    pub dropped: bool,
    /// A restore brought nothing that was not held.
    pub again: bool,
    /// A restore brought something that was held to a generation with no room for anything else.
    pub filled: bool,
}

#[derive(Default)]
pub struct Ledger {
    shares: Shares,
    tables: Vec<Table>,
    /// For each register, the tickets that take answered New.
    struck: Vec<HashSet<(u64, u64)>>,
}

type Seen = Result<Noted, String>;

pub fn must(holds: bool, why: impl FnOnce() -> String) -> Result<(), String> {
    if holds { Ok(()) } else { Err(why()) }
}

fn plain(holds: bool, why: impl FnOnce() -> String) -> Seen {
    must(holds, why).map(|()| Noted::default())
}

impl Ledger {
    /// Enters a call and its answer. `again` runs a further call on the same machine.
    pub fn saw(
        &mut self,
        call: &Call,
        answer: &Answer,
        again: impl FnMut(&Call) -> Answer,
    ) -> Seen {
        match (call, answer) {
            (_, Answer::Broke) => Err("the machine broke down".into()),
            (_, Answer::Refused(_) | Answer::Apart) => Ok(Noted::default()),
            (Call::Open { settings, starts }, _) => {
                let pending = |start: &Start| matches!(start, Start::Fallback | Start::Code(1, _));
                self.shares = Shares::open(settings);
                let starts = settings.windows.iter().zip(starts);
                self.tables = starts
                    .map(|(windows, start)| Table::open(*windows, pending(start)))
                    .collect();
                self.struck = vec![HashSet::new(); self.tables.len()];
                Ok(Noted::default())
            }
            (Call::Ask { form, ticket }, Answer::Verdict(verdict)) => {
                self.asked(*form, ticket, *verdict, again)
            }
            (Call::Begin { register, .. }, _) => {
                let pending = std::mem::take(&mut self.tables[*register as usize].pending);
                plain(pending == (*answer == Answer::Begun), || {
                    format!("pending was {pending}")
                })
            }
            (Call::Sweep { register, reading }, _) => {
                let step = self.tables[*register as usize].sweep(*reading);
                Ok(Noted {
                    step,
                    ..Noted::default()
                })
            }
            (Call::Expire { reading }, _) => {
                let least = self.tables.iter().map(Table::published).min();
                self.shares
                    .expire(least.map_or(*reading, |least| least.min(*reading)));
                Ok(Noted::default())
            }
            (Call::Limits(limits), _) => {
                self.shares.set(*limits);
                Ok(Noted::default())
            }
            (Call::Close, _) => {
                self.shares.closed = true;
                Ok(Noted::default())
            }
            (Call::Restore { register, bytes }, _) => {
                self.restored(*register as usize, bytes, false, answer)
            }
            (
                Call::Resume {
                    register, bytes, ..
                },
                _,
            ) => self.restored(*register as usize, bytes, true, answer),
            (Call::Dump { register, .. }, _) => {
                self.tables[*register as usize].dumped(answer)?;
                Ok(Noted::default())
            }
            (Call::Look(look), _) => self.looked(look, answer),
            _ => Ok(Noted::default()),
        }
    }

    /// A ticket judged or taken.
    fn asked(
        &mut self,
        form: Form,
        ticket: &Ticket,
        verdict: Verdict,
        again: impl FnMut(&Call) -> Answer,
    ) -> Seen {
        let table = &mut self.tables[ticket.register as usize];
        let judges = !table.pending && ticket.flag == 1;
        must(judges == (verdict != Verdict::Unjudged), || {
            format!("judges is {judges}")
        })?;
        if !judges {
            let unjudged = match table.pending {
                true => Reason::Pending,
                false => Reason::Flag,
            };
            return Ok(Noted {
                reason: Some(unjudged),
                ..Noted::default()
            });
        }
        let step = table.sweep(ticket.reading);
        if form.takes() {
            table.takes_at(ticket.reading);
        }
        let outside = table.outside(ticket);
        let fingerprint = ticket.fingerprint.max(1);
        let holder = table.holder(fingerprint, ticket.stamp);
        must(holder.is_some() == (verdict == Verdict::Duplicate), || {
            format!("held is {holder:?}")
        })?;
        let struck = self.struck[ticket.register as usize].contains(&(fingerprint, ticket.stamp));
        must(!(struck && verdict == Verdict::New), || {
            "New a second time".into()
        })?;
        let mut noted = Noted {
            reason: holder.map(|class| Reason::Held(class as u64)),
            outside,
            struck,
            step,
            ..Noted::default()
        };
        if form.takes() && would_be_new(verdict, ticket, again) {
            self.taken(ticket, verdict, &mut noted)?;
        }
        Ok(noted)
    }

    /// A take whose ticket judge would answer New.
    fn taken(
        &mut self,
        ticket: &Ticket,
        verdict: Verdict,
        noted: &mut Noted,
    ) -> Result<(), String> {
        let who = ticket.who.listed().expect("not refused");
        let table = &mut self.tables[ticket.register as usize];
        let bucket = table.windows.bucket_of(ticket.stamp);
        let draw = Draw {
            who,
            second: table.second_of(bucket),
        };
        noted.steady = table.steady();
        noted.steady_takes = noted.steady && table.fell;
        must(!(noted.steady && verdict == Verdict::Late), || {
            "Late on a steady clock where judge says New".into()
        })?;
        let clash = table.clashes(who.class(), bucket);
        let crowded = table.crowded(who.class(), bucket);
        noted.modest = !crowded && self.shares.modest(&draw);
        let promised = if clash { Verdict::Late } else { Verdict::New };
        must(!noted.modest || verdict == promised, || {
            format!("a modest party is owed {promised}")
        })?;
        let refused = self.shares.refuses(&draw);
        let (due, reason) = match (refused, clash, crowded) {
            (Some(reason), _, _) => (Verdict::Full, reason),
            (None, true, _) => (Verdict::Late, Reason::Position),
            (None, false, true) => (Verdict::Full, Reason::Slots),
            (None, false, false) => (Verdict::New, Reason::Accepted),
        };
        must(verdict == due, || format!("{due} is due, {reason}"))?;
        noted.reason = Some(reason);
        if due == Verdict::New {
            self.shares.enter(&draw);
            table.insert(who.class(), bucket, ticket.fingerprint.max(1));
            self.struck[ticket.register as usize].insert((ticket.fingerprint.max(1), ticket.stamp));
        }
        Ok(())
    }

    /// A dump restored or resumed: every listed fingerprint draws, and at a generation's first
    /// failure its draws go back and its bucket is dropped. After a resume, which forgets the
    /// floor, a struck ticket may be New again.
    fn restored(&mut self, register: usize, bytes: &[u8], forgets: bool, answer: &Answer) -> Seen {
        let Some((dump, read)) = dump::read(bytes) else {
            return Err("the dump is cut short".into());
        };
        let mut noted = Noted {
            again: self.tables[register].knows_all(&dump),
            ..Noted::default()
        };
        self.tables[register].disturbed = true;
        let whole = self.enter(register, &dump, &mut noted);
        if forgets {
            self.struck[register].clear();
        }
        let due = if whole {
            Answer::Whole(read)
        } else {
            Answer::Partly(read)
        };
        must(*answer == due, || format!("{due} is due"))?;
        Ok(noted)
    }

    fn enter(&mut self, register: usize, dump: &Dump, noted: &mut Noted) -> bool {
        let table = &mut self.tables[register];
        let mut whole = true;
        for (class, generations) in dump.classes.iter().enumerate() {
            for listed in generations {
                let draw = Draw {
                    who: calls::Who::Restored(class as u64),
                    second: table.second_of(listed.bucket),
                };
                let live = table.holds_some(class, listed.bucket);
                let mut drawn = 0;
                let fits = listed.fingerprints.iter().all(|fingerprint| {
                    if self.shares.refuses(&draw).is_some() {
                        return false;
                    }
                    self.shares.enter(&draw);
                    drawn += 1;
                    let fingerprint = (*fingerprint).max(1);
                    let known = table.knows(class, listed.bucket, fingerprint);
                    let crowded = table.crowded(class, listed.bucket);
                    if table.clashes(class, listed.bucket) || (crowded && !known) {
                        return false;
                    }
                    noted.filled |= crowded;
                    table.insert(class, listed.bucket, fingerprint);
                    true
                });
                if !fits {
                    whole = false;
                    noted.dropped |= live;
                    (0..drawn).for_each(|_| self.shares.give_back(&draw));
                    table.drop_bucket(class, listed.bucket);
                }
            }
        }
        whole
    }

    /// A call that only reads.
    fn looked(&self, look: &Look, answer: &Answer) -> Seen {
        let table = |register: u64| &self.tables[register as usize];
        let due = match look {
            Look::ContainsHash {
                register,
                fingerprint,
            } => Answer::Whether(table(*register).holds_anywhere((*fingerprint).max(1))),
            Look::Pending { register } => Answer::Whether(table(*register).pending),
            Look::Swept { register } => {
                let table = table(*register);
                Answer::Numbers(vec![table.swept, table.published()])
            }
            Look::Held { who } => {
                Answer::Numbers(vec![self.shares.held(who.listed().expect("not refused"))])
            }
            Look::Class { class } => self.shares.class(*class as usize),
            Look::ViewDeliverer { who, .. } => {
                Answer::Viewed(self.shares.view(who.listed().expect("not refused")))
            }
            Look::ViewRegister { register, .. } => {
                return table(*register).viewed(answer).map(|()| Noted::default());
            }
            // No floor is kept here.
            _ => return Ok(Noted::default()),
        };
        plain(*answer == due, || format!("{due} is due"))
    }
}

/// Whether judge would answer New to a take's ticket: a Late take may be either, and the machine
/// is asked again, which alters nothing that the take's own judging did not.
fn would_be_new(verdict: Verdict, ticket: &Ticket, mut again: impl FnMut(&Call) -> Answer) -> bool {
    match verdict {
        Verdict::New | Verdict::Full => true,
        Verdict::Late => {
            let judge = Call::Ask {
                form: Form::Judge,
                ticket: *ticket,
            };
            again(&judge) == Answer::Verdict(Verdict::New)
        }
        _ => false,
    }
}
