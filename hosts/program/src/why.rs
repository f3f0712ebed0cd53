//! Why a take answers as it does: the rule, as the register names it, and the numbers that decide.

use strikes::words::{self, Book, Generation, Held, Place, View};
use strikes::{Deliverer, Gateway, Reading, Reason, Refusal, Ticket, Verdict, Window, Windows};

/// A ticket that is brought to a register.
#[derive(Clone, Copy)]
pub struct Brought {
    pub register: u64,
    pub ticket: Ticket,
    pub now: Reading,
    pub who: Deliverer,
}

/// The rule that gives a take's verdict, and what it compares; for a closed book and the like nothing.
pub struct Why {
    pub reason: Reason,
    pub numbers: Option<String>,
    /// Whether the batch forms say Ahead for Late.
    pub ahead: bool,
}

/// Explained by the register. The numbers are those of a copy of its words that is swept as the take would sweep them.
pub fn why(gateway: &Gateway, brought: &Brought) -> Result<Why, Refusal> {
    let Brought {
        register,
        ticket,
        now,
        who,
    } = *brought;
    let reason = gateway.explain(register, ticket, now, who)?;
    let mut swept = gateway.clone();
    swept.sweep(register, now.ms)?;
    let view = words::view(swept.words()).expect("sound words");
    let raised = swept.floor(register)? != gateway.floor(register)?;
    let after = After {
        view: &view,
        brought,
        raised,
    };
    let past_front = after
        .front()
        .is_some_and(|front| brought.ticket.stamp > front);
    Ok(Why {
        reason,
        numbers: after.numbers(reason),
        ahead: reason.verdict() == Verdict::Late && past_front,
    })
}

/// The words after the sweep, and the ticket.
struct After<'a> {
    view: &'a View,
    brought: &'a Brought,
    /// Whether the sweep raised the floor.
    raised: bool,
}

impl After<'_> {
    fn numbers(&self, reason: Reason) -> Option<String> {
        let (stamp, bucket) = (self.brought.ticket.stamp, self.bucket());
        Some(match reason {
            Reason::Accepted => format!("its bucket is {bucket}"),
            Reason::Held(_) => {
                let fingerprint = self.brought.ticket.fingerprint.max(1);
                format!("fingerprint {fingerprint}, bucket {bucket}")
            }
            Reason::Floor => format!("stamp {stamp}, {}", self.floor()),
            Reason::Behind => {
                let from = self.brought.now.ms.saturating_sub(self.window().behind);
                format!("stamp {stamp}, window from {from}")
            }
            Reason::Ahead => {
                let front = self.front().unwrap_or(u64::MAX);
                format!("stamp {stamp}, window up to {front}")
            }
            Reason::Position => {
                let other = self.generation().map_or(0, |held| held.bucket);
                format!("bucket {bucket}, the position is of bucket {other}")
            }
            Reason::Slots => {
                let held = self.generation().map_or(0, |held| held.fingerprints.len());
                let most = self.windows().slots;
                format!("{held} held, and {most} slots hold {}", 3 * most / 4)
            }
            Reason::Pending | Reason::Flag | Reason::Closed => return None,
            of_the_book => return self.book_numbers(of_the_book),
        })
    }

    /// Those of the share book's rules.
    fn book_numbers(&self, reason: Reason) -> Option<String> {
        let (book, together, draw) = (self.book(), self.together(), self.draw());
        let (units, part) = (draw.units, together / draw.holders);
        Some(match reason {
            Reason::OwnShare => {
                let share = book.share(self.brought.who)?;
                format!("{} entries, a share of {share}", draw.entries)
            }
            Reason::ClassLimit => format!("{units} units with this one, a limit of {together}"),
            Reason::EqualPart => format!(
                "its units would be {}, its equal part is {part}: {together} for {}; the class would have {units}",
                draw.own_units, draw.holders
            ),
            Reason::TwiceLimit => format!(
                "{units} units with this one, twice the limit is {}",
                2 * together
            ),
            Reason::Places => {
                format!(
                    "{} places used of {}",
                    self.held().totals.holders,
                    book.places
                )
            }
            Reason::Pairs => {
                let used = self.place()?.pairs.len();
                format!(
                    "{used} pairs used of {}, second {}",
                    book.pairs,
                    self.second()
                )
            }
            _ => return None,
        })
    }

    fn register(&self) -> usize {
        self.brought.register as usize
    }

    fn book(&self) -> &Book {
        &self.view.book
    }

    /// The deliverer's class.
    fn held(&self) -> &Held {
        &self.book().classes[self.brought.who.class().number() as usize]
    }

    fn together(&self) -> u64 {
        self.book().together(self.brought.who.class())
    }

    fn place(&self) -> Option<&Place> {
        let mut places = self.held().places.iter();
        places.find(|place| place.who == self.brought.who)
    }

    fn windows(&self) -> Windows {
        self.view.registers[self.register()].windows
    }

    fn window(&self) -> Window {
        match self.brought.who {
            Deliverer::Feeder(_) => self.windows().origin,
            _ => self.windows().copy,
        }
    }

    /// The last stamp inside the window; none where no stamp is past it.
    fn front(&self) -> Option<u64> {
        self.brought.now.ms.checked_add(self.window().ahead)
    }

    fn floor(&self) -> String {
        let floor = self.view.registers[self.register()].floor.unwrap_or(0);
        match self.raised {
            true => format!("floor {floor} after a sweep at this reading"),
            false => format!("floor {floor}"),
        }
    }

    fn bucket(&self) -> u64 {
        self.windows().bucket_of(self.brought.ticket.stamp)
    }

    /// The second in which its entry would expire.
    fn second(&self) -> u64 {
        let ms = self.bucket().saturating_mul(self.windows().bucket);
        ms.div_ceil(1_000).min(u64::from(u32::MAX))
    }

    /// What holds the position of its bucket in its class.
    fn generation(&self) -> Option<&Generation> {
        let register = &self.view.registers[self.register()];
        let at = self.bucket() % register.windows.ring();
        let ring = &register.rings[self.brought.who.class().number() as usize];
        ring.iter().find(|held| held.position == at)
    }

    fn draw(&self) -> Draw {
        let (totals, own) = (self.held().totals, self.book().units(self.brought.who));
        let new = u64::from(self.place().is_none());
        let entries = self.place().map_or(0, |place| place.entries);
        Draw {
            entries,
            own_units: entries + 1 + own,
            holders: totals.holders + new,
            units: totals.units + 1 + new * own,
        }
    }
}

/// The deliverer's entries, and what would be with one more: its units, the holders and the class's units.
struct Draw {
    entries: u64,
    own_units: u64,
    holders: u64,
    units: u64,
}
