//! What comes to the gateway: the tickets of three meters, copies by three neighbours, some of them late, the gateway's own, and now
//! and then a flood by one meter.

use std::cmp::Reverse;
use std::collections::BinaryHeap;

use calls::Who;
use generator::random::Random;

pub const METERS: u64 = 3;
const NEIGHBOURS: u64 = 3;

/// The registers: tickets, and minutes' sums.
pub const TICKETS: u64 = 0;
pub const SUMS: u64 = 1;

#[derive(Clone, Copy, Debug, PartialEq, Eq, PartialOrd, Ord)]
pub enum Event {
    /// A meter makes a ticket; whether in a flood, which ends at this time.
    Emit {
        meter: u64,
        flood: Option<u64>,
    },
    Deliver {
        register: u64,
        fingerprint: u64,
        stamp: u64,
        who: Who,
    },
    /// A meter's sum of a minute, made by the gateway.
    Sum,
    Flood,
    /// A neighbour hands over its dump.
    HandOver,
    Tick,
    Correct,
    Stop,
}

/// Events by true time, in the order in which they were made where that is the same.
#[derive(Default)]
pub struct Queue {
    heap: BinaryHeap<Reverse<(u64, u64, Event)>>,
    made: u64,
}

impl Queue {
    pub fn push(&mut self, at: u64, event: Event) {
        self.made += 1;
        self.heap.push(Reverse((at, self.made, event)));
    }

    pub fn pop(&mut self) -> Option<(u64, Event)> {
        self.heap.pop().map(|Reverse((at, _, event))| (at, event))
    }
}

pub struct Site {
    /// How far each meter's clock is off.
    errors: [i64; METERS as usize],
}

impl Site {
    pub fn new(now: u64, queue: &mut Queue) -> Self {
        for meter in 0..METERS {
            queue.push(now + 900 * meter, Event::Emit { meter, flood: None });
        }
        queue.push(now + 60_000, Event::Sum);
        queue.push(now + 3_600_000, Event::Flood);
        Self {
            errors: [0, 700, -1_500],
        }
    }

    fn fingerprint(random: &mut Random) -> u64 {
        // A few fingerprints come again in other buckets.
        if random.percent(2) {
            random.below(50)
        } else {
            random.word()
        }
    }

    /// A ticket, its deliveries, and when the meter makes the next.
    pub fn emit(
        &mut self,
        now: u64,
        meter: u64,
        flood: Option<u64>,
        queue: &mut Queue,
        random: &mut Random,
    ) {
        let next = match flood {
            Some(_) => now + random.between(40, 120),
            None => now + random.between(2_200, 4_200),
        };
        if flood.is_none_or(|end| next < end) {
            queue.push(next, Event::Emit { meter, flood });
        }
        let stamp = now.saturating_add_signed(self.errors[meter as usize]);
        let fingerprint = Self::fingerprint(random);
        let deliver = |who| Event::Deliver {
            register: TICKETS,
            fingerprint,
            stamp,
            who,
        };
        queue.push(
            now + random.between(5, 400),
            deliver(Who::Feeder(1 + meter)),
        );
        if random.percent(3) {
            // Sent again, since no answer came.
            queue.push(
                now + random.between(1_000, 90_000),
                deliver(Who::Feeder(1 + meter)),
            );
        }
        if flood.is_none() && random.percent(55) {
            let late = match random.below(100) {
                0..85 => random.between(20, 8_000),
                85..95 => random.between(8_000, 120_000),
                _ => random.between(120_000, 7_200_000),
            };
            queue.push(now + late, deliver(Who::Peer(1 + random.below(NEIGHBOURS))));
        }
    }

    pub fn sum(&mut self, now: u64, queue: &mut Queue, random: &mut Random) {
        queue.push(now + 60_000, Event::Sum);
        for _ in 0..METERS {
            let fingerprint = Self::fingerprint(random);
            let deliver = |who| Event::Deliver {
                register: SUMS,
                fingerprint,
                stamp: now,
                who,
            };
            queue.push(now + random.between(1, 200), deliver(Who::Relay));
            if random.percent(20) {
                queue.push(
                    now + random.between(1, 900_000),
                    deliver(Who::Peer(1 + random.below(NEIGHBOURS))),
                );
            }
        }
    }

    pub fn flood(&mut self, now: u64, queue: &mut Queue, random: &mut Random) {
        let meter = random.below(METERS);
        let end = now + random.between(10_000, 180_000);
        queue.push(
            now,
            Event::Emit {
                meter,
                flood: Some(end),
            },
        );
        queue.push(now + random.between(3_600_000, 36_000_000), Event::Flood);
        // A meter's clock goes off, or is set again.
        let about = random.below(6_001) as i64 - 3_000;
        self.errors[random.below(METERS) as usize] = about;
    }
}
