//! Half a year of a gateway's clock: slews, steps back and forth, restarts with dumps, neighbours' late copies, neighbours' dumps over
//! live tickets and floods by single meters, every call held against a ledger outside the register.
//!
//! The ledger (tests/generator) sees that no ticket is accepted twice and that no modest meter is told Full; what is accepted is also
//! remembered over restarts, which must not make a ticket New again as long as the gateway starts with its dumps.

mod clock;
mod gateway;
mod neighbour;
mod picture;
mod site;

use std::process::ExitCode;

use calls::call::Ticket;
use calls::{Start, Verdict, Who};
use clock::{Clock, Correction};
use gateway::{Gateway, disagrees, form, refused};
use generator::random::Random;
use neighbour::Neighbour;
use picture::Picture;
use site::{Event, Queue, Site, TICKETS};

const DAY: u64 = 86_400_000;
/// A day in 2026, by true time.
const START: u64 = 1_772_000_000_000;

struct Soak {
    random: Random,
    now: u64,
    clock: Clock,
    queue: Queue,
    site: Site,
    neighbour: Neighbour,
    gateway: Gateway,
    picture: Picture,
    /// The clock does not judge before this time.
    unsynced: u64,
    /// The gateway is stopped up to this time.
    stopped: u64,
    corrections: [u64; 4],
    restarts: u64,
    lost: u64,
}

/// Runs `days` of the gateway's clock; the picture goes to `file`.
pub fn run(seed: u64, days: u64, file: &str) -> ExitCode {
    let mut soak = Soak::new(seed, days);
    match soak.go(days) {
        Ok(()) => soak.end(seed, days, file),
        Err(why) => {
            eprintln!("soak: seed {seed}, day {}: {why}", (soak.now - START) / DAY);
            let list = std::mem::take(&mut soak.gateway.list);
            eprintln!("soak: cutting down {} calls", list.len());
            let fails = if disagrees(&list).is_some() {
                disagrees
            } else {
                refused
            };
            for call in calls::cut::cut(list, fails) {
                println!("{call}");
            }
            ExitCode::FAILURE
        }
    }
}

impl Soak {
    fn new(seed: u64, days: u64) -> Self {
        let mut queue = Queue::default();
        let site = Site::new(START, &mut queue);
        queue.push(START + 5_000, Event::Tick);
        queue.push(START + 3_600_000, Event::Correct);
        queue.push(START + 7_200_000, Event::HandOver);
        queue.push(START + DAY, Event::Stop);
        Self {
            random: Random::new(seed),
            now: START,
            clock: Clock::new(START),
            queue,
            site,
            neighbour: Neighbour::default(),
            gateway: Gateway::new(),
            picture: Picture::new(START, START + days * DAY),
            unsynced: 0,
            stopped: 0,
            corrections: [0; 4],
            restarts: 0,
            lost: 0,
        }
    }

    fn go(&mut self, days: u64) -> Result<(), String> {
        self.gateway.open(Start::Empty)?;
        let mut told = 0;
        while let Some((at, event)) = self.queue.pop() {
            self.now = at;
            if at >= START + days * DAY {
                break;
            }
            if (at - START) / DAY >= told + 7 {
                told += 7;
                let counts = &self.gateway.counts;
                eprintln!(
                    "day {told} of {days}: {} tickets, {} calls",
                    counts.tickets, counts.calls
                );
            }
            self.serve(event)?;
        }
        Ok(())
    }

    fn serve(&mut self, event: Event) -> Result<(), String> {
        let now = self.now;
        match event {
            Event::Emit { meter, flood } => {
                self.site
                    .emit(now, meter, flood, &mut self.queue, &mut self.random)
            }
            Event::Sum => self.site.sum(now, &mut self.queue, &mut self.random),
            Event::Flood => self.site.flood(now, &mut self.queue, &mut self.random),
            Event::Correct => {
                let (correction, next) = self.clock.correct(now, &mut self.random);
                self.corrections[correction as usize] += 1;
                self.queue.push(next, Event::Correct);
                if correction != Correction::Slew && self.random.percent(10) {
                    self.unsynced = now + self.random.between(100, 5_000);
                }
            }
            Event::Stop => return self.restart(),
            Event::HandOver => return self.hand_over(),
            // While the gateway is stopped nothing reaches it, and half of what was sent is sent again.
            Event::Deliver { .. } if now < self.stopped => {
                if self.random.percent(50) {
                    self.queue
                        .push(self.stopped + self.random.between(1, 20_000), event);
                }
            }
            Event::Tick => return self.tick(),
            Event::Deliver {
                register,
                fingerprint,
                stamp,
                who,
            } => {
                if matches!(who, Who::Peer(_)) && register == TICKETS {
                    self.neighbour.sees(stamp, fingerprint);
                }
                let flag = u64::from(now >= self.unsynced);
                let reading = self.clock.reading(now);
                let ticket = Ticket {
                    register,
                    fingerprint,
                    stamp,
                    reading,
                    flag,
                    who,
                };
                let verdict: Verdict = self.gateway.take(now, form(who), ticket)?;
                self.picture.verdict(now, verdict as usize);
            }
        }
        Ok(())
    }

    fn tick(&mut self) -> Result<(), String> {
        self.queue
            .push(self.now.max(self.stopped) + 5_000, Event::Tick);
        if self.now < self.stopped || self.now < self.unsynced {
            return Ok(());
        }
        let reading = self.clock.reading(self.now);
        self.gateway.tick(reading)?;
        let floor = self.gateway.floor(TICKETS)?;
        self.picture
            .clock(self.now, self.clock.offset(self.now), floor, reading);
        Ok(())
    }

    /// A neighbour's dump comes, and is restored over what the gateway holds while it runs.
    fn hand_over(&mut self) -> Result<(), String> {
        let next = self.now + self.random.between(1_800_000, 14_400_000);
        self.queue.push(next, Event::HandOver);
        let windows = gateway::settings().windows[TICKETS as usize];
        let dump = self.neighbour.dump(self.now, &windows, &mut self.random);
        match self.now < self.stopped {
            true => Ok(()),
            false => self.gateway.hand_over(dump),
        }
    }

    /// A stop and a start: mostly with the dumps, now and then after they were lost.
    fn restart(&mut self) -> Result<(), String> {
        let (now, random) = (self.now, &mut self.random);
        self.stopped = now + random.between(3_000, 300_000);
        self.unsynced = if random.percent(40) {
            self.stopped + random.between(100, 20_000)
        } else {
            0
        };
        self.queue
            .push(self.stopped + random.between(DAY / 2, 6 * DAY), Event::Stop);
        self.restarts += 1;
        self.picture.restart(now);
        let dumps = self.gateway.stop()?;
        match self.random.below(10) {
            // Lost: nothing is counted that is stamped up to the reading at the start.
            0 => {
                self.lost += 1;
                self.gateway.open(Start::Fallback)?;
                self.gateway.begin(self.clock.reading(self.stopped))
            }
            1..4 => {
                self.gateway.restart(dumps, true)?;
                self.gateway.begin(0)
            }
            _ => self.gateway.restart(dumps, false),
        }
    }

    fn end(&self, seed: u64, days: u64, file: &str) -> ExitCode {
        let counts = &self.gateway.counts;
        let [new, duplicate, late, ahead, full, unjudged] = counts.verdicts;
        let [slews, sets, forward, back] = self.corrections;
        println!(
            "soak: seed {seed}: {days} days of the clock, {} tickets, {} calls",
            counts.tickets, counts.calls
        );
        println!(
            "  verdicts: {new} New, {duplicate} Duplicate, {late} Late, {ahead} Ahead, {full} Full, {unjudged} Unjudged"
        );
        println!(
            "  clock: {slews} slews, {sets} settings, {forward} steps forward, {back} steps back"
        );
        println!(
            "  restarts: {}, of them {} without dumps; restores and resumes of registers: {} whole, {} partly",
            self.restarts, self.lost, counts.whole, counts.partly
        );
        println!(
            "  tickets that came again after they were accepted: {}, of them {} after a restart; accepted twice: 0",
            counts.again, counts.over_restarts
        );
        println!(
            "  tickets of modest meters: {}; told Full: 0",
            counts.modest
        );
        println!(
            "  neighbours' dumps over live tickets: {} whole, {} partly; dumps that dropped live tickets: {}",
            counts.over_whole, counts.over_partly, counts.dropped
        );
        if counts.dropped == 0 {
            eprintln!("soak: seed {seed}: no dump came out Partly over live tickets");
            return ExitCode::FAILURE;
        }
        let title = format!("{days} days, {} tickets, seed {seed}", counts.tickets);
        match std::fs::write(file, self.picture.svg(&title)) {
            Ok(()) => {
                println!("  picture: {file}");
                ExitCode::SUCCESS
            }
            Err(why) => {
                eprintln!("soak: {file}: {why}");
                ExitCode::from(2)
            }
        }
    }
}
