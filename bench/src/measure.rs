//! How long things take.

use std::time::{Duration, Instant};

/// A measured time is at least this long, so that the clock's own error plays no part.
const LONG: Duration = Duration::from_millis(1);
const MOST: u64 = 1 << 22;
/// And before it the same thing is run for so long.
const WARM: Duration = Duration::from_millis(6);
/// A run's figure is the least of so many times: what else the machine does can only add to it.
pub const TIMES: usize = 15;
/// And of so many where one alone takes long.
pub const FEW_TIMES: usize = 4;

/// Runs something untimed for a while, the same while for every measure: a predictor that has seen one of them eight times and
/// another thirty times would make them differ by more than what they do.
pub fn warm_up(mut act: impl FnMut()) {
    let start = Instant::now();
    while start.elapsed() < WARM {
        act();
    }
}

/// How often something is repeated so that it takes long enough.
pub fn repeats(mut act: impl FnMut()) -> u64 {
    warm_up(&mut act);
    let mut times = 1;
    loop {
        let start = Instant::now();
        for _ in 0..times {
            act();
        }
        if start.elapsed() >= LONG || times >= MOST {
            return times;
        }
        times *= 2;
    }
}

/// Nanoseconds for one, over so many.
pub fn nanoseconds(times: u64, mut act: impl FnMut()) -> f64 {
    let start = Instant::now();
    for _ in 0..times {
        act();
    }
    start.elapsed().as_nanos() as f64 / times as f64
}

/// Something that is timed over and over: its name, how often it is repeated, and what was measured.
pub struct Measure<'a> {
    pub name: &'static str,
    act: Box<dyn FnMut() + 'a>,
    times: u64,
    pub figures: Figures,
}

#[derive(Default)]
pub struct Measures<'a>(pub Vec<Measure<'a>>);

impl<'a> Measures<'a> {
    pub fn add(&mut self, name: &'static str, mut act: impl FnMut() + 'a) {
        let times = repeats(&mut act);
        self.0.push(Measure {
            name,
            act: Box::new(act),
            times,
            figures: Figures::default(),
        });
    }

    /// In each run the measures take turns, and the least time of each counts.
    pub fn run(&mut self, runs: usize) {
        let long = self.0.iter().any(|measure| measure.times == 1);
        for _ in 0..runs {
            let mut least = vec![f64::MAX; self.0.len()];
            for _ in 0..if long { FEW_TIMES } else { TIMES } {
                for (measure, least) in self.0.iter_mut().zip(&mut least) {
                    warm_up(&mut measure.act);
                    *least = least.min(nanoseconds(measure.times, &mut measure.act));
                }
            }
            for (measure, least) in self.0.iter_mut().zip(least) {
                measure.figures.0.push(least);
            }
        }
    }

    pub fn of(&self, name: &str) -> &Figures {
        &self
            .0
            .iter()
            .find(|measure| measure.name == name)
            .expect("a measure")
            .figures
    }
}

/// The figures of several runs.
#[derive(Clone, Default)]
pub struct Figures(pub Vec<f64>);

impl Figures {
    fn sorted(&self) -> Vec<f64> {
        let mut sorted = self.0.clone();
        sorted.sort_by(f64::total_cmp);
        sorted
    }

    pub fn median(&self) -> f64 {
        let sorted = self.sorted();
        sorted[sorted.len() / 2]
    }

    /// The ratio of each run's figure to the other's of the same run.
    pub fn to(&self, other: &Self) -> Self {
        Self(self.0.iter().zip(&other.0).map(|(a, b)| a / b).collect())
    }

    /// Each run's figure divided by a number.
    pub fn by(&self, number: f64) -> Self {
        Self(self.0.iter().map(|a| a / number).collect())
    }

    pub fn minus(&self, other: &Self) -> Self {
        Self(self.0.iter().zip(&other.0).map(|(a, b)| a - b).collect())
    }

    /// The median, and the least and the most.
    pub fn spread(&self) -> String {
        let sorted = self.sorted();
        let (least, most) = (sorted[0], sorted[sorted.len() - 1]);
        format!(
            "{} ({} to {})",
            short(self.median()),
            short(least),
            short(most)
        )
    }
}

impl Figures {
    /// The same, and said to be no measure where the runs differ by more than the figure, or where it is below 0, which no cost is.
    pub fn spread_or_noise(&self) -> String {
        let sorted = self.sorted();
        let between = sorted[sorted.len() - 1] - sorted[0];
        match self.median() < between {
            true => format!("no measure: {}", self.spread()),
            false => self.spread(),
        }
    }
}

/// Three figures or so.
pub fn short(number: f64) -> String {
    match number.abs() {
        0.0..10.0 => format!("{number:.2}"),
        10.0..100.0 => format!("{number:.1}"),
        _ => format!("{number:.0}"),
    }
}
