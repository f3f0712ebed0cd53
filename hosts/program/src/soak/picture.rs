//! The picture of a soak: the clock's offset, how far the floor is behind the clock, and the verdicts, over the days.

use std::fmt::Write;

const COLUMNS: usize = 736;
const LEFT: f64 = 90.0;
const WIDTH: f64 = 920.0;

#[derive(Clone, Copy, Default)]
struct Column {
    /// The least and the most offset in ms.
    offset: Option<(i64, i64)>,
    /// The least and the most by which the floor is behind the clock, in ms; less than 0 where it is ahead.
    behind: Option<(i64, i64)>,
    verdicts: [u64; 6],
    restarts: u64,
}

pub struct Picture {
    start: u64,
    end: u64,
    columns: Vec<Column>,
}

const VERDICTS: [(&str, &str); 6] = [
    ("New", "#3b7dd8"),
    ("Duplicate", "#8fb8e8"),
    ("Late", "#e0a030"),
    ("Ahead", "#f0d890"),
    ("Full", "#c03030"),
    ("Unjudged", "#a0a0a0"),
];

fn widen(range: &mut Option<(i64, i64)>, value: i64) {
    let (least, most) = range.unwrap_or((value, value));
    *range = Some((least.min(value), most.max(value)));
}

impl Picture {
    pub fn new(start: u64, end: u64) -> Self {
        Self {
            start,
            end,
            columns: vec![Column::default(); COLUMNS],
        }
    }

    fn column(&mut self, now: u64) -> &mut Column {
        let at = (now - self.start) as u128 * COLUMNS as u128 / (self.end - self.start) as u128;
        &mut self.columns[(at as usize).min(COLUMNS - 1)]
    }

    pub fn verdict(&mut self, now: u64, verdict: usize) {
        self.column(now).verdicts[verdict] += 1;
    }

    pub fn clock(&mut self, now: u64, offset: i64, floor: Option<u64>, reading: u64) {
        let column = self.column(now);
        widen(&mut column.offset, offset);
        if let Some(floor) = floor {
            widen(&mut column.behind, reading as i64 - floor as i64);
        }
    }

    pub fn restart(&mut self, now: u64) {
        self.column(now).restarts += 1;
    }

    pub fn svg(&self, title: &str) -> String {
        let mut out = String::new();
        let days = (self.end - self.start) / 86_400_000;
        let _ = writeln!(
            out,
            r#"<svg xmlns="http://www.w3.org/2000/svg" width="1050" height="640" font-family="sans-serif" font-size="12">"#
        );
        let _ = writeln!(
            out,
            r#"<rect width="1050" height="640" fill="white"/><text x="{LEFT}" y="20" font-size="14">{title}</text>"#
        );
        self.range_panel(
            &mut out,
            40.0,
            "clock offset",
            |column| column.offset,
            "#305080",
        );
        self.range_panel(
            &mut out,
            240.0,
            "clock minus floor",
            |column| column.behind,
            "#306030",
        );
        self.verdict_panel(&mut out, 440.0);
        for day in (0..=days).step_by(14) {
            let x = LEFT + WIDTH * day as f64 / days as f64;
            let _ = writeln!(
                out,
                r##"<text x="{x:.0}" y="612" text-anchor="middle">{day}</text>"##
            );
        }
        let _ = writeln!(
            out,
            r#"<text x="{:.0}" y="630" text-anchor="middle">days</text></svg>"#,
            LEFT + WIDTH / 2.0
        );
        out
    }

    /// A range in each column, on a scale that is logarithmic to both sides of 0.
    fn range_panel(
        &self,
        out: &mut String,
        top: f64,
        name: &str,
        of: impl Fn(&Column) -> Option<(i64, i64)>,
        colour: &str,
    ) {
        const HALF: f64 = 80.0;
        let scale =
            |ms: i64| (ms.unsigned_abs() as f64 + 1.0).log10() * if ms < 0 { -1.0 } else { 1.0 };
        let most = scale(400 * 86_400_000);
        let y = |ms: i64| top + HALF - HALF * scale(ms) / most;
        let _ = writeln!(out, r#"<text x="4" y="{:.0}">{name}</text>"#, top + 12.0);
        let marks = [
            (-86_400_000, "-1 day"),
            (-1_000, "-1 s"),
            (0, "0"),
            (1_000, "1 s"),
            (60_000, "1 min"),
            (86_400_000, "1 day"),
        ];
        for (ms, text) in marks {
            let _ = writeln!(
                out,
                r##"<line x1="{LEFT}" x2="{:.0}" y1="{1:.1}" y2="{1:.1}" stroke="#dddddd"/><text x="{2:.0}" y="{3:.1}" text-anchor="end" font-size="10">{text}</text>"##,
                LEFT + WIDTH,
                y(ms),
                LEFT - 4.0,
                y(ms) + 3.0
            );
        }
        let mut path = String::new();
        for (at, column) in self.columns.iter().enumerate() {
            if let Some((least, more)) = of(column) {
                let x = LEFT + WIDTH * (at as f64 + 0.5) / COLUMNS as f64;
                let _ = write!(path, "M{x:.1} {:.1}V{:.1}", y(more) - 0.5, y(least) + 0.5);
            }
        }
        let _ = writeln!(
            out,
            r#"<path d="{path}" stroke="{colour}" stroke-width="1.3"/>"#
        );
    }

    /// The parts of the verdicts in each column, and a mark for each restart below.
    fn verdict_panel(&self, out: &mut String, top: f64) {
        const HEIGHT: f64 = 150.0;
        let _ = writeln!(out, r#"<text x="4" y="{:.0}">verdicts</text>"#, top + 12.0);
        for (at, (name, colour)) in VERDICTS.iter().enumerate() {
            let y = top + 28.0 + 15.0 * at as f64;
            let _ = writeln!(
                out,
                r#"<rect x="4" y="{:.0}" width="10" height="10" fill="{colour}"/><text x="18" y="{y:.0}">{name}</text>"#,
                y - 9.0
            );
        }
        let paths = self.verdict_paths(top, HEIGHT);
        for (path, (_, colour)) in paths.iter().zip(VERDICTS) {
            let _ = writeln!(
                out,
                r#"<path d="{path}" stroke="{colour}" stroke-width="1.3"/>"#
            );
        }
        let mut marks = String::new();
        for (at, _) in self
            .columns
            .iter()
            .enumerate()
            .filter(|(_, column)| column.restarts > 0)
        {
            let x = LEFT + WIDTH * (at as f64 + 0.5) / COLUMNS as f64;
            let _ = write!(marks, "M{x:.1} {:.1}v5", top + HEIGHT + 1.0);
        }
        let _ = writeln!(
            out,
            r#"<path d="{marks}" stroke="black"/><text x="4" y="{:.0}">restarts</text>"#,
            top + HEIGHT + 6.0
        );
    }

    fn verdict_paths(&self, top: f64, height: f64) -> [String; 6] {
        let mut paths: [String; 6] = Default::default();
        for (at, column) in self.columns.iter().enumerate() {
            let all: u64 = column.verdicts.iter().sum();
            let x = LEFT + WIDTH * (at as f64 + 0.5) / COLUMNS as f64;
            let mut y = top + height;
            for (path, times) in paths.iter_mut().zip(column.verdicts) {
                let part = height * times as f64 / all.max(1) as f64;
                if times > 0 {
                    let _ = write!(path, "M{x:.1} {y:.1}v{:.1}", -part);
                }
                y -= part;
            }
        }
        paths
    }
}
