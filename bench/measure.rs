//! Two programs side by side: runs that take turns, and the rows of the report.
use std::time::{Duration, Instant};

pub const RUNS: usize = 101;

/// Where a run takes a good part of a second.
pub const FEW: usize = 25;

/// The quartiles of the runs.
#[derive(Clone, Copy)]
pub struct Spread {
    pub low: f64,
    pub median: f64,
    pub high: f64,
}

impl Spread {
    pub fn of(mut values: Vec<f64>) -> Spread {
        values.sort_by(f64::total_cmp);
        let at = |quarters: usize| values[(values.len() - 1) * quarters / 4];
        Spread { low: at(1), median: at(2), high: at(3) }
    }
}

/// Nanoseconds a call of both, and the ratio of two runs that follow each other.
#[derive(Clone, Copy)]
pub struct Beside {
    pub ours: Spread,
    pub theirs: Spread,
    ratio: Spread,
}

impl Beside {
    /// How many times the time of the first the second takes, and its quartiles.
    pub fn factor(&self) -> String {
        let [median, low, high] = [self.ratio.median, self.ratio.high, self.ratio.low].map(|ratio| 1.0 / ratio);
        let places = if median < 5.0 { 2 } else { 1 };
        format!("{median:.places$}, {low:.places$} to {high:.places$}")
    }
}

/// A run of so many calls that it takes a millisecond or more: it answers nanoseconds a call by a clock.
pub fn run<'a>(clock: fn() -> Duration, mut call: impl FnMut(usize) + 'a) -> impl FnMut() -> f64 + 'a {
    let start = Instant::now();
    let mut calls = 0usize;
    while start.elapsed() < Duration::from_millis(1) {
        call(calls);
        calls += 1;
    }
    move || {
        let start = clock();
        for i in 0..calls {
            call(i);
        }
        (clock() - start).as_nanos() as f64 / calls as f64
    }
}

/// The runs take turns, and now one goes first, now the other. A machine that is slower for a while is slower for both runs of a pair.
pub fn turns(ours: impl FnMut() -> f64, theirs: impl FnMut() -> f64) -> Beside {
    turns_of(RUNS, ours, theirs)
}

/// The same with so many runs of each.
pub fn turns_of(runs: usize, mut ours: impl FnMut() -> f64, mut theirs: impl FnMut() -> f64) -> Beside {
    let pairs: Vec<(f64, f64)> = (0..runs)
        .map(|i| {
            if i % 2 == 0 {
                let first = ours();
                (first, theirs())
            } else {
                let first = theirs();
                (ours(), first)
            }
        })
        .collect();
    let each = |f: fn(&(f64, f64)) -> f64| Spread::of(pairs.iter().map(f).collect());
    Beside { ours: each(|p| p.0), theirs: each(|p| p.1), ratio: each(|p| p.0 / p.1) }
}

pub fn shown(ns: f64) -> String {
    match ns {
        _ if ns < 1e4 => format!("{ns:.1} ns"),
        _ if ns < 1e7 => format!("{:.1} us", ns / 1e3),
        _ => format!("{:.1} ms", ns / 1e6),
    }
}

/// A table, and the names of the rows whose ratio is over 1.05.
pub struct Table {
    pub over: Vec<String>,
}

impl Table {
    pub fn new(other: &str) -> Table {
        println!("| Work | Engine | {other} | Ratio | Its quartiles |\n|---|---|---|---|---|");
        Table { over: Vec::new() }
    }

    pub fn row(&mut self, work: &str, b: Beside) {
        let places = if b.ratio.median < 0.1 { 3 } else { 2 };
        let ratio = |value: f64| format!("{value:.places$}");
        let (median, low, high) = (ratio(b.ratio.median), ratio(b.ratio.low), ratio(b.ratio.high));
        println!("| {work} | {} | {} | {median} | {low} to {high} |", shown(b.ours.median), shown(b.theirs.median));
        if b.ratio.median > 1.05 && !work.starts_with(" ") {
            self.over.push(format!("{work}: {median}"));
        }
    }
}
