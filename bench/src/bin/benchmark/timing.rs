//! Times of repeated calls, and the tables that are printed.
use std::time::{Duration, Instant};

/// How often a measurement is repeated; odd, so that the median is one of the times.
pub const REPETITIONS: usize = 21;
/// A repetition makes so many calls that it takes at least this long.
const SHORTEST: Duration = Duration::from_millis(5);

/// What the bytes that a call writes are set to before it.
pub const BEFORE: u8 = 0xa5;

/// The times of the repetitions, in nanoseconds of one call, rising.
pub struct Times(Vec<f64>);

impl Times {
    pub fn new(mut times: Vec<f64>) -> Times {
        assert!(!times.is_empty());
        times.sort_by(f64::total_cmp);
        Times(times)
    }

    pub fn median(&self) -> f64 {
        self.0[self.0.len() / 2]
    }

    /// Median, least and most, in a unit of so many nanoseconds.
    pub fn cells(&self, unit: f64) -> [String; 3] {
        let (least, most) = (self.0[0], self.0[self.0.len() - 1]);
        [self.median(), least, most].map(|time| figure(time / unit))
    }
}

/// How often the median of the second is in that of the first.
pub fn ratio(times: &Times, by: &Times) -> String {
    figure(times.median() / by.median())
}

/// A number with three digits that count, or with all before the point where there are more.
pub fn figure(x: f64) -> String {
    let places = (0..8)
        .find(|&places| x * 10f64.powi(places) >= 99.95)
        .unwrap_or(8);
    format!("{x:.*}", places as usize)
}

/// A call on a case, and the test of its answer, which is not timed.
pub type Side<C> = (fn(&mut C), fn(&C));

/// The times of each side, in turns: a repetition of each on the first case, then on the second, and so on, with all cases used alike.
pub fn in_turns<C, const S: usize>(cases: &mut [C], sides: [Side<C>; S]) -> [Times; S] {
    assert!(REPETITIONS.is_multiple_of(cases.len()));
    let mut times = [const { Vec::new() }; S];
    for r in 0..REPETITIONS {
        let case = &mut cases[r % cases.len()];
        for ((call, test), times) in sides.iter().zip(&mut times) {
            times.push(repetition(&mut || call(case)));
            test(case);
        }
    }
    times.map(Times::new)
}

/// The nanoseconds of a call. How many calls are needed is found by making them, so that the caches are warm.
fn repetition(call: &mut impl FnMut()) -> f64 {
    let mut calls = 1u32;
    while elapsed(calls, call) < SHORTEST {
        calls *= 2;
    }
    elapsed(calls, call).as_nanos() as f64 / f64::from(calls)
}

fn elapsed(calls: u32, call: &mut impl FnMut()) -> Duration {
    let start = Instant::now();
    for _ in 0..calls {
        call();
    }
    start.elapsed()
}

/// A table below its heading. The columns are as wide as their widest cell.
pub fn print_table(heading: &str, names: &str, rows: &[Vec<String>]) {
    let names: Vec<String> = names.split(" | ").map(str::to_string).collect();
    let widths: Vec<usize> = (0..names.len())
        .map(|column| {
            let cells = rows.iter().chain([&names]).map(|row| row[column].len());
            cells.fold(2, usize::max)
        })
        .collect();
    let print = |row: &[String]| {
        let cells = row.iter().zip(&widths);
        let cells: Vec<String> = cells.map(|(cell, &w)| format!("{cell:>w$}")).collect();
        println!("| {} |", cells.join(" | "));
    };
    println!("\n{heading}\n");
    print(&names);
    let rule = widths.iter().map(|&w| "-".repeat(w - 1) + ":");
    print(&rule.collect::<Vec<String>>());
    rows.iter().for_each(|row| print(row));
}
