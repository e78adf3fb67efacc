//! One figure: the least of many samples for each side, the two sides taken in turns, and their ratio.

use std::hint::black_box;
use std::time::{Duration, Instant};

const SAMPLES: usize = 31;
const SAMPLE: Duration = Duration::from_millis(4);

pub struct Figures {
    filter: String,
}

impl Figures {
    pub fn begin(filter: String) -> Self {
        println!("{:<44} {:>12} {:>12} {:>7}", "", "ours, ns", "Rust, ns", "ratio");
        Figures { filter }
    }

    /// Whether some figure whose name begins so is wanted.
    pub fn wants(&self, name: &str) -> bool {
        name.starts_with(&self.filter) || self.filter.starts_with(name)
    }

    /// Both sides answer alike, and are then timed.
    pub fn compare<T: PartialEq + std::fmt::Debug>(&self, name: &str, mut ours: impl FnMut() -> T, mut rust: impl FnMut() -> T) {
        if !name.starts_with(&self.filter) {
            return;
        }
        assert_eq!(ours(), rust(), "{name}");
        let (ours, rust) = in_turns(ours, rust);
        println!("{name:<44} {ours:>12.1} {rust:>12.1} {:>7.2}", ours / rust);
    }

    /// Two calls of ours, where the Rust has no such call: both times, and the second by the first.
    pub fn compare_own<T>(&self, name: &str, first: impl FnMut() -> T, second: impl FnMut() -> T) {
        if !name.starts_with(&self.filter) {
            return;
        }
        let (first, second) = in_turns(first, second);
        println!("{name:<44} {first:>12.1} {second:>12.1} {:>7.2} (both ours)", second / first);
    }
}

/// The least time of each of two calls, their samples taken in turns.
fn in_turns<T>(mut first: impl FnMut() -> T, mut second: impl FnMut() -> T) -> (f64, f64) {
    let iterations = iterations(&mut second);
    let mut least = (f64::MAX, f64::MAX);
    for _ in 0..SAMPLES {
        least.0 = least.0.min(sample(iterations, &mut first));
        least.1 = least.1.min(sample(iterations, &mut second));
    }
    least
}

/// How many iterations take about one sample.
fn iterations<T>(f: &mut impl FnMut() -> T) -> u32 {
    let mut iterations = 1;
    loop {
        let began = Instant::now();
        for _ in 0..iterations {
            black_box(f());
        }
        if began.elapsed() >= SAMPLE || iterations >= 1 << 24 {
            return iterations;
        }
        iterations *= 2;
    }
}

fn sample<T>(iterations: u32, f: &mut impl FnMut() -> T) -> f64 {
    let began = Instant::now();
    for _ in 0..iterations {
        black_box(f());
    }
    began.elapsed().as_nanos() as f64 / f64::from(iterations)
}
