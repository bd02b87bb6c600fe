//! Times: the best of several calls, since what disturbs a call makes it longer: of ten at least, unless they are very long.

use std::time::{Duration, Instant};

const FEWEST: u32 = 10;
const MOST: u32 = 20_000;

/// After so many times the budget no further call is begun, however few there were.
const BEYOND: u32 = 15;

/// Seconds of a call.
fn time(call: &mut dyn FnMut()) -> f64 {
    let start = Instant::now();
    call();
    start.elapsed().as_secs_f64()
}

/// The best time in seconds of calls that are repeated for so long.
pub fn best<T>(budget: Duration, mut call: impl FnMut() -> T) -> f64 {
    best_of_each(budget, [&mut || _ = std::hint::black_box(call())])[0]
}

/// The best times of several calls that take turns for so long, so that what disturbs one disturbs the others.
pub fn best_of_each<const N: usize>(budget: Duration, mut calls: [&mut dyn FnMut(); N]) -> [f64; N] {
    let start = Instant::now();
    let mut best = [f64::INFINITY; N];
    for rounds in 0..MOST {
        let elapsed = start.elapsed();
        if rounds >= FEWEST && elapsed >= budget || elapsed >= BEYOND * budget {
            break;
        }
        for (best, call) in best.iter_mut().zip(&mut calls) {
            *best = best.min(time(call));
        }
    }
    best
}

/// A time in milliseconds, with as many places as it takes for four digits.
pub fn milliseconds(seconds: f64) -> String {
    let value = 1e3 * seconds;
    let places = if value >= 100.0 { 1 } else if value >= 10.0 { 2 } else if value >= 1.0 { 3 } else { 4 };
    format!("{value:.places$}")
}
