//! The time of a call on both sides: rounds of some calls each, the sides by turns and each of them first in every other round, so that what
//! else the machine does falls on both. A round's time is divided by its calls; told are the median and the quartiles of the rounds.

use crate::Case;
use std::hint::black_box;
use std::time::{Duration, Instant};

/// A round takes about so long.
const ROUND: Duration = Duration::from_millis(2);

fn round(call: &dyn Fn() -> u32, calls: u64) -> Duration {
    let begun = Instant::now();
    let mut sum = 0u32;
    for _ in 0..calls {
        sum = sum.wrapping_add(black_box(call)());
    }
    black_box(sum);
    begun.elapsed()
}

/// How many calls fill a round.
fn calls_of(call: &dyn Fn() -> u32) -> u64 {
    let mut calls = 1;
    while round(call, calls) < ROUND {
        calls *= 2;
    }
    calls
}

/// The median and the quartiles, in nanoseconds.
fn quartiles(mut times: Vec<f64>) -> [f64; 3] {
    times.sort_by(f64::total_cmp);
    [1, 2, 3].map(|quarter| times[(times.len() - 1) * quarter / 4])
}

pub fn row(case: &Case, rounds: u64) -> String {
    let calls = calls_of(&case.rust).max(calls_of(&case.proved));
    let (mut rust, mut proved) = (Vec::new(), Vec::new());
    let timed = |call: &dyn Fn() -> u32, times: &mut Vec<f64>| times.push(round(call, calls).as_nanos() as f64 / calls as f64);
    for number in 0..rounds {
        if number % 2 == 0 {
            timed(&case.rust, &mut rust);
            timed(&case.proved, &mut proved);
        } else {
            timed(&case.proved, &mut proved);
            timed(&case.rust, &mut rust);
        }
    }
    let ([low, rust, high], [below, proved, above]) = (quartiles(rust), quartiles(proved));
    let ratio = proved / rust;
    format!("{rust:.1} ({low:.1} to {high:.1}) | {proved:.1} ({below:.1} to {above:.1}) | {ratio:.2}")
}
