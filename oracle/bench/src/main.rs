//! Calls a proved function, or its counterpart in Rust, so and so often on one input, both behind the same shape of function.
//!
//!     bench cases             the cases by number; fails where the two sides answer differently
//!     bench SIDE CASE N       SIDE is `proved` or `rust`: the sum of N answers
//!     bench time CASE ROUNDS  nanoseconds a call of both sides, in so many rounds: Rust, proved, each with its quartiles, and the ratio
//!     bench bundles           the bundles for the judge, by number
//!     bench bundle N          writes a bundle
//!
//! `oracle/bench/run` counts the instructions of so many calls, as the difference of two runs.

mod bundles;
mod classify;
mod codecs;
mod gate;
mod time;

use std::hint::black_box;
use std::io::Write;
use std::process::ExitCode;

/// A case: its name, how many calls are counted, and each side as a function that is called once.
pub struct Case {
    pub name: &'static str,
    pub calls: u64,
    pub proved: Box<dyn Fn() -> u32>,
    pub rust: Box<dyn Fn() -> u32>,
}

fn cases() -> Vec<Case> {
    classify::cases()
        .into_iter()
        .chain(gate::cases())
        .chain(codecs::cases())
        .collect()
}

fn list(cases: &[Case]) -> ExitCode {
    for (number, case) in cases.iter().enumerate() {
        let (proved, rust) = ((case.proved)(), (case.rust)());
        println!("{number}\t{}\t{}", case.calls, case.name);
        if proved != rust {
            eprintln!("bench: {}: proved {proved}, Rust {rust}", case.name);
            return ExitCode::FAILURE;
        }
    }
    ExitCode::SUCCESS
}

fn repeat(call: &dyn Fn() -> u32, times: u64) {
    let mut sum = 0u64;
    for _ in 0..times {
        sum += u64::from(black_box(call)());
    }
    println!("{sum}");
}

fn main() -> ExitCode {
    let words: Vec<String> = std::env::args().skip(1).collect();
    let words: Vec<&str> = words.iter().map(String::as_str).collect();
    let cases = cases();
    let chosen = |number: &str, times: &str| Some((cases.get(number.parse::<usize>().ok()?)?, times.parse::<u64>().ok()?));
    match words.as_slice() {
        ["cases"] => return list(&cases),
        ["bundles"] => {
            for (number, bundle) in bundles::bundles().iter().enumerate() {
                println!("{number}\t{}", bundle.name);
            }
            return ExitCode::SUCCESS;
        }
        ["bundle", number] => {
            let bundles = bundles::bundles();
            if let Some(bundle) = number.parse::<usize>().ok().and_then(|number| bundles.get(number)) {
                let mut out = std::io::stdout();
                return match out.write_all(&bundle.bytes).and_then(|()| out.flush()) {
                    Ok(()) => ExitCode::SUCCESS,
                    Err(_) => ExitCode::FAILURE,
                };
            }
        }
        ["time", number, rounds] => {
            if let Some((case, rounds)) = chosen(number, rounds) {
                println!("{}", time::row(case, rounds.max(1)));
                return ExitCode::SUCCESS;
            }
        }
        [side @ ("proved" | "rust"), number, times] => {
            if let Some((case, times)) = chosen(number, times) {
                repeat(if *side == "proved" { &case.proved } else { &case.rust }, times);
                return ExitCode::SUCCESS;
            }
        }
        _ => {}
    }
    eprintln!("usage: bench cases | bench proved|rust CASE N | bench time CASE ROUNDS | bench bundles | bench bundle N");
    ExitCode::from(2)
}
