//! Compares Threadwicket with the original Rust: makes queries, answers them with the original, has the proved program `beside` answer
//! the same queries as a process of its own, and compares the two, byte for byte. The tally of outcomes is printed, and an outcome that
//! never occurs counts as a failure, so that an empty comparison is seen.
//!
//! The two processes share nothing but the query stream, which `stream.rs` describes, so this runs on any machine on which the proved
//! program runs.

mod bundles;
mod rng;
mod stream;
mod suites;

use std::process::ExitCode;
use stream::{compare, write_fixed};
use suites::{Amount, Suite, SUITES};

const USAGE: &str = "usage: compare sample|full [SUITE] -- COMMAND [ARGUMENTS]   compare COMMAND with the original
       compare judge sample|full -- COMMAND [ARGUMENTS]     compare the judging program COMMAND with a plain listing
       compare fixed QUERIES ANSWERS                       write the fixed list that the repository keeps
       compare suites                                      list the suites";

fn main() -> ExitCode {
    let words: Vec<String> = std::env::args().skip(1).collect();
    let words: Vec<&str> = words.iter().map(String::as_str).collect();
    match words.as_slice() {
        ["suites"] => {
            for suite in SUITES {
                println!("{}: {}", suite.name, suite.what);
            }
            ExitCode::SUCCESS
        }
        ["judge", "sample", "--", command @ ..] if !command.is_empty() => run_judge(Amount::Sample, command),
        ["judge", "full", "--", command @ ..] if !command.is_empty() => run_judge(Amount::Full, command),
        ["fixed", queries, answers] => finish(write_fixed(queries, answers)),
        ["sample", "--", command @ ..] if !command.is_empty() => run(Amount::Sample, None, command),
        ["full", "--", command @ ..] if !command.is_empty() => run(Amount::Full, None, command),
        ["sample", suite, "--", command @ ..] if !command.is_empty() => run(Amount::Sample, Some(suite), command),
        ["full", suite, "--", command @ ..] if !command.is_empty() => run(Amount::Full, Some(suite), command),
        _ => {
            eprintln!("{USAGE}");
            ExitCode::from(2)
        }
    }
}

fn finish(done: Result<(), String>) -> ExitCode {
    match done {
        Ok(()) => ExitCode::SUCCESS,
        Err(why) => {
            eprintln!("compare: {why}");
            ExitCode::FAILURE
        }
    }
}

fn run_judge(amount: Amount, command: &[&str]) -> ExitCode {
    let verdict = bundles::compare(amount, command);
    if let Err(why) = &verdict {
        println!("  {why}");
    }
    ended("judge", verdict.is_ok());
    if verdict.is_ok() {
        ExitCode::SUCCESS
    } else {
        ExitCode::FAILURE
    }
}

/// The line that ends a suite.
fn ended(suite: &str, passed: bool) {
    println!("suite {suite}: {}", if passed { "passed" } else { "FAILED" });
}

/// Runs the suites, each against a process of its own. A line `suite NAME: passed` or `suite NAME: FAILED` ends each.
fn run(amount: Amount, only: Option<&str>, command: &[&str]) -> ExitCode {
    let chosen: Vec<&Suite> = SUITES
        .iter()
        .filter(|suite| only.is_none_or(|name| name == suite.name))
        .collect();
    if chosen.is_empty() {
        return finish(Err(format!("there is no suite {}", only.unwrap_or_default())));
    }
    let mut failed = 0;
    for suite in chosen {
        let verdict = compare(suite, amount, command);
        if let Err(why) = &verdict {
            println!("  {why}");
            failed += 1;
        }
        ended(suite.name, verdict.is_ok());
    }
    if failed == 0 {
        ExitCode::SUCCESS
    } else {
        ExitCode::FAILURE
    }
}
