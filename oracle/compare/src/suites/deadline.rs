//! The deadline check for C, `threadwicket_refresh`, against `evaluate_refresh_deadlines`: kind 1, three u64; the answer is 01's number of
//! the decision (u8).

use super::{Amount, Sink, Suite};
use crate::rng::Rng;
use opc_egress_fence_common::{evaluate_refresh_deadlines, RefreshDeadlineDecision, EGRESS_FENCE_MAX_GATE_LIFETIME_NS as CEILING};

const KIND: u8 = 1;

pub const SUITE: Suite = Suite {
    name: "deadline",
    what: "the deadline check for C, against evaluate_refresh_deadlines",
    outcomes: &["PriorExpired", "RequestedDeadlineInvalid", "DeadlineRegressed", "Apply"],
    run,
};

fn ask(sink: &mut dyn Sink, observed: u64, prior: u64, requested: u64) {
    let (number, outcome) = match evaluate_refresh_deadlines(observed, prior, requested) {
        RefreshDeadlineDecision::PriorExpired => (0, "PriorExpired"),
        RefreshDeadlineDecision::RequestedDeadlineInvalid => (1, "RequestedDeadlineInvalid"),
        RefreshDeadlineDecision::DeadlineRegressed => (2, "DeadlineRegressed"),
        RefreshDeadlineDecision::Apply => (3, "Apply"),
    };
    let body = [observed.to_le_bytes(), prior.to_le_bytes(), requested.to_le_bytes()].concat();
    sink.push(KIND, &body, &[number], outcome);
}

/// A number, and those one below and above it.
fn around(value: u64) -> [u64; 3] {
    [value.wrapping_sub(1), value, value.wrapping_add(1)]
}

fn run(sink: &mut dyn Sink, amount: Amount) {
    let centres = [
        0,
        100,
        200,
        CEILING,
        2 * CEILING,
        CEILING + 100,
        1 << 32,
        1 << 63,
        u64::MAX - CEILING,
        u64::MAX - 1,
    ];
    let values: Vec<u64> = centres.into_iter().flat_map(around).collect();
    for &observed in &values {
        for &prior in &values {
            for &requested in &values {
                ask(sink, observed, prior, requested);
            }
        }
    }
    let mut rng = Rng::new(1);
    for _ in 0..amount.random(500_000) {
        near(sink, &mut rng);
        ask(sink, rng.next(), rng.next(), rng.next());
    }
}

/// A query near the boundaries: the prior deadline a little around the clock, the requested one around clock, prior or ceiling.
fn near(sink: &mut dyn Sink, rng: &mut Rng) {
    let observed = if rng.one_in(8) {
        u64::MAX - (rng.next() % (2 * CEILING))
    } else {
        rng.next() % (1 << 50)
    };
    let small = |rng: &mut Rng| rng.next() % 4;
    let ahead = [0, 1, CEILING / 2, CEILING, 2 * CEILING];
    let prior = observed
        .wrapping_add(rng.pick(&ahead))
        .wrapping_add(small(rng))
        .wrapping_sub(2);
    let from = rng.pick(&[observed, observed.wrapping_add(CEILING), prior]);
    let requested = from.wrapping_add(small(rng)).wrapping_sub(2);
    ask(sink, observed, prior, requested);
}
