//! The suites: each makes queries, with the original's answers and a name for each outcome.

mod constructors;
mod deadline;
mod endpoint;
mod fields;
pub mod gate;
mod lent;
pub mod packet;
mod records;
mod sound;
pub mod verdict;

/// How much of a suite is run: a sample, in the gate, or all of it, before a landing.
#[derive(Clone, Copy, PartialEq, Eq)]
pub enum Amount {
    Sample,
    Full,
}

impl Amount {
    /// How many random queries are made.
    pub fn random(self, full: u64) -> u64 {
        match self {
            Amount::Sample => full / 20,
            Amount::Full => full,
        }
    }
}

/// Where a suite's queries go, each with the original's answer and its outcome's name.
pub trait Sink {
    fn push(&mut self, kind: u8, body: &[u8], answer: &[u8], outcome: &'static str);
}

pub struct Suite {
    pub name: &'static str,
    pub what: &'static str,
    /// Every outcome, each of which must occur.
    pub outcomes: &'static [&'static str],
    pub run: fn(&mut dyn Sink, Amount),
}

pub static SUITES: &[Suite] = &[
    deadline::SUITE,
    endpoint::MADE,
    endpoint::MATCHED,
    records::SUITE,
    constructors::SUITE,
    packet::SUITE,
    verdict::SUITE,
    gate::SUITE,
];
