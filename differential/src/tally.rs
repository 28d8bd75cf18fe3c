//! What the inputs met: every outcome that a call can have must be met at least once.
use crate::input::{Call, Input, CALLS};
use std::collections::BTreeMap;
use std::fmt;
use twin::Answer;

#[derive(Debug, Clone, Copy, PartialEq, Eq, PartialOrd, Ord)]
pub enum Outcome {
    Answered(&'static str),
    Refused(u32),
}

/// How often an outcome was met; of a refusal also how often at place 0.
#[derive(Debug, Clone, Copy, Default, PartialEq, Eq)]
struct Met {
    times: u64,
    at_0: u64,
}

#[derive(Debug, Clone, Default, PartialEq, Eq)]
pub struct Tally {
    met: BTreeMap<(Call, Outcome), Met>,
}

const COMPLETE_NOTHING: &str = "complete, nothing to add";
const COMPLETE_FULL: &str = "complete, added, no room left";
const COMPLETE_ROOM: &str = "complete, added, room left";
const STOPPED_FULL: &str = "stopped, no room before";
const STOPPED_ADDED: &str = "stopped, added";

/// The kinds of answers that a call can give.
fn answers(call: Call) -> &'static [&'static str] {
    match call {
        Call::Check => &["counts"],
        Call::Read | Call::Write | Call::FromText | Call::ToText => &["written, space filled", "written, space left"],
        Call::Ask => &["consistent", "contradiction"],
        Call::Explain => &["consistent", "empty explanation", "explanation"],
        Call::Round | Call::List => &[COMPLETE_NOTHING, COMPLETE_FULL, COMPLETE_ROOM, STOPPED_FULL, STOPPED_ADDED],
    }
}

/// The refusals that the table allows a call.
fn refusals(call: Call) -> Vec<u32> {
    match call {
        Call::Check => (1..=9).collect(),
        Call::Read | Call::ToText => (1..=9).chain([11]).collect(),
        Call::Write => vec![1, 5, 6, 7, 8, 11, 12, 13],
        Call::FromText => vec![1, 5, 6, 7, 11, 20, 21, 22],
        Call::Ask | Call::Explain => (1..=11).collect(),
        Call::Round | Call::List => (1..=9).chain([11, 14]).collect(),
    }
}

/// Whether a refusal can be at place 0, and whether it can be beyond. Before a clause there is a header, and groups and lines count from 1.
fn places(call: Call, number: u32) -> (bool, bool) {
    match (call, number) {
        (_, 1 | 11) => (true, false),
        (_, 6 | 8 | 9 | 10 | 13) | (Call::Write, 5) | (Call::FromText, 5 | 7 | 20 | 21) => (false, true),
        _ => (true, true),
    }
}

fn kind(input: &Input, values: &[u64]) -> &'static str {
    let kinds = answers(input.call);
    match input.call {
        Call::Check => kinds[0],
        Call::Read => kinds[usize::from(values[0] < input.numbers.part().len() as u64)],
        Call::Write | Call::FromText | Call::ToText => kinds[usize::from(values[0] < input.bytes.part().len() as u64)],
        Call::Ask => kinds[values.len()],
        Call::Explain => kinds[values.first().map_or(0, |set| 1 + usize::from(*set > 0))],
        Call::Round | Call::List => {
            let added = values[0] > input.count as u64;
            let full = values[0] == input.records.part().len() as u64 / 2;
            match (values[1] == 1, added, full) {
                (true, false, _) => COMPLETE_NOTHING,
                (true, true, true) => COMPLETE_FULL,
                (true, true, false) => COMPLETE_ROOM,
                (false, false, _) => STOPPED_FULL,
                (false, true, _) => STOPPED_ADDED,
            }
        }
    }
}

impl Tally {
    pub fn met(&mut self, input: &Input, answer: &Answer) {
        let (outcome, at_0) = match answer {
            Ok(values) => (Outcome::Answered(kind(input, values)), false),
            Err(refusal) => (Outcome::Refused(refusal.number), refusal.place == 0),
        };
        let met = self.met.entry((input.call, outcome)).or_default();
        met.times += 1;
        met.at_0 += u64::from(at_0);
    }

    pub fn add(&mut self, other: &Tally) {
        for (key, met) in &other.met {
            let sum = self.met.entry(*key).or_default();
            sum.times += met.times;
            sum.at_0 += met.at_0;
        }
    }

    pub fn calls(&self) -> u64 {
        self.met.values().map(|met| met.times).sum()
    }

    /// The outcomes, and places of refusals, that no input met.
    pub fn missing(&self) -> Vec<String> {
        let mut missing = Vec::new();
        for call in CALLS {
            for name in answers(call) {
                if !self.met.contains_key(&(call, Outcome::Answered(name))) {
                    missing.push(format!("{call}: {name}"));
                }
            }
            for number in refusals(call) {
                let met = self.met.get(&(call, Outcome::Refused(number))).copied().unwrap_or_default();
                let (can_0, can_beyond) = places(call, number);
                if can_0 && met.at_0 == 0 {
                    missing.push(format!("{call}: {number} at 0"));
                }
                if can_beyond && met.times == met.at_0 {
                    missing.push(format!("{call}: {number} beyond 0"));
                }
            }
        }
        missing
    }
}

impl fmt::Display for Tally {
    fn fmt(&self, f: &mut fmt::Formatter<'_>) -> fmt::Result {
        writeln!(f, "{:8} {:30} {:>8} {:>8} {:>8}", "call", "outcome", "met", "at 0", "beyond")?;
        for ((call, outcome), met) in &self.met {
            match outcome {
                Outcome::Answered(name) => writeln!(f, "{call:8} {name:30} {:8}", met.times)?,
                Outcome::Refused(number) => {
                    let beyond = met.times - met.at_0;
                    writeln!(f, "{call:8} refused {number:<22} {:8} {:8} {beyond:8}", met.times, met.at_0)?;
                }
            }
        }
        Ok(())
    }
}
