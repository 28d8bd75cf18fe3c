//! Many cases, on several threads.
use crate::sequences::Steps;
use crate::sides::{compare, Side};
use crate::tally::Tally;
use crate::{generate, large};
use std::panic::{catch_unwind, AssertUnwindSafe};
use std::sync::atomic::{AtomicU64, Ordering};
use std::thread;
use twin::random::Random;

/// What a run found: what was met, and the lowest case at which the sides differ, if any.
pub struct Found {
    pub tally: Tally,
    pub difference: Option<(u64, String)>,
}

/// One case: mostly one input, at times a sequence of calls, seldom a listing of a book with many groups. Its number and the seed determine it.
pub fn case(engine: Side, seed: u64, number: u64, tally: &mut Tally) -> Result<(), String> {
    let mut random = Random::new(seed, number);
    let mut steps = Steps { engine, random: &mut random, tally };
    match number % 256 {
        255 => large::any(&mut steps),
        within if within % 16 == 15 => steps.any(),
        _ => {
            let input = generate::input(steps.random);
            compare(engine, &input, steps.tally).map(|_| ())
        }
    }
}

/// A case in which a side may also panic.
fn guarded(engine: Side, seed: u64, number: u64, tally: &mut Tally) -> Result<(), String> {
    let tried = catch_unwind(AssertUnwindSafe(|| case(engine, seed, number, tally)));
    tried.unwrap_or_else(|_| Err("  panicked".into()))
}

/// The cases from `begin` up to `end`. The same for any number of threads: a thread goes on up to the lowest difference that another has met.
pub fn run(engine: Side, seed: u64, cases: std::ops::Range<u64>, threads: u64) -> Found {
    let lowest = AtomicU64::new(u64::MAX);
    let part = |thread: u64| {
        let mut tally = Tally::default();
        for number in cases.clone().skip(thread as usize).step_by(threads as usize) {
            if number >= lowest.load(Ordering::Relaxed) {
                break;
            }
            if let Err(difference) = guarded(engine, seed, number, &mut tally) {
                lowest.fetch_min(number, Ordering::Relaxed);
                return Found { tally, difference: Some((number, difference)) };
            }
        }
        Found { tally, difference: None }
    };
    let parts: Vec<Found> = thread::scope(|scope| {
        let running: Vec<_> = (0..threads).map(|thread| scope.spawn(move || part(thread))).collect();
        running.into_iter().map(|thread| thread.join().expect("panics are caught in each case")).collect()
    });
    let mut tally = Tally::default();
    parts.iter().for_each(|part| tally.add(&part.tally));
    let difference = parts.into_iter().filter_map(|part| part.difference).min_by_key(|difference| difference.0);
    Found { tally, difference }
}
