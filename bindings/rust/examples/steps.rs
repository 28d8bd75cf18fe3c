//! What it costs to list in steps: the same listing in one call, in room that doubles, and in steps of one size.
use badolkhup::{book_of, Listing, Refusal};
use std::time::Instant;

/// Two groups each force a variable and the core forbids both together, so many times over: 2^pairs repairs and as many explanations as pairs.
fn disjoint_pairs(pairs: i32) -> Vec<i32> {
    let pair = |n: i32| [0, 1 - 2 * n, -2 * n, 0, 2 * n - 1, 2 * n - 1, 0, 2 * n, 2 * n, 0];
    [2 * pairs; 2].into_iter().chain((1..=pairs).flat_map(pair)).collect()
}

/// Lists to the end, each time with room for as many more records as `step` says of the count.
fn report(book: &[u8], name: &str, step: impl Fn(usize) -> usize) -> Result<(), Refusal> {
    let begun = Instant::now();
    let mut listing = Listing::new(book)?;
    let mut calls = 0;
    while !listing.is_complete() {
        let _ = listing.extend(step(listing.count()));
        calls += 1;
    }
    let milliseconds = begun.elapsed().as_secs_f64() * 1e3;
    println!("{name:12} {:5} records in {calls:4} calls {milliseconds:8.1} ms", listing.count());
    Ok(())
}

fn main() -> Result<(), Refusal> {
    let book = book_of(&disjoint_pairs(10))?;
    report(&book, "one call", |_| 2_000)?;
    report(&book, "doubling", |count| count.max(64))?;
    for step in [256, 64, 16, 4, 1] {
        report(&book, &format!("steps of {step}"), |_| step)?;
    }
    Ok(())
}
