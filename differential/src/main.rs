//! The engine held to the twin on generated inputs.
//!
//! Each input is one call with everything that is lent to it. Answers must be equal, and so must every lent space and what lies beside it. The run fails at a
//! difference, and if some refusal or kind of answer that a call can give was never met. `--only` runs one case alone, by the number that a difference names.
#![forbid(unsafe_code)]

mod books;
mod damage;
mod generate;
mod input;
mod large;
mod run;
mod sequences;
mod sides;
mod tally;
mod text_damage;
mod texts;
#[cfg(test)]
mod wrong;

use std::process::ExitCode;
use std::time::Instant;

struct Options {
    seed: u64,
    inputs: u64,
    threads: u64,
    only: Option<u64>,
}

const USAGE: &str = "usage: differential [--seed N] [--inputs N] [--threads N] [--only N]";

fn options() -> Option<Options> {
    let threads = std::thread::available_parallelism().map_or(1, |threads| threads.get() as u64);
    let mut options = Options { seed: 2_026, inputs: 500_000, threads, only: None };
    let mut arguments = std::env::args().skip(1);
    while let Some(name) = arguments.next() {
        let value = arguments.next()?.parse().ok()?;
        match name.as_str() {
            "--seed" => options.seed = value,
            "--inputs" if value > 0 => options.inputs = value,
            "--threads" if value > 0 => options.threads = value,
            // The range of one case ends at the number behind it.
            "--only" if value < u64::MAX => options.only = Some(value),
            _ => return None,
        }
    }
    Some(options)
}

fn main() -> ExitCode {
    let Some(options) = options() else {
        eprintln!("{USAGE}");
        return ExitCode::from(2);
    };
    let began = Instant::now();
    let cases = options.only.map_or(0..options.inputs, |number| number..number + 1);
    println!("seed {}, cases {} to {}, {} threads", options.seed, cases.start, cases.end - 1, options.threads);
    let found = run::run(sides::by_engine, options.seed, cases, options.threads);
    if let Some((number, difference)) = found.difference {
        println!("difference: seed {}, case {number}\n{difference}", options.seed);
        return ExitCode::FAILURE;
    }
    print!("{}", found.tally);
    println!("{} calls compared, no difference, {:.1} s", found.tally.calls(), began.elapsed().as_secs_f64());
    let missing = found.tally.missing();
    if options.only.is_none() && !missing.is_empty() {
        println!("never met: {}", missing.join("; "));
        return ExitCode::FAILURE;
    }
    ExitCode::SUCCESS
}
