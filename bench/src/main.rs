//! Holds the engine's library against a plain model of document 01, and times it against plain Rust.
//!
//!     bench check [--seed S] [--trials N] [--engine E]   random trials, every answer and lent word compared
//!     bench faults [--seed S]                            each planted fault must be found by such trials
//!     bench time [--quick] [--engine E]                  ratios and growth
//!
//! Engines: library (built with the feature of that name), plain, wavefront, naive.

mod differ;
mod engine;
#[cfg(feature = "library")]
mod library;
mod model;
mod naive;
mod plain;
mod recipe;
mod rng;
#[cfg(test)]
mod rows;
mod timing;
mod wavefront;

use engine::Engine;
use naive::{Naive, FAULTS};
use recipe::Limits;
use std::process::ExitCode;
use std::time::Instant;

const LIMITS: Limits = Limits { cells: 400, words: 4096 };
/// the naive model tries all cells for all messages in every call
const NAIVE_LIMITS: Limits = Limits { cells: 30, words: 300 };
/// trials within which each planted fault must be found
const FAULT_TRIALS: u64 = 6000;

struct Words {
    seed: u64,
    trials: u64,
    engine: String,
    quick: bool,
}

fn words(mut rest: impl Iterator<Item = String>) -> Result<Words, String> {
    let engine = if cfg!(feature = "library") { "library" } else { "plain" };
    let mut words = Words { seed: 1, trials: 20_000, engine: engine.into(), quick: false };
    while let Some(word) = rest.next() {
        let mut number = || {
            let value = rest.next().ok_or(format!("{word} needs a number"))?;
            value.parse::<u64>().map_err(|_| format!("{word}: {value} is no number"))
        };
        match word.as_str() {
            "--seed" => words.seed = number()?,
            "--trials" => words.trials = number()?,
            "--quick" => words.quick = true,
            "--engine" => words.engine = rest.next().ok_or("--engine needs a name")?,
            _ => return Err(format!("unknown word {word}")),
        }
    }
    if words.trials == 0 {
        return Err("--trials needs at least 1: no trial finds nothing".into());
    }
    Ok(words)
}

fn engine(name: &str) -> Result<(Box<dyn Engine>, Limits), String> {
    match name {
        #[cfg(feature = "library")]
        "library" => Ok((Box::new(library::Library), LIMITS)),
        "plain" => Ok((Box::new(plain::PLAIN), LIMITS)),
        "wavefront" => Ok((Box::new(plain::WAVEFRONT), LIMITS)),
        "naive" => Ok((Box::new(Naive::default()), NAIVE_LIMITS)),
        _ => Err(format!("no engine {name}")),
    }
}

fn check(words: &Words) -> Result<bool, String> {
    let (engine, limits) = engine(&words.engine)?;
    let start = Instant::now();
    println!("{} against the model, seed {}, {} trials", engine.name(), words.seed, words.trials);
    let (tally, difference) = match differ::trials(words.seed, words.trials, &*engine, limits) {
        Ok(tally) => (tally, None),
        Err((tally, difference)) => (tally, Some(difference)),
    };
    print!("{tally}");
    match &difference {
        Some(difference) => println!("{difference}found again by: check --trials 1 --seed {}", difference.seed),
        None => println!("no difference, {:.1} s", start.elapsed().as_secs_f64()),
    }
    Ok(difference.is_none())
}

fn faults(words: &Words) -> bool {
    let mut all = true;
    for fault in FAULTS {
        let naive = Naive::with(fault);
        match differ::trials(words.seed, FAULT_TRIALS, &naive, NAIVE_LIMITS) {
            Ok(_) => {
                all = false;
                println!("{fault:?}: NOT found in {FAULT_TRIALS} trials");
            }
            Err((tally, difference)) => {
                println!("{fault:?}: found after {} trials, seed {}", tally.trials, difference.seed)
            }
        }
    }
    all
}

fn main() -> ExitCode {
    let mut rest = std::env::args().skip(1);
    let command = rest.next().unwrap_or_default();
    let done = words(rest).and_then(|words| match command.as_str() {
        "check" => check(&words),
        "faults" => Ok(faults(&words)),
        "time" => engine(&words.engine).map(|(engine, _)| {
            timing::report(&*engine, words.quick);
            true
        }),
        _ => Err("say check, faults or time".into()),
    });
    match done {
        Ok(true) => ExitCode::SUCCESS,
        Ok(false) => ExitCode::FAILURE,
        Err(message) => {
            eprintln!("{message}");
            ExitCode::from(2)
        }
    }
}
