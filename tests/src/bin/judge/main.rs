//! Captures judged (RULES 19) by the archive's call, beside the reference: a million at random, of
//! senders that keep the rules and of such that break one. First, wrong variants must be caught.
//!
//! `judge [SEED]`. The feature `link` links the archive; without it the reference stands in, as it
//! does with `--self`. `judge --judge`, `--make` and `--sample` are for the tests of the program.

mod comparison;
mod damage;
mod files;
#[path = "../compare/lent.rs"]
#[allow(dead_code)]
mod lent;
#[cfg(feature = "link")]
mod linked;
mod programs;
#[path = "../compare/random.rs"]
#[allow(dead_code)]
mod random;
mod sides;
#[path = "../compare/tally.rs"]
#[allow(dead_code)]
mod tally;
mod traffic;
mod wrong;

use comparison::{Amounts, Comparison};
use sides::Side;
use std::process::ExitCode;
use std::sync::Mutex;
use tally::{Difference, Tally};

/// How often every answer and every case must be seen.
const MINIMUM: u64 = 1000;
const ROUNDS: u64 = 20;
const ROUND: Amounts = Amounts {
    whole: 8_000,
    damaged: 37_000,
    large: 1_000,
    refused: 4_000,
    huge: 1,
};

fn main() -> ExitCode {
    let words: Vec<String> = std::env::args().skip(1).collect();
    let words: Vec<&str> = words.iter().map(String::as_str).collect();
    if let Some(status) = programs::run(&words) {
        return status;
    }
    let seed = |word: &str| word.parse().ok();
    let (side, seed) = match words[..] {
        [] => (side(), Some(1)),
        ["--self"] => (sides::REFERENCE, Some(1)),
        ["--self", word] => (sides::REFERENCE, seed(word)),
        [word] => (side(), seed(word)),
        _ => (sides::REFERENCE, None),
    };
    match seed {
        Some(seed) => comparison_of(side, seed),
        None => {
            eprintln!("usage: judge [--self] [SEED]");
            eprintln!("       judge {}", programs::USAGE);
            ExitCode::from(2)
        }
    }
}

fn comparison_of(side: Side, seed: u64) -> ExitCode {
    if wrong_are_caught(seed) && alike(side, seed) {
        println!("ALIKE");
        ExitCode::SUCCESS
    } else {
        println!("DIFFERENT");
        ExitCode::FAILURE
    }
}

/// Each on its own, on all cores.
fn wrong_are_caught(seed: u64) -> bool {
    let caught = on_all_cores(wrong::all(), |(name, side)| {
        let result = Comparison::new(side, seed).run(&ROUND);
        match &result {
            Ok(()) => println!("{name}: NOT CAUGHT"),
            Err(difference) => println!("{name}: caught, {:.100}", difference.0),
        }
        result.is_err()
    });
    caught.into_iter().all(|caught| caught)
}

/// The results of some work, in any order.
fn on_all_cores<W: Send, R: Send>(work: Vec<W>, done: impl Fn(W) -> R + Sync) -> Vec<R> {
    let cores = std::thread::available_parallelism().map_or(1, |cores| cores.get());
    let (work, done) = (Mutex::new(work.into_iter()), &done);
    let next = || work.lock().expect("no worker failed").next();
    std::thread::scope(|scope| {
        let worker = || std::iter::from_fn(next).map(done).collect::<Vec<R>>();
        let workers: Vec<_> = (0..cores).map(|_| scope.spawn(worker)).collect();
        let results = workers.into_iter();
        results
            .flat_map(|worker| worker.join().expect("the comparison itself failed"))
            .collect()
    })
}

/// All rounds; true if nothing differs and all was seen often enough.
fn alike(side: Side, seed: u64) -> bool {
    let seeds = (0..ROUNDS).map(|round| seed.wrapping_add(round)).collect();
    let rounds = on_all_cores(seeds, |seed| one_round(side, seed));
    match rounds.into_iter().collect() {
        Ok(rounds) => seen_enough(rounds),
        Err(Difference(difference)) => {
            println!("{difference}");
            false
        }
    }
}

fn one_round(side: Side, seed: u64) -> Result<Tally, Difference> {
    let mut comparison = Comparison::new(side, seed);
    comparison.run(&ROUND)?;
    Ok(comparison.tally)
}

fn seen_enough(rounds: Vec<Tally>) -> bool {
    let sum = rounds.into_iter().reduce(|mut sum, round| {
        sum.add(&round);
        sum
    });
    let tally = sum.expect("a round");
    tally.print();
    let short = tally.short_of(MINIMUM);
    for line in &short {
        println!("seen too rarely: {line}");
    }
    short.is_empty()
}

#[cfg(feature = "link")]
fn side() -> Side {
    linked::ARCHIVE
}

#[cfg(not(feature = "link"))]
fn side() -> Side {
    println!("no archive: build with the feature `link`");
    sides::REFERENCE
}
