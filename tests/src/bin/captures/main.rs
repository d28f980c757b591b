//! Logs to captures and back (RULES 18) through the archive's two calls, beside the reference: whole
//! files at random, logs with a damaged line, and a million damaged captures. First, wrong variants
//! must be caught. 9 is not reached: it takes 2^32 lines.
//!
//! `captures [SEED]`. The feature `link` links the archive; without it the reference stands in.
//! `captures --capture`, `--uncapture` and `--make` are for the tests of the programs.

mod comparison;
mod damage;
#[path = "../compare/lent.rs"]
#[allow(dead_code)]
mod lent;
#[cfg(feature = "link")]
mod linked;
mod logs;
mod programs;
#[path = "../compare/random.rs"]
#[allow(dead_code)]
mod random;
mod sides;
#[path = "../compare/tally.rs"]
#[allow(dead_code)]
mod tally;
mod wrong;

use comparison::{Amounts, Comparison};
use sides::Side;
use std::process::ExitCode;
use tally::{Difference, Tally};

/// How often every answer and every case must be seen.
const MINIMUM: u64 = 1000;
const ROUNDS: u64 = 20;
const ROUND: Amounts = Amounts {
    logs: 10_000,
    damaged_logs: 10_000,
    captures: 10_000,
    // two of the sorts do no harm; the others are more than a million
    damaged_captures: 55_000,
};

fn main() -> ExitCode {
    let words: Vec<String> = std::env::args().skip(1).collect();
    let words: Vec<&str> = words.iter().map(String::as_str).collect();
    let seed = match words.as_slice() {
        [] => Some(1),
        [seed] => seed.parse().ok(),
        _ => None,
    };
    match (seed, programs::run(&words)) {
        (Some(seed), _) => comparison_of(seed),
        (None, Some(status)) => status,
        (None, None) => {
            eprintln!("usage: captures [SEED | --capture | --uncapture | --make SEED LINES]");
            ExitCode::from(2)
        }
    }
}

fn comparison_of(seed: u64) -> ExitCode {
    if wrong_are_caught(seed) && alike(seed) {
        println!("ALIKE");
        ExitCode::SUCCESS
    } else {
        println!("DIFFERENT");
        ExitCode::FAILURE
    }
}

fn wrong_are_caught(seed: u64) -> bool {
    let missed = wrong::all().into_iter().filter(|(name, side)| {
        let result = Comparison::new(*side, seed).run(&ROUND);
        match &result {
            Ok(()) => println!("{name}: NOT CAUGHT"),
            Err(difference) => println!("{name}: caught, {:.160}", difference.0),
        }
        result.is_ok()
    });
    missed.count() == 0
}

/// All rounds, on all cores; true if nothing differs and all was seen often enough.
fn alike(seed: u64) -> bool {
    let cores = std::thread::available_parallelism().map_or(1, |cores| cores.get() as u64);
    let share = |core: u64| (core..ROUNDS).step_by(cores as usize);
    let seen = std::thread::scope(|scope| {
        let work = |core| {
            move || {
                share(core)
                    .map(|round| one_round(seed.wrapping_add(round)))
                    .collect()
            }
        };
        let workers: Vec<_> = (0..cores).map(|core| scope.spawn(work(core))).collect();
        let results = workers.into_iter().flat_map(|worker| {
            let rounds: Vec<_> = worker.join().expect("the comparison itself failed");
            rounds
        });
        results.collect::<Result<Vec<[Tally; 2]>, Difference>>()
    });
    match seen {
        Ok(rounds) => seen_enough(rounds),
        Err(difference) => {
            println!("{}", difference.0);
            false
        }
    }
}

fn one_round(seed: u64) -> Result<[Tally; 2], Difference> {
    let mut comparison = Comparison::new(side(), seed);
    comparison.run(&ROUND)?;
    Ok([comparison.capture, comparison.uncapture])
}

fn seen_enough(rounds: Vec<[Tally; 2]>) -> bool {
    let sum = rounds.into_iter().reduce(|mut sum, round| {
        sum.iter_mut()
            .zip(&round)
            .for_each(|(tally, more)| tally.add(more));
        sum
    });
    let tallies = sum.expect("a round");
    tallies.iter().for_each(Tally::print);
    let short: Vec<String> = tallies
        .iter()
        .flat_map(|tally| tally.short_of(MINIMUM))
        .collect();
    for line in &short {
        println!("seen too rarely: {line}");
    }
    short.is_empty()
}

#[cfg(feature = "link")]
fn side() -> Side {
    linked::ARCHIVE
}

#[cfg(not(feature = "link"))]
fn side() -> Side {
    println!("no archive: build with the feature `link`");
    sides::REFERENCE
}
