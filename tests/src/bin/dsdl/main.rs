//! Compares the archive's reading of type definitions (RULES 17) with the reference, on random
//! texts: from the grammar, and damaged in one place.
//!
//! The feature `link` links the archive. With `--self` the reference stands in for it, with
//! `--mutant` a wrong variant of the reference; with `--mutants` each of them must be caught.

mod call_mutants;
mod calls;
mod damage;
#[path = "../compare/lent.rs"]
#[allow(dead_code)]
mod lent;
#[cfg(feature = "link")]
mod linked;
mod mutants;
#[path = "../compare/random.rs"]
#[allow(dead_code)]
mod random;
#[path = "../compare/tally.rs"]
#[allow(dead_code)]
mod tally;
mod texts;
mod words;
mod wrong_lines;

use calls::{Calls, Side};
use reference::dsdl::RULES;
use std::process::ExitCode;
use std::sync::atomic::{AtomicU64, Ordering::Relaxed};
use tally::{Difference, Tally};

const USAGE: &str = "usage: dsdl [--self | --mutants | --mutant NAME] [--seed N] [--texts N] \
    [--minimum N]";
/// Texts of one round, each with a seed of its own.
const ROUND: u64 = 20_000;
/// So many show a wrong variant.
const TRIALS: u64 = 100_000;

struct Options {
    /// In place of the archive.
    side: Option<Side>,
    mutants: bool,
    seed: u64,
    texts: u64,
    minimum: u64,
}

fn main() -> ExitCode {
    let options = match options(std::env::args().skip(1)) {
        Ok(options) => options,
        Err(message) => {
            eprintln!("{message}");
            return ExitCode::from(2);
        }
    };
    let passed = match (options.side, archive()) {
        (_, _) if options.mutants => all_caught(options.seed),
        (Some(side), _) | (None, Some(side)) => is_alike(side, &options),
        (None, None) => {
            eprintln!("no archive: build with the feature `link`, or give --self or --mutants");
            return ExitCode::from(2);
        }
    };
    if passed {
        ExitCode::SUCCESS
    } else {
        ExitCode::FAILURE
    }
}

#[cfg(feature = "link")]
fn archive() -> Option<Side> {
    Some(Side::Call(linked::call))
}

#[cfg(not(feature = "link"))]
fn archive() -> Option<Side> {
    None
}

fn options(mut words: impl Iterator<Item = String>) -> Result<Options, String> {
    let mut options = Options {
        side: None,
        mutants: false,
        seed: 1,
        texts: 1_000_000,
        minimum: 1000,
    };
    while let Some(word) = words.next() {
        match word.as_str() {
            "--self" => {
                options.side = Some(Side::Rules(RULES));
                continue;
            }
            "--mutants" => {
                options.mutants = true;
                continue;
            }
            _ => {}
        }
        let value = words.next().ok_or(USAGE)?;
        let number = value.parse().map_err(|_| USAGE.to_string());
        match word.as_str() {
            "--seed" => options.seed = number?,
            "--texts" => options.texts = number?,
            "--minimum" => options.minimum = number?,
            "--mutant" => options.side = Some(mutant(&value)?),
            _ => return Err(USAGE.to_string()),
        }
    }
    Ok(options)
}

fn mutant(name: &str) -> Result<Side, String> {
    let mutants = mutants::all();
    let names: Vec<&str> = mutants.iter().map(|mutant| mutant.name).collect();
    let found = mutants.iter().find(|mutant| mutant.name == name);
    found
        .map(|mutant| mutant.side)
        .ok_or_else(|| format!("mutants: {}", names.join(", ")))
}

fn all_caught(seed: u64) -> bool {
    let mutants = mutants::all();
    let caught = mutants.iter().filter(|mutant| {
        let result = Calls::new(mutant.side, seed).run(TRIALS);
        match &result {
            Ok(()) => println!("{}: NOT CAUGHT", mutant.name),
            Err(difference) => println!("{}: caught, {}", mutant.name, tail(&difference.0)),
        }
        result.is_err()
    });
    let caught = caught.count();
    println!("{caught} of {} mutants caught", mutants.len());
    caught == mutants.len()
}

/// What differs comes behind the texts.
fn tail(text: &str) -> &str {
    &text[text.len().saturating_sub(160)..]
}

/// True if nothing differed and everything was seen often enough.
fn is_alike(side: Side, options: &Options) -> bool {
    let (texts, tally) = match rounds(side, options) {
        Ok(seen) => seen,
        Err(difference) => {
            println!("{}\nDIFFERENT", difference.0);
            return false;
        }
    };
    println!("{texts} texts");
    tally.print();
    let short = tally.short_of(options.minimum);
    for line in &short {
        println!("seen too rarely: {line}");
    }
    println!(
        "{}",
        if short.is_empty() {
            "ALIKE"
        } else {
            "SEEN TOO RARELY"
        }
    );
    short.is_empty()
}

/// Runs the rounds on all cores; how many texts they had, and what was seen.
fn rounds(side: Side, options: &Options) -> Result<(u64, Tally), Difference> {
    let count = options.texts.div_ceil(ROUND);
    let next = AtomicU64::new(0);
    let work = || {
        let mut all = Calls::new(side, options.seed);
        loop {
            let round = next.fetch_add(1, Relaxed);
            if round >= count {
                return Ok((all.texts, all.tally));
            }
            let seed = options.seed.wrapping_add(round);
            let mut calls = Calls::new(side, seed);
            calls.run(ROUND.min(options.texts)).map_err(|difference| {
                next.store(count, Relaxed);
                Difference(format!("--seed {seed}: {}", difference.0))
            })?;
            all.texts += calls.texts;
            all.tally.add(&calls.tally);
        }
    };
    let cores = std::thread::available_parallelism().map_or(1, |cores| cores.get());
    std::thread::scope(|scope| {
        let workers: Vec<_> = (0..cores).map(|_| scope.spawn(work)).collect();
        let (mut texts, mut tally) = (0, Calls::new(side, options.seed).tally);
        for worker in workers {
            let seen = worker.join().expect("the comparison itself failed")?;
            texts += seen.0;
            tally.add(&seen.1);
        }
        Ok((texts, tally))
    })
}
