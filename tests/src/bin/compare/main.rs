//! Compares the archive's entry points with the reference, call by call, on random input.
//!
//! Without `--self`, `--mutant`, `--mutants` or `--codec` the other side is the archive, which the
//! feature `link` links.

mod allocations;
mod allocator_mutants;
mod block_mutants;
mod cables;
mod clipping;
mod clipping_mutants;
mod entry_points;
mod faults;
mod interface_mutants;
mod lent;
#[cfg(feature = "link")]
mod linked;
mod maps;
mod mutants;
mod options;
mod outgoing;
mod parameter_mutants;
mod parameters;
mod payloads;
mod questions;
mod random;
mod reason_mutants;
mod receptions;
mod requests;
mod sends;
mod setups;
mod signatures;
mod situations;
mod states;
mod supply;
mod tables;
mod tally;
mod traffic;

use allocations::Allocations;
use entry_points::{EntryPoints, REFERENCE};
use mutants::{Mutant, Part};
use options::{Options, Side};
use payloads::Payloads;
use receptions::Receptions;
use reference::entry::VERSION;
use requests::{Answerer, Requests};
use sends::Sends;
use setups::Setups;
use signatures::Signatures;
use std::process::ExitCode;
use std::sync::atomic::{AtomicBool, AtomicU64, Ordering::Relaxed};
use std::time::Instant;
use tally::{compare, Difference, Tally};

fn main() -> ExitCode {
    let options = match Options::parse(std::env::args().skip(1)) {
        Ok(options) => options,
        Err(message) => {
            eprintln!("{message}");
            return ExitCode::from(2);
        }
    };
    let passed = match &options.side {
        Side::Archive => match archive() {
            Some(side) => verdict(rounds(&side, &options), &options),
            None => {
                eprintln!("no archive: build with the feature `link`, or give --self or --mutants");
                return ExitCode::from(2);
            }
        },
        Side::Reference => verdict(rounds(&REFERENCE, &options), &options),
        Side::Mutant(mutant) => verdict(rounds(&mutant.side, &options), &options),
        Side::Mutants => all_caught(&options),
        Side::Codec(path) => verdict(lines(path, &options), &options),
    };
    if passed {
        ExitCode::SUCCESS
    } else {
        ExitCode::FAILURE
    }
}

#[cfg(feature = "link")]
fn archive() -> Option<EntryPoints> {
    Some(linked::ARCHIVE)
}

#[cfg(not(feature = "link"))]
fn archive() -> Option<EntryPoints> {
    None
}

/// True if nothing differed and everything was seen often enough.
fn verdict(result: Result<Vec<Tally>, Difference>, options: &Options) -> bool {
    match result {
        Ok(tallies) => seen_enough(&tallies, options.minimum),
        Err(difference) => {
            println!("{}", difference.0);
            println!("DIFFERENT");
            false
        }
    }
}

/// Fewer do not show every case as often as wanted, however little time is given.
const FEWEST_ROUNDS: u64 = 8;

/// Runs the rounds on all cores, until they are done, the time is over or something differs.
fn rounds(side: &EntryPoints, options: &Options) -> Result<Vec<Tally>, Difference> {
    let (began, next, stop) = (Instant::now(), AtomicU64::new(0), AtomicBool::new(false));
    let work = || {
        let mut tallies = Vec::new();
        loop {
            let round = next.fetch_add(1, Relaxed);
            let over = round >= FEWEST_ROUNDS && began.elapsed().as_secs() >= options.seconds;
            if over || round >= options.rounds || stop.load(Relaxed) {
                return Ok(tallies);
            }
            let seed = options.seed.wrapping_add(round);
            let seen = one_round(side, options, seed).inspect_err(|_| stop.store(true, Relaxed))?;
            add(&mut tallies, seen);
        }
    };
    let cores = std::thread::available_parallelism().map_or(1, |cores| cores.get());
    std::thread::scope(|scope| {
        let workers: Vec<_> = (0..cores).map(|_| scope.spawn(work)).collect();
        let mut tallies = Vec::new();
        for worker in workers {
            let seen = worker.join().expect("the comparison itself failed")?;
            add(&mut tallies, seen);
        }
        Ok(tallies)
    })
}

fn add(tallies: &mut Vec<Tally>, seen: Vec<Tally>) {
    if tallies.is_empty() {
        *tallies = seen;
        return;
    }
    for (tally, more) in tallies.iter_mut().zip(&seen) {
        tally.add(more);
    }
}

/// One round of every part, with what it saw.
fn one_round(side: &EntryPoints, options: &Options, seed: u64) -> Result<Vec<Tally>, Difference> {
    let with_seed =
        |difference: Difference| Difference(format!("--seed {seed} --rounds 1: {}", difference.0));
    parts(side, options, seed).map_err(with_seed)
}

fn parts(side: &EntryPoints, options: &Options, seed: u64) -> Result<Vec<Tally>, Difference> {
    compare((VERSION, (side.version)()), &[], || "version".to_string())?;
    let mut setups = Setups::new(side.reception, seed);
    setups.run(options.setups)?;
    let mut receptions = Receptions::new(side.reception, seed);
    receptions.run(options.frames)?;
    let mut sends = Sends::new(side.sending, seed);
    sends.run(options.sends)?;
    let mut allocations = Allocations::new(side.allocating, seed);
    allocations.run(options.allocations)?;
    let mut signatures = Signatures::new(side.signature, seed);
    signatures.run(options.setups)?;
    let mut tallies = vec![setups.tally, receptions.tally, sends.setups, sends.tally];
    tallies.extend([allocations.setups, allocations.tally, signatures.tally]);
    if let Some(serialization) = side.serialization {
        let mut payloads = Payloads::new(serialization, seed);
        payloads.run(options.messages)?;
        for (reading, writing) in payloads.tallies {
            tallies.extend([reading, writing]);
        }
    }
    Ok(tallies)
}

/// Runs the codec program on its lines.
fn lines(path: &str, options: &Options) -> Result<Vec<Tally>, Difference> {
    let mut requests = Requests::new(Answerer::Program(path.to_string()), options.seed);
    let with_seed =
        |difference: Difference| Difference(format!("--seed {}: {}", options.seed, difference.0));
    requests.run(options.lines).map_err(with_seed)?;
    Ok(requests.into_tallies())
}

fn seen_enough(tallies: &[Tally], minimum: u64) -> bool {
    for tally in tallies {
        tally.print();
    }
    let short: Vec<String> = tallies
        .iter()
        .flat_map(|tally| tally.short_of(minimum))
        .collect();
    for line in &short {
        println!("seen too rarely: {line}");
    }
    println!(
        "{}",
        if short.is_empty() {
            "ALIKE"
        } else {
            "SEEN TOO RARELY"
        }
    );
    short.is_empty()
}

/// Runs every mutant against the part that has to catch it; true if all are caught.
fn all_caught(options: &Options) -> bool {
    let mutants = mutants::all();
    let caught = mutants.iter().filter(|mutant| is_caught(mutant, options));
    let caught = caught.count();
    println!("{caught} of {} mutants caught", mutants.len());
    caught == mutants.len()
}

fn is_caught(mutant: &Mutant, options: &Options) -> bool {
    let side = &mutant.side;
    let result = match mutant.part {
        Part::Receptions => Receptions::new(side.reception, options.seed).run(options.frames),
        Part::Sends => Sends::new(side.sending, options.seed).run(options.sends),
        Part::Allocations => {
            Allocations::new(side.allocating, options.seed).run(options.allocations)
        }
        Part::Payloads => match side.serialization {
            Some(serialization) => Payloads::new(serialization, options.seed).run(options.messages),
            None => Ok(()),
        },
        Part::Requests => match side.serialization {
            Some(calls) => Requests::new(Answerer::Calls(calls), options.seed).run(options.lines),
            None => Ok(()),
        },
    };
    match &result {
        Ok(()) => println!("{}: NOT CAUGHT", mutant.name),
        Err(difference) => println!("{}: caught, {:.320}", mutant.name, difference.0),
    }
    result.is_err()
}
