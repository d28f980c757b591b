//! Several frames in one call (RULES 5.8): batches of 0 to 100 records, with damaged lengths, on
//! states at fault and not. Every buffer must be as the reference leaves it, and as that many single
//! calls of the same library leave it. First, wrong variants must be caught.
//!
//! `batches [SEED [BATCHES]]`. The feature `link` links the archive; without it the reference stands
//! in.

#[path = "../compare/cables.rs"]
#[allow(dead_code)]
mod cables;
#[path = "../compare/faults.rs"]
#[allow(dead_code)]
mod faults;
#[path = "../compare/lent.rs"]
#[allow(dead_code)]
mod lent;
#[cfg(feature = "link")]
mod linked;
mod make;
#[path = "../compare/random.rs"]
#[allow(dead_code)]
mod random;
mod sides;
#[path = "../compare/states.rs"]
#[allow(dead_code)]
mod states;
#[path = "../compare/traffic.rs"]
#[allow(dead_code)]
mod traffic;
mod trials;
mod wrong;

use random::Random;
use sides::Side;
use std::process::ExitCode;
use trials::Trials;

const BATCHES: u64 = 60_000;
/// So many show a wrong variant.
const SHORT: u64 = 3_000;
/// Each case must be seen so often.
const LEAST: u64 = 100;

fn main() -> ExitCode {
    let mut words = std::env::args().skip(1);
    let mut number = |or| {
        words.next().map_or(or, |text| {
            text.parse().expect("usage: batches [SEED [BATCHES]]")
        })
    };
    let (seed, batches) = (number(1), number(BATCHES));
    if wrong_are_caught(seed) && holds(seed, batches) {
        println!("ALIKE");
        ExitCode::SUCCESS
    } else {
        println!("DIFFERENT");
        ExitCode::FAILURE
    }
}

fn wrong_are_caught(seed: u64) -> bool {
    let mut caught = true;
    for (name, many) in wrong::ALL {
        let side = Side {
            many,
            ..Side::reference()
        };
        match Trials::new(side, Random::new(seed)).run(SHORT) {
            Ok(()) => {
                println!("{name}: NOT CAUGHT");
                caught = false;
            }
            Err(difference) => println!("{name}: caught, {difference}"),
        }
    }
    caught
}

fn holds(seed: u64, batches: u64) -> bool {
    #[cfg(feature = "link")]
    let side = linked::side();
    #[cfg(not(feature = "link"))]
    let side = Side::reference();
    let mut trials = Trials::new(side, Random::new(seed));
    let result = trials.run(batches);
    trials.show();
    match result {
        Err(difference) => {
            println!("seed {seed}: {difference}");
            false
        }
        Ok(()) => trials.is_thorough(LEAST),
    }
}
