//! Bytes rewritten in passing (RULES 6.7): a million corrections through C must be the checksum
//! worked out afresh; fields of several bytes too; wrong checksums stay wrong by the same bits; and
//! every difference with every number of bytes after it. First, wrong corrections must be caught.
//!
//! `patches [SEED]`. The feature `link` links the archive; without it the reference stands in.

#[cfg(feature = "link")]
mod linked;
#[path = "../compare/random.rs"]
#[allow(dead_code)]
mod random;
mod trials;
mod wrong;

use random::Random;
use std::process::ExitCode;

/// The call: checksum, old byte, new byte, bytes after; the result word.
type Patch = fn(u32, u32, u32, u64) -> u64;

const BYTES: u64 = 1_000_000;
const OTHERS: u64 = 100_000;
/// So many show a wrong correction.
const TRIALS: u64 = 2_000;

fn main() -> ExitCode {
    let seed = std::env::args()
        .nth(1)
        .map_or(1, |text| text.parse().expect("usage: patches [SEED]"));
    if wrong_are_caught(seed) && holds(seed) {
        println!("CORRECTED");
        ExitCode::SUCCESS
    } else {
        println!("DIFFERENT");
        ExitCode::FAILURE
    }
}

fn wrong_are_caught(seed: u64) -> bool {
    let mut caught = true;
    for (name, patch) in wrong::all() {
        let mut random = Random::new(seed);
        let result = trials::bytes(patch, &mut random, TRIALS)
            .and_then(|_| trials::numbers(patch, &mut random, TRIALS));
        match result {
            Ok(_) => println!("{name}: NOT CAUGHT"),
            Err(difference) => {
                println!("{name}: caught, {difference}");
                continue;
            }
        }
        caught = false;
    }
    caught
}

fn holds(seed: u64) -> bool {
    match compared(patch(), &mut Random::new(seed)) {
        Ok(()) => true,
        Err(difference) => {
            println!("{difference}");
            false
        }
    }
}

fn compared(patch: Patch, random: &mut Random) -> Result<(), String> {
    let count = trials::bytes(patch, random, BYTES)?;
    println!("{count:>10}  one byte: the checksum worked out afresh");
    let count = trials::fields(patch, random, OTHERS)?;
    println!("{count:>10}  fields of 2 to 8 bytes: the same");
    let count = trials::errors(patch, random, OTHERS)?;
    println!("{count:>10}  wrong checksums: wrong by the same bits");
    let count = trials::every(patch)?;
    println!("{count:>10}  every difference with every number of bytes after it");
    let (corrected, refused) = trials::numbers(patch, random, OTHERS)?;
    println!("{OTHERS:>10}  any numbers: {corrected} answered 0, {refused} answered 11");
    Ok(())
}

#[cfg(feature = "link")]
fn patch() -> Patch {
    linked::patch
}

#[cfg(not(feature = "link"))]
fn patch() -> Patch {
    println!("no archive: build with the feature `link`");
    reference::entry::patch
}
