//! Damage on the wire (RULES 6.6, 14.16 to 14.18): transfers of several frames whose payload is
//! altered by random bursts of up to 16 bits, or in an odd number of bits, must end with 12, and
//! whole ones must be handed out. Beyond that, some bursts of 17 bits must go unseen. First, wrong
//! variants of the checksum must be caught.
//!
//! `bursts [SEED]`. The feature `link` links the archive; without it the reference stands in.

mod damage;
#[cfg(feature = "link")]
mod linked;
#[path = "../compare/random.rs"]
#[allow(dead_code)]
mod random;
mod sides;
mod wire;

use damage::{Kind, POLYNOMIAL};
use random::Random;
use reference::crc::transfer_checksum;
use sides::Side;
use std::process::ExitCode;
use wire::Wire;

const BURSTS: u64 = 1_000_000;
const OTHERS: u64 = 100_000;
/// Of random bursts of 17 bits one in 32,768 is the polynomial, and goes unseen.
const TOO_WIDE: u64 = 500_000;
/// So many show a wrong variant.
const TRIALS: u64 = 20_000;

fn main() -> ExitCode {
    let seed = std::env::args()
        .nth(1)
        .map_or(1, |text| text.parse().expect("usage: bursts [SEED]"));
    if wrong_are_caught(seed) && holds(seed) {
        println!("CAUGHT");
        ExitCode::SUCCESS
    } else {
        println!("MISSED");
        ExitCode::FAILURE
    }
}

/// Each wrong variant must show in the bursts or in the whole transfers.
fn wrong_are_caught(seed: u64) -> bool {
    let missed = sides::wrong().into_iter().filter(|wrong| {
        let mut wire = Wire::new(wrong.side(), wrong.sender, Random::new(seed));
        let result = wire
            .all(Kind::Whole, TRIALS, 1)
            .and_then(|()| wire.all(Kind::Burst, TRIALS, 12));
        match &result {
            Ok(()) => println!("{}: NOT CAUGHT", wrong.name),
            Err(difference) => println!("{}: caught, {difference}", wrong.name),
        }
        result.is_ok()
    });
    missed.count() == 0
}

/// The facts, and the limit.
fn holds(seed: u64) -> bool {
    let mut wire = Wire::new(side(), transfer_checksum, Random::new(seed));
    let result = [
        (Kind::Whole, OTHERS, 1),
        (Kind::Burst, BURSTS, 12),
        (Kind::Odd, OTHERS, 12),
        (Kind::Polynomial, OTHERS, 1),
    ]
    .into_iter()
    .try_for_each(|(kind, count, end)| {
        wire.all(kind, count, end)?;
        println!("{count:>10}  {}: all end with {end}", kind.name());
        Ok::<(), String>(())
    });
    if let Err(difference) = result {
        println!("{difference}");
        return false;
    }
    let unseen = wire.ends(Kind::TooWide, TOO_WIDE, 1);
    println!(
        "{TOO_WIDE:>10}  {}: {unseen} handed out",
        Kind::TooWide.name()
    );
    println!("            the polynomial: {POLYNOMIAL:#07x}");
    unseen > 0
}

#[cfg(feature = "link")]
fn side() -> Box<dyn Side> {
    Box::new(linked::Archive::new())
}

#[cfg(not(feature = "link"))]
fn side() -> Box<dyn Side> {
    println!("no archive: build with the feature `link`");
    Box::new(sides::reference())
}
