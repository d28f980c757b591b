//! What is altered in a payload. Bit 0 is the highest of the first byte.

use crate::random::Random;

/// The polynomial of the checksum with its highest term: 17 bits.
pub const POLYNOMIAL: u32 = 0x11021;
/// The widest burst that is always caught.
const WIDEST: u64 = 16;

#[derive(Clone, Copy, Debug, PartialEq, Eq)]
pub enum Kind {
    Whole,
    /// One bit to all of 16 consecutive ones.
    Burst,
    /// An odd number of bits anywhere.
    Odd,
    /// The first and the last of 17 consecutive bits, and some between.
    TooWide,
    /// The pattern that no such checksum sees.
    Polynomial,
}

impl Kind {
    pub fn name(self) -> &'static str {
        match self {
            Kind::Whole => "whole transfers",
            Kind::Burst => "bursts of up to 16 bits",
            Kind::Odd => "odd numbers of altered bits",
            Kind::TooWide => "bursts of 17 bits",
            Kind::Polynomial => "altered by the polynomial",
        }
    }

    /// The altered bits of a payload that has so many.
    pub fn altered(self, bits: u64, random: &mut Random) -> Vec<u64> {
        match self {
            Kind::Whole => Vec::new(),
            Kind::Burst => {
                let width = random.between(1, WIDEST);
                let ends = 1 << (width - 1) | 1;
                placed(random.below(1 << width) as u32 | ends, width, bits, random)
            }
            Kind::Odd => odd(bits, random),
            Kind::TooWide => {
                let pattern = random.below(1 << 17) as u32 | 1 << 16 | 1;
                placed(pattern, WIDEST + 1, bits, random)
            }
            Kind::Polynomial => placed(POLYNOMIAL, WIDEST + 1, bits, random),
        }
    }
}

/// The ones of a pattern, somewhere in the payload.
fn placed(pattern: u32, width: u64, bits: u64, random: &mut Random) -> Vec<u64> {
    let from = random.between(0, bits - width);
    (0..width)
        .filter(|place| pattern >> (width - 1 - place) & 1 == 1)
        .map(|place| from + place)
        .collect()
}

fn odd(bits: u64, random: &mut Random) -> Vec<u64> {
    let count = 2 * random.below(8) as usize + 1;
    let mut altered = Vec::new();
    while altered.len() < count {
        let bit = random.below(bits);
        if !altered.contains(&bit) {
            altered.push(bit);
        }
    }
    altered
}
