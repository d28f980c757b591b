//! The standard types' signatures compared: theirs, those of numbers near theirs, and any.

use crate::entry_points::Signature;
use crate::random::Random;
use crate::tally::{compare, Difference, Tally};
use reference::definitions::{
    signature, ALLOCATION, BATTERY_INFO, EXECUTE_OPCODE, GET_SET, KEY_VALUE, LOG_MESSAGE,
    NODE_STATUS, RAW_COMMAND,
};

const STANDARD: &str = "a standard type";
const OTHER: &str = "no standard type";

pub struct Signatures {
    side: Signature,
    random: Random,
    pub tally: Tally,
}

impl Signatures {
    pub fn new(side: Signature, seed: u64) -> Signatures {
        Signatures {
            side,
            random: Random::new(seed),
            tally: Tally::new("signature", &[0], &[STANDARD, OTHER]),
        }
    }

    pub fn run(&mut self, calls: u64) -> Result<(), Difference> {
        while self.tally.calls() < calls {
            let (kind, type_id) = self.numbers();
            let expected = signature(kind, type_id);
            self.tally.number(0);
            self.tally
                .case(if expected == 0 { OTHER } else { STANDARD });
            compare((expected, (self.side)(kind, type_id)), &[], || {
                format!("signature of kind {kind}, type {type_id}")
            })?;
        }
        Ok(())
    }

    fn numbers(&mut self) -> (u32, u32) {
        let random = &mut self.random;
        let kind = random.pick(&[0, 0, 0, 1, 1, 2, 256, u32::MAX]);
        let standard = random.pick(&[
            NODE_STATUS,
            ALLOCATION,
            KEY_VALUE,
            LOG_MESSAGE,
            BATTERY_INFO,
            RAW_COMMAND,
            GET_SET,
            EXECUTE_OPCODE,
        ]);
        let type_id = match random.below(4) {
            0 => random.next() as u32,
            1 => u32::from(standard) + random.below(3) as u32 - 1,
            2 => u32::from(standard) | 1 << random.between(16, 31),
            _ => u32::from(standard),
        };
        (kind, type_id)
    }
}
