//! What is tried of a correction: each kind of trial gives the number of calls, or a difference.

use crate::random::Random;
use crate::Patch;
use reference::crc::{crc16_from, transfer_checksum};
use reference::entry;
use reference::patch::PAYLOAD;

pub type Tried = Result<u64, String>;

/// A payload of several frames.
fn payload(random: &mut Random) -> Vec<u8> {
    let length = if random.coin() {
        random.between(8, 40)
    } else {
        random.between(8, PAYLOAD)
    };
    random.bytes(length as usize)
}

/// One byte at any place of any payload, under any signature: the checksum worked out afresh.
pub fn bytes(patch: Patch, random: &mut Random, count: u64) -> Tried {
    for _ in 0..count {
        let signature = random.next();
        let mut payload = payload(random);
        let at = random.index(payload.len());
        let new = random.byte();
        field(patch, signature, &mut payload, at, &[new])?;
    }
    Ok(count)
}

/// Up to eight bytes side by side, one after the other.
pub fn fields(patch: Patch, random: &mut Random, count: u64) -> Tried {
    for _ in 0..count {
        let signature = random.next();
        let mut payload = payload(random);
        let width = random.between(2, 8) as usize;
        let at = random.index(payload.len() - width + 1);
        let new = random.bytes(width);
        field(patch, signature, &mut payload, at, &new)?;
    }
    Ok(count)
}

fn field(
    patch: Patch,
    signature: u64,
    payload: &mut [u8],
    at: usize,
    new: &[u8],
) -> Result<(), String> {
    let mut checksum = u32::from(transfer_checksum(signature, payload));
    for (i, &byte) in (at..).zip(new) {
        let after = payload.len() - 1 - i;
        let word = patch(
            checksum,
            u32::from(payload[i]),
            u32::from(byte),
            after as u64,
        );
        if word & 255 != 0 {
            return Err(format!("{after} bytes after: answered {}", word & 255));
        }
        payload[i] = byte;
        checksum = (word >> 8) as u32;
    }
    let afresh = transfer_checksum(signature, payload);
    if checksum == u32::from(afresh) {
        return Ok(());
    }
    Err(format!(
        "byte {at} of {} became {new:02X?}: corrected to {checksum:04X}, afresh {afresh:04X}",
        payload.len()
    ))
}

/// A checksum that was wrong stays wrong by the same bits.
pub fn errors(patch: Patch, random: &mut Random, count: u64) -> Tried {
    for _ in 0..count {
        let signature = random.next();
        let mut payload = payload(random);
        let at = random.index(payload.len());
        let error = random.between(1, 65535) as u16;
        let came = transfer_checksum(signature, &payload) ^ error;
        let after = (payload.len() - 1 - at) as u64;
        let new = random.byte();
        let word = patch(
            u32::from(came),
            u32::from(payload[at]),
            u32::from(new),
            after,
        );
        payload[at] = new;
        let expected = u64::from(transfer_checksum(signature, &payload) ^ error) << 8;
        if word != expected {
            return Err(format!(
                "an error of {error:04X}: {word:X}, not {expected:X}"
            ));
        }
    }
    Ok(count)
}

/// Every difference of two bytes with every number of bytes after it.
pub fn every(patch: Patch) -> Tried {
    for difference in 0..=255u8 {
        let mut left = crc16_from(0, &[difference]);
        for after in 0..PAYLOAD {
            let word = patch(0, u32::from(difference), 0, after);
            if word != u64::from(left) << 8 {
                return Err(format!(
                    "a difference of {difference:02X}, {after} bytes after: {word:X}, not {left:04X}"
                ));
            }
            left = crc16_from(left, &[0]);
        }
    }
    Ok(256 * PAYLOAD)
}

/// Any numbers, most of them too large, and how many of them were refused.
pub fn numbers(patch: Patch, random: &mut Random, count: u64) -> Result<(u64, u64), String> {
    let mut refused = 0;
    for _ in 0..count {
        let [checksum, old, new] = [(); 3].map(|()| random.next() as u32);
        let after = match random.below(4) {
            0 => random.between(510, 513),
            1 => random.next(),
            2 => random.next() << 32,
            _ => random.below(PAYLOAD),
        };
        let word = patch(checksum, old, new, after);
        let expected = entry::patch(checksum, old, new, after);
        if word != expected {
            return Err(format!(
                "{checksum:X} {old:X} {new:X} {after}: {word:X}, not {expected:X}"
            ));
        }
        refused += u64::from(word & 255 != 0);
    }
    Ok((count - refused, refused))
}
