//! A transfer checksum after a byte of the payload was rewritten in passing (RULES 6.7).

use crate::crc::crc16_from;

/// So many bytes come after no byte of a payload.
pub const PAYLOAD: u64 = 512;
/// The refusal of so many or more.
pub const TOO_LONG: u32 = 11;

/// The corrected checksum: what the byte's difference leaves in a register of 0, with as many
/// zero bytes after it as it has bytes after it, goes into the old checksum by exclusive or.
pub fn patch(checksum: u16, old: u8, new: u8, after: u64) -> Result<u16, u32> {
    if after >= PAYLOAD {
        return Err(TOO_LONG);
    }
    let mut difference = vec![0; after as usize + 1];
    difference[0] = old ^ new;
    Ok(checksum ^ crc16_from(0, &difference))
}
