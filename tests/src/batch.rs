//! Several frames in one call (RULES 5.8).

use crate::entry::{hand_over, FAULT};
use crate::receive::{Answer, Frame, LONGEST_PAYLOAD};
use crate::state;

/// Bytes of a record, and of a result.
pub const RECORD: usize = 24;
pub const RESULT: usize = 8;
/// Records that one call uses up, at most.
pub const MOST: usize = 65_536;

/// A record: the frame that it stands for. The number of data bytes may be too large for it.
pub struct Record<'a> {
    bytes: &'a [u8],
}

impl<'a> Record<'a> {
    pub fn new(bytes: &'a [u8]) -> Record<'a> {
        Record { bytes }
    }

    /// The data bytes, of which there are as many as the record says: what it does not hold is
    /// zero, which makes no difference, as such a frame is not read.
    pub fn data(&self) -> Vec<u8> {
        let length = usize::from(self.bytes[13]);
        let mut data = self.bytes[14..22].to_vec();
        data.resize(length, 0);
        data
    }

    pub fn id(&self) -> u32 {
        state::get_u32(self.bytes, 8)
    }

    pub fn interface(&self) -> u32 {
        u32::from(self.bytes[12])
    }

    pub fn time(&self) -> u64 {
        state::get_u64(self.bytes, 0)
    }
}

pub fn receive_many(bytes: &mut [u8], records: &[u8], results: &mut [u8], out: &mut [u8]) -> u64 {
    let Some(mut receiver) = state::read(bytes) else {
        return u64::from(FAULT);
    };
    let mut used = 0;
    let mut written = 0;
    let pairs = records
        .chunks_exact(RECORD)
        .zip(results.chunks_exact_mut(RESULT));
    for (record, result) in pairs.take(MOST) {
        let record = Record::new(record);
        let frame = Frame {
            id: record.id(),
            data: &record.data(),
            interface: record.interface(),
            time: record.time(),
        };
        let room = &mut out[written..];
        let answer = receiver.receive(&frame, room.len());
        state::write(&receiver, bytes);
        let word = hand_over(&answer, room);
        result.copy_from_slice(&word.to_le_bytes());
        used += 1;
        if let Answer::HandedOut(transfer) = answer {
            written += transfer.payload.len();
            if !transfer.payload.is_empty() && out.len() - written < LONGEST_PAYLOAD {
                break;
            }
        }
    }
    used << 8
}
