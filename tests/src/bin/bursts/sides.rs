//! The receivers under test: the reference, and the reference with a wrong checksum.

use reference::crc::transfer_checksum;
use reference::receive::{Answer, Frame, Receiver, Subscription};

pub const TYPE: u16 = 16370;
pub const SIGNATURE: u64 = 0x0123_4567_89AB_CDEF;
pub const OWN: u32 = 127;

/// The number answered to a frame.
pub trait Side {
    fn receive(&mut self, frame: &Frame) -> u32;
}

/// A checksum under a signature.
pub type Sum = fn(u64, &[u8]) -> u16;

/// A checksum that is wrong, at the sender, at the receiver or at both.
pub struct Wrong {
    pub name: &'static str,
    pub sender: Sum,
    receiver: Sum,
    /// The bits of it that are compared.
    compared: u16,
}

impl Wrong {
    pub fn side(&self) -> Box<dyn Side> {
        Box::new(Deciding {
            receiver: reference(),
            sum: self.receiver,
            compared: self.compared,
            gathered: Vec::new(),
        })
    }
}

pub fn wrong() -> Vec<Wrong> {
    vec![
        Wrong {
            name: "wrong-table-entry",
            sender: transfer_checksum,
            receiver: |signature, payload| by_table(&with_wrong_entry(), signature, payload),
            compared: 0xFFFF,
        },
        Wrong {
            name: "low-byte-compared",
            sender: transfer_checksum,
            receiver: transfer_checksum,
            compared: 0x00FF,
        },
        Wrong {
            name: "even-polynomial",
            sender: |signature, payload| by_bits(0x1020, signature, payload),
            receiver: |signature, payload| by_bits(0x1020, signature, payload),
            compared: 0xFFFF,
        },
        Wrong {
            name: "last-byte-left-out",
            sender: without_last,
            receiver: without_last,
            compared: 0xFFFF,
        },
    ]
}

pub fn reference() -> Receiver {
    let subscription = Subscription {
        service: false,
        type_id: TYPE,
        signature: SIGNATURE,
    };
    Receiver::setup(OWN, vec![subscription]).expect("an allowed setup")
}

impl Side for Receiver {
    fn receive(&mut self, frame: &Frame) -> u32 {
        Receiver::receive(self, frame, 512).number()
    }
}

/// The reference, but at the end of several frames another checksum decides.
struct Deciding {
    receiver: Receiver,
    sum: Sum,
    compared: u16,
    gathered: Vec<u8>,
}

impl Side for Deciding {
    fn receive(&mut self, frame: &Frame) -> u32 {
        let answer = self.receiver.receive(frame, 512);
        let (tail, part) = frame.data.split_last().expect("a frame with data");
        match answer {
            Answer::Taken if tail & 128 != 0 => self.gathered = part.to_vec(),
            Answer::Taken => self.gathered.extend(part),
            Answer::HandedOut(_) | Answer::ChecksumDiffers if tail & 128 == 0 => {
                self.gathered.extend(part);
                return self.end();
            }
            _ => {}
        }
        answer.number()
    }
}

impl Deciding {
    fn end(&self) -> u32 {
        let (front, payload) = self.gathered.split_at(2);
        let sum = (self.sum)(SIGNATURE, payload);
        let difference = sum ^ u16::from_le_bytes([front[0], front[1]]);
        if difference & self.compared == 0 {
            1
        } else {
            12
        }
    }
}

fn without_last(signature: u64, payload: &[u8]) -> u16 {
    transfer_checksum(signature, &payload[..payload.len() - 1])
}

fn by_bits(polynomial: u16, signature: u64, payload: &[u8]) -> u16 {
    let bytes = [&signature.to_le_bytes(), payload].concat();
    bytes.iter().fold(0xFFFF, |sum, byte| {
        up(polynomial, sum ^ u16::from(*byte) << 8, 8)
    })
}

/// So many places up.
fn up(polynomial: u16, sum: u16, places: u32) -> u16 {
    (0..places).fold(sum, |sum, _| {
        sum << 1 ^ if sum & 0x8000 != 0 { polynomial } else { 0 }
    })
}

/// The table of RULES 6.4, one entry of which is off by a bit.
fn with_wrong_entry() -> [u16; 16] {
    let mut table: [u16; 16] = std::array::from_fn(|entry| up(0x1021, (entry as u16) << 12, 4));
    table[8] ^= 1;
    table
}

fn by_table(table: &[u16; 16], signature: u64, payload: &[u8]) -> u16 {
    let bytes = [&signature.to_le_bytes(), payload].concat();
    let nibbles = bytes.iter().flat_map(|byte| [byte >> 4, byte & 15]);
    nibbles.fold(0xFFFF, |sum, nibble| {
        sum << 4 ^ table[usize::from(sum >> 12 ^ u16::from(nibble))]
    })
}
