//! Transfers on their way to a receiver: frames in order and repeated, with the frames as they were
//! sent by other interfaces and other streams' between. Every answer is compared with RULES 4.6 and
//! 14.18.

use crate::damage::Kind;
use crate::random::Random;
use crate::sides::{Side, Sum, SIGNATURE, TYPE};
use reference::frame::{next_transfer_id, Stream, TransferType, FRAME_PAYLOAD};
use reference::receive::{Frame, LONGEST_PAYLOAD};
use reference::send::split;

const SOURCES: usize = 8;
/// The interface that brings the damaged frames.
const FOLLOWED: u32 = 1;

pub struct Wire {
    side: Box<dyn Side>,
    sender: Sum,
    random: Random,
    time: u64,
    /// The transfer ID that each source sends next; one source more has single frames.
    next: [u8; SOURCES + 1],
}

impl Wire {
    pub fn new(side: Box<dyn Side>, sender: Sum, random: Random) -> Wire {
        Wire {
            side,
            sender,
            random,
            time: 0,
            next: [0; SOURCES + 1],
        }
    }

    /// So many transfers of a kind, each of which must end with a number.
    pub fn all(&mut self, kind: Kind, count: u64, end: u32) -> Result<(), String> {
        for index in 0..count {
            let seen = self.transfer(kind)?;
            if seen != end {
                return Err(format!("{}: number {index} ends with {seen}", kind.name()));
            }
        }
        Ok(())
    }

    /// How many of so many transfers end with a number.
    pub fn ends(&mut self, kind: Kind, count: u64, end: u32) -> u64 {
        (0..count)
            .filter(|_| self.transfer(kind) == Ok(end))
            .count() as u64
    }

    /// The answer to the first copy of the last frame; an error if another answer is wrong.
    fn transfer(&mut self, kind: Kind) -> Result<u32, String> {
        let source = self.random.index(SOURCES);
        let id = self.id(source);
        let (sent, arriving) = self.frames(kind, self.next[source]);
        self.next[source] = next_transfer_id(self.next[source]);
        let mut end = None;
        for (index, data) in arriving.iter().enumerate() {
            let last = index + 1 == arriving.len();
            let answer = self.receive(id, data, FOLLOWED);
            match (last, answer) {
                (true, number) => end = Some(number),
                (false, 0) => {}
                (false, number) => return Err(format!("frame {index}: {number}")),
            }
            self.between(id, data, &sent, index, last)?;
        }
        end.ok_or_else(|| "no frame".into())
    }

    /// The frames of a random payload, and what arrives of them.
    fn frames(&mut self, kind: Kind, transfer_id: u8) -> (Vec<Vec<u8>>, Vec<Vec<u8>>) {
        let most = if self.random.once_in(16) {
            LONGEST_PAYLOAD as u64
        } else {
            40
        };
        let length = self.random.between(FRAME_PAYLOAD as u64 + 1, most) as usize;
        let payload = self.random.bytes(length);
        let mut sent = split(&payload, SIGNATURE, transfer_id);
        let sum = (self.sender)(SIGNATURE, &payload).to_le_bytes();
        sent[0][..2].copy_from_slice(&sum);
        let mut arriving = sent.clone();
        for bit in kind.altered(8 * length as u64, &mut self.random) {
            let place = 2 + bit as usize / 8;
            arriving[place / FRAME_PAYLOAD][place % FRAME_PAYLOAD] ^= 128 >> (bit % 8);
        }
        (sent, arriving)
    }

    /// What may come after a frame and before the next.
    fn between(
        &mut self,
        id: u32,
        data: &[u8],
        sent: &[Vec<u8>],
        index: usize,
        last: bool,
    ) -> Result<(), String> {
        if self.random.once_in(4) {
            let repeat = match (index, last) {
                (_, true) => 30,
                (0, false) => 33,
                (_, false) => 31,
            };
            self.expect(id, data, FOLLOWED, repeat)?;
        }
        if self.random.once_in(4) {
            let interface = self.random.pick(&[0, 2]);
            let copy = self.random.index(sent.len());
            self.expect(id, &sent[copy], interface, 34)?;
        }
        if self.random.once_in(16) {
            let tail = 0xC0 | self.next[SOURCES];
            self.next[SOURCES] = next_transfer_id(self.next[SOURCES]);
            self.expect(self.id(SOURCES), &[tail], FOLLOWED, 1)?;
        }
        Ok(())
    }

    fn expect(&mut self, id: u32, data: &[u8], by: u32, number: u32) -> Result<(), String> {
        match self.receive(id, data, by) {
            answer if answer == number => Ok(()),
            answer => Err(format!(
                "{id:08X} {data:02X?} by {by}: {answer}, not {number}"
            )),
        }
    }

    fn receive(&mut self, id: u32, data: &[u8], interface: u32) -> u32 {
        self.time += self.random.below(1000);
        self.side.receive(&Frame {
            id,
            data,
            interface,
            time: self.time,
        })
    }

    fn id(&self, source: usize) -> u32 {
        let stream = Stream {
            transfer_type: TransferType::Message,
            type_id: TYPE,
            source: source as u8 + 1,
            destination: 0,
        };
        stream.id(16, 0)
    }
}
