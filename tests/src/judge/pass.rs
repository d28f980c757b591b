//! A verdict by one pass over the frames (RULES 19.8). Each rule is a method, so that wrong variants
//! can replace one.

use super::*;
use crate::crc::{crc16_by_table, crc16_from};
use crate::frame::{next_transfer_id, TransferType};
use std::collections::HashMap;
use std::hash::{BuildHasherDefault, Hasher};

/// What is kept of one stream.
#[derive(Clone, Debug)]
pub struct Kept {
    pub signature: u64,
    pub last: Option<Last>,
    pub in_hand: Option<InHand>,
}

/// Of a stream's last transfer.
#[derive(Clone, Copy, Debug)]
pub struct Last {
    pub transfer_id: u8,
    pub start: u64,
}

/// Of a transfer that has no end yet.
#[derive(Clone, Copy, Debug)]
pub struct InHand {
    pub id: u32,
    pub transfer_id: u8,
    /// The toggle that comes next.
    pub toggle: bool,
    /// How many bytes the frames carried.
    pub carried: usize,
    /// The first two of them.
    pub checksum: u16,
    /// The checksum so far of the others.
    pub register: u16,
}

/// The rules of 19.2 to 19.7, each by itself.
pub trait Rules {
    fn frame(&self, record: &[u8; RECORD]) -> Frame {
        Frame::of_record(record)
    }

    fn check(&self, frame: &Frame) -> Option<u32> {
        check(frame)
    }

    fn signature(&self, receiver: &Receiver, frame: &Frame) -> Option<u64> {
        signature(receiver, frame)
    }

    /// What tells streams with a named source apart: all of an ID but the priority.
    fn key(&self, frame: &Frame) -> u32 {
        frame.id & 0x00FF_FFFF
    }

    /// Whether more is asked of a frame than the checks.
    fn is_followed(&self, frame: &Frame) -> bool {
        !frame.stream().is_anonymous()
    }

    /// The stream of a frame that passed 2 to 5: 7, then 9.
    fn enter<'a>(&self, receiver: &Receiver, table: &'a mut Table, frame: &Frame) -> Entered<'a> {
        let signature = self.signature(receiver, frame).ok_or(7u32)?;
        if !self.is_followed(frame) {
            return Ok(None);
        }
        let kept = self.kept(table, frame, signature).ok_or(TOO_MANY_STREAMS)?;
        Ok(Some(kept))
    }

    fn most_streams(&self) -> usize {
        MOST_STREAMS
    }

    /// What is kept of the frame's stream; none if there is one too many.
    fn kept<'a>(
        &self,
        table: &'a mut Table,
        frame: &Frame,
        signature: u64,
    ) -> Option<&'a mut Kept> {
        let key = self.key(frame);
        if table.len() == self.most_streams() && !table.contains_key(&key) {
            return None;
        }
        Some(table.entry(key).or_insert(Kept {
            signature,
            last: None,
            in_hand: None,
        }))
    }

    /// A frame of a stream: what is kept goes on, or a number.
    fn follow(&self, kept: &mut Kept, frame: &Frame) -> Result<(), u32> {
        match (kept.in_hand, frame.tail().start) {
            (None, true) if self.may_start(kept, frame) => {
                self.start(kept, frame);
                Ok(())
            }
            (Some(transfer), false) if self.continues(&transfer, frame) => {
                kept.in_hand = self.extend(transfer, frame)?;
                Ok(())
            }
            _ => Err(NOT_SENT_SO),
        }
    }

    /// Whether the transfer ID of a start may come next (RULES 19.5).
    fn may_start(&self, kept: &Kept, frame: &Frame) -> bool {
        let Some(last) = kept.last else {
            return true;
        };
        let transfer_id = frame.tail().transfer_id;
        frame.stream().transfer_type == TransferType::Response
            || transfer_id == next_transfer_id(last.transfer_id)
            || transfer_id == 0 && self.is_gap(&last, frame)
    }

    fn is_gap(&self, last: &Last, frame: &Frame) -> bool {
        frame.time >= last.start && frame.time - last.start >= GAP
    }

    fn start(&self, kept: &mut Kept, frame: &Frame) {
        let transfer_id = frame.tail().transfer_id;
        kept.last = Some(Last {
            transfer_id,
            start: frame.time,
        });
        if !frame.tail().end {
            let payload = frame.payload();
            kept.in_hand = Some(InHand {
                id: frame.id,
                transfer_id,
                toggle: true,
                carried: payload.len(),
                checksum: u16::from_le_bytes([payload[0], payload[1]]),
                register: crc16_by_table(self.first_register(kept.signature), &payload[2..]),
            });
        }
    }

    /// The register after the signature.
    fn first_register(&self, signature: u64) -> u16 {
        crc16_from(0xFFFF, &signature.to_le_bytes())
    }

    /// Whether a frame that is no start goes on with the transfer in hand (RULES 19.7).
    fn continues(&self, transfer: &InHand, frame: &Frame) -> bool {
        transfer.id == frame.id
            && transfer.transfer_id == frame.tail().transfer_id
            && transfer.toggle == frame.tail().toggle
    }

    /// The transfer with one more frame; none once it is whole.
    fn extend(&self, transfer: InHand, frame: &Frame) -> Result<Option<InHand>, u32> {
        let grown = InHand {
            toggle: !transfer.toggle,
            carried: transfer.carried + frame.payload().len(),
            register: crc16_by_table(transfer.register, frame.payload()),
            ..transfer
        };
        if grown.carried > MOST_CARRIED {
            return Err(TOO_LONG);
        }
        if !frame.tail().end {
            return Ok(Some(grown));
        }
        self.close(&grown).map(|()| None)
    }

    /// A transfer that is whole, of several frames: its checksum, and that one frame would not do.
    fn close(&self, transfer: &InHand) -> Result<(), u32> {
        if transfer.checksum != transfer.register {
            return Err(CHECKSUM_DIFFERS);
        }
        if transfer.carried - 2 <= FRAME_PAYLOAD {
            return Err(NOT_SENT_SO);
        }
        Ok(())
    }

    /// What is still said when no frame is left.
    fn at_the_end(&self, _: &Table, _frames: usize) -> Verdict {
        Verdict::Passes
    }
}

/// What is kept, by stream.
pub type Table = HashMap<u32, Kept, BuildHasherDefault<Mixer>>;

/// A quick hash of a key, for files that are large.
#[derive(Default)]
pub struct Mixer(u64);

impl Hasher for Mixer {
    fn write(&mut self, _: &[u8]) {
        unreachable!("a key is a number")
    }

    fn write_u32(&mut self, key: u32) {
        self.0 = u64::from(key)
            .wrapping_mul(0x9E37_79B9_7F4A_7C15)
            .rotate_left(32);
    }

    fn finish(&self) -> u64 {
        self.0
    }
}

/// What is kept of a frame's stream, none for a frame that belongs to none; or a number.
pub type Entered<'a> = Result<Option<&'a mut Kept>, u32>;

/// The rules as they are.
pub struct Plain;

impl Rules for Plain {}

pub fn verdict(
    rules: &(impl Rules + ?Sized),
    receiver: &Receiver,
    frames: impl Iterator<Item = Frame>,
) -> Verdict {
    let mut judge = Pass::new(rules, receiver);
    for frame in frames {
        if let Err(verdict) = judge.frame(&frame) {
            return verdict;
        }
    }
    rules.at_the_end(&judge.table, judge.count)
}

/// A pass under way.
pub struct Pass<'a, R: Rules + ?Sized> {
    rules: &'a R,
    receiver: &'a Receiver,
    pub table: Table,
    count: usize,
}

impl<'a, R: Rules + ?Sized> Pass<'a, R> {
    pub fn new(rules: &'a R, receiver: &'a Receiver) -> Pass<'a, R> {
        Pass {
            rules,
            receiver,
            table: Table::default(),
            count: 0,
        }
    }

    /// The next frame; a verdict if no continuation passes after it.
    pub fn frame(&mut self, frame: &Frame) -> Result<(), Verdict> {
        let at = self.count;
        let fails = |number| Verdict::Fails { number, frame: at };
        self.count += 1;
        if let Some(number) = self.rules.check(frame) {
            return Err(fails(number));
        }
        match self.rules.enter(self.receiver, &mut self.table, frame) {
            Ok(Some(kept)) => self.rules.follow(kept, frame).map_err(fails),
            Ok(None) => Ok(()),
            Err(number) => Err(fails(number)),
        }
    }
}
