//! Checking a sender by its capture (RULES 19): the call, and what both ways to a verdict share.
//! `pass` goes over the frames once; `search` looks for transfers that the frames are of, as 19.5
//! says it, and is for captures of a few frames.

pub mod list;
pub mod pass;
pub mod search;

use crate::captures::{find_records, time, RECORD};
use crate::entry::{read_subscriptions, NOT_ALLOWED};
use crate::frame::{Stream, Tail, FRAME_PAYLOAD, ID_END, LONGEST_FRAME};
use crate::receive::{well_shaped, Receiver};

/// Streams with a named source that a capture may have.
pub const MOST_STREAMS: usize = 64;
/// Bytes that the frames of a transfer may carry: the longest payload, and its checksum.
pub const MOST_CARRIED: usize = 514;
/// From start to start: from so long on a transfer ID may be 0 again.
pub const GAP: u64 = 2_000_000;
/// The trailer is wrong.
pub const NO_CAPTURE: u32 = 22;
pub const TOO_MANY_STREAMS: u32 = 9;
pub const TOO_LONG: u32 = 11;
pub const CHECKSUM_DIFFERS: u32 = 12;
/// Any other rule.
pub const NOT_SENT_SO: u32 = 24;

/// A frame of a capture (RULES 19.2).
#[derive(Clone, Copy, Debug)]
pub struct Frame {
    pub time: u64,
    pub id: u32,
    /// The number of data bytes that the record tells; above 8 it is no frame.
    pub length: usize,
    pub data: [u8; LONGEST_FRAME],
}

impl Frame {
    pub fn new(time: u64, id: u32, bytes: &[u8]) -> Frame {
        let mut data = [0; LONGEST_FRAME];
        data[..bytes.len()].copy_from_slice(bytes);
        Frame {
            time,
            id,
            length: bytes.len(),
            data,
        }
    }

    pub fn of_record(record: &[u8; RECORD]) -> Frame {
        Frame {
            time: time(record),
            id: u32::from_le_bytes(record[8..12].try_into().expect("4 bytes")),
            length: usize::from(record[12]),
            data: record[13..].try_into().expect("8 bytes"),
        }
    }

    pub fn record(&self) -> [u8; RECORD] {
        let mut record = [0; RECORD];
        record[..8].copy_from_slice(&self.time.to_le_bytes());
        record[8..12].copy_from_slice(&self.id.to_le_bytes());
        record[12] = self.length as u8;
        record[13..].copy_from_slice(&self.data);
        record
    }

    /// The data bytes, of a frame that has no more than it may.
    pub fn bytes(&self) -> &[u8] {
        &self.data[..self.length.min(LONGEST_FRAME)]
    }

    pub fn stream(&self) -> Stream {
        Stream::of_id(self.id)
    }

    /// Of a frame with data.
    pub fn tail(&self) -> Tail {
        Tail::of_byte(*self.bytes().last().expect("a tail byte"))
    }

    /// The bytes before the tail.
    pub fn payload(&self) -> &[u8] {
        &self.bytes()[..self.bytes().len().saturating_sub(1)]
    }
}

/// What is said of the frames.
#[derive(Clone, Copy, Debug, PartialEq, Eq)]
pub enum Verdict {
    Passes,
    Fails { number: u32, frame: usize },
}

/// What the call answers.
#[derive(Clone, Copy, Debug, PartialEq, Eq)]
pub enum Answer {
    Refused(u32),
    Judged(Verdict),
}

impl Answer {
    /// Number and frame in one (RULES 13.3).
    pub fn word(self) -> u64 {
        match self {
            Answer::Refused(number) => u64::from(number),
            Answer::Judged(Verdict::Passes) => 0,
            Answer::Judged(Verdict::Fails { number, frame }) => {
                u64::from(number) | (frame as u64) << 8
            }
        }
    }

    /// The first line that the program prints (RULES 19.11).
    pub fn line(self) -> String {
        match self {
            Answer::Refused(number) => number.to_string(),
            Answer::Judged(Verdict::Passes) => "0".to_string(),
            Answer::Judged(Verdict::Fails { number, frame }) => format!("{number} {frame}"),
        }
    }
}

/// A capture judged under a list of subscription records (RULES 19.1).
pub fn judge(subscriptions: &[u8], capture: &[u8]) -> Answer {
    judge_by(&pass::Plain, subscriptions, capture)
}

/// The same by rules that may be others.
pub fn judge_by(rules: &impl pass::Rules, subscriptions: &[u8], capture: &[u8]) -> Answer {
    let Some(receiver) = subscribed(subscriptions) else {
        return Answer::Refused(NOT_ALLOWED);
    };
    let Some(records) = find_records(capture) else {
        return Answer::Refused(NO_CAPTURE);
    };
    let (records, _) = records.as_chunks();
    let frames = records.iter().map(|record| rules.frame(record));
    Answer::Judged(pass::verdict(rules, &receiver, frames))
}

/// What a setup with own ID 0 makes of the list; none if 13 refuses it.
pub fn subscribed(subscriptions: &[u8]) -> Option<Receiver> {
    Receiver::setup(0, read_subscriptions(subscriptions)?)
}

/// The checks 2 to 5 (RULES 19.3): the one that refuses the frame.
pub fn check(frame: &Frame) -> Option<u32> {
    if frame.id >= ID_END {
        return Some(2);
    }
    if frame.length == 0 || frame.length > LONGEST_FRAME {
        return Some(3);
    }
    let stream = frame.stream();
    if stream.transfer_type.is_service() && (stream.source == 0 || stream.destination == 0) {
        return Some(4);
    }
    let payload = frame.length - 1;
    debug_assert!(payload <= FRAME_PAYLOAD);
    let fits = well_shaped(frame.tail(), payload, stream.is_anonymous());
    (!fits).then_some(5)
}

/// Check 7: the signature that the frame's stream is judged under; none without a subscription.
pub fn signature(receiver: &Receiver, frame: &Frame) -> Option<u64> {
    receiver.signature(&frame.stream())
}
