//! One session: what a receiver keeps of a stream, and how a frame that passed the checks moves
//! it (RULES 4.3 to 4.8).

use crate::crc::transfer_checksum;
use crate::frame::{forward_distance, next_transfer_id, Stream, Tail};
use crate::receive::LONGEST_PAYLOAD;

/// A session is old above this age in microseconds.
pub const TIMEOUT: u64 = 2_000_000;
/// Above this age a session may follow another interface.
pub const SWITCH_DELAY: u64 = 1_000_000;
/// A start that is so far ahead of the expected transfer, or farther, brings no switch.
pub const FAR_AHEAD: u8 = 16;
/// Bytes of the checksum before a payload of several frames.
const CHECKSUM: usize = 2;
/// Payload and checksum of the longest transfer.
pub const MOST_GATHERED: usize = LONGEST_PAYLOAD + CHECKSUM;

#[derive(Clone, Debug, PartialEq, Eq)]
pub struct Session {
    pub stream: Stream,
    pub expected_id: u8,
    pub gathered: Vec<u8>,
    /// The blocks that the gathered bytes lie in, in the order taken.
    pub blocks: Vec<u8>,
    pub toggle: bool,
    pub time: u64,
    /// The interface whose frames it takes.
    pub follows: u8,
}

/// A frame of the stream that passed the checks.
#[derive(Clone, Copy, Debug)]
pub struct Piece<'a> {
    pub tail: Tail,
    pub payload: &'a [u8],
    pub interface: u8,
    pub time: u64,
    pub signature: u64,
}

/// Why a session restarts at a frame; where several reasons hold, the first.
#[derive(Clone, Copy, Debug, PartialEq, Eq)]
pub enum Restart {
    Old,
    /// A start by the followed interface, neither of the expected transfer nor of the one before.
    OutOfOrder,
    /// A start by any interface after the delay, not far ahead of the expected transfer.
    AfterDelay,
}

/// Why a frame is passed over (RULES 4.6).
#[derive(Clone, Copy, Debug, PartialEq, Eq)]
pub enum Reason {
    /// No start, and no transfer is in hand.
    NoTransfer,
    WrongToggle,
    /// The transfer ID is not the expected one.
    WrongTransfer,
    /// A start of the transfer that is in hand.
    RepeatedStart,
    /// Another interface is followed.
    OtherInterface,
}

/// What a session makes of a frame.
#[derive(Clone, Debug, PartialEq, Eq)]
pub enum Step {
    Taken,
    Closed(Vec<u8>),
    PassedOver(Reason),
    TooLong,
    NoBlock,
    ChecksumDiffers,
}

impl Session {
    /// A session as one restarted by a start with this transfer ID, by this interface.
    pub fn new(stream: Stream, transfer_id: u8, interface: u8, time: u64) -> Session {
        Session {
            stream,
            expected_id: transfer_id,
            gathered: Vec::new(),
            blocks: Vec::new(),
            toggle: false,
            time,
            follows: interface,
        }
    }

    /// An earlier time counts as age 0.
    pub fn age(&self, time: u64) -> u64 {
        time.saturating_sub(self.time)
    }

    pub fn is_old(&self, time: u64) -> bool {
        self.age(time) > TIMEOUT
    }

    /// Restarts at a frame if it has to; then why the frame is passed over, if it is.
    pub fn meet(&mut self, piece: &Piece) -> Option<Reason> {
        let tail = piece.tail;
        if self.restart(piece).is_some() {
            self.expect(tail.transfer_id);
            self.follows = piece.interface;
            if !tail.start {
                self.expected_id = next_transfer_id(self.expected_id);
                return Some(Reason::NoTransfer);
            }
        }
        self.passed_over(piece)
    }

    pub fn restart(&self, piece: &Piece) -> Option<Restart> {
        let (id, expected) = (piece.tail.transfer_id, self.expected_id);
        let out_of_order = piece.interface == self.follows && forward_distance(id, expected) > 1;
        let switch_allowed = self.age(piece.time) > SWITCH_DELAY;
        if self.is_old(piece.time) {
            Some(Restart::Old)
        } else if piece.tail.start && out_of_order {
            Some(Restart::OutOfOrder)
        } else if piece.tail.start && switch_allowed && forward_distance(expected, id) < FAR_AHEAD {
            Some(Restart::AfterDelay)
        } else {
            None
        }
    }

    /// Waits for a transfer, with nothing in hand.
    fn expect(&mut self, transfer_id: u8) {
        self.gathered.clear();
        self.blocks.clear();
        self.toggle = false;
        self.expected_id = transfer_id;
    }

    /// Is done with its transfer, handed out or dropped.
    pub fn end(&mut self) {
        self.expect(next_transfer_id(self.expected_id));
    }

    /// Why a frame at which nothing restarts is passed over; where several reasons hold, the first.
    pub fn passed_over(&self, piece: &Piece) -> Option<Reason> {
        let tail = piece.tail;
        let in_hand = !self.gathered.is_empty();
        if piece.interface != self.follows {
            Some(Reason::OtherInterface)
        } else if !tail.start && !in_hand {
            Some(Reason::NoTransfer)
        } else if tail.transfer_id != self.expected_id {
            Some(Reason::WrongTransfer)
        } else if tail.start && in_hand {
            Some(Reason::RepeatedStart)
        } else if tail.toggle != self.toggle {
            Some(Reason::WrongToggle)
        } else {
            None
        }
    }

    /// Adds the bytes of a frame that is taken, for which there is room.
    pub fn add(&mut self, piece: &Piece) -> Step {
        self.gathered.extend_from_slice(piece.payload);
        self.toggle = !self.toggle;
        if !piece.tail.end {
            return Step::Taken;
        }
        let gathered = std::mem::take(&mut self.gathered);
        self.end();
        if piece.tail.start {
            Step::Closed(gathered)
        } else {
            checked(&gathered, piece.signature)
        }
    }
}

/// The payload after a right checksum. Two bytes are there: one in hand, one in the end frame.
fn checked(gathered: &[u8], signature: u64) -> Step {
    let (checksum, payload) = gathered.split_at(CHECKSUM);
    if checksum == transfer_checksum(signature, payload).to_le_bytes() {
        Step::Closed(payload.to_vec())
    } else {
        Step::ChecksumDiffers
    }
}
