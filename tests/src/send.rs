//! The sender: one payload into frames (RULES 7).

use crate::crc::transfer_checksum;
use crate::frame::{
    largest_type, Stream, Tail, TransferType, FRAME_PAYLOAD, LARGEST_ANONYMOUS_TYPE,
    LARGEST_PRIORITY, TRANSFER_IDS,
};
use crate::map::{Descriptor, Map};
use crate::receive::{LARGEST_NODE, LONGEST_PAYLOAD};

/// Bytes of a frame's record in the output.
pub const RECORD: usize = 13;
pub const LARGEST_DISCRIMINATOR: u32 = 16383;
/// Frames of the longest payload.
pub const MOST_FRAMES: usize = 74;

/// A call to send, as numbers; any of them may be out of range.
#[derive(Clone, Copy, Debug)]
pub struct Outgoing<'a> {
    pub own: u32,
    pub transfer_type: u32,
    pub type_id: u32,
    pub destination: u32,
    pub priority: u32,
    pub payload: &'a [u8],
    pub signature: u64,
    pub time: u64,
    pub transfer_id: u32,
    pub discriminator: u32,
}

#[derive(Clone, Debug, PartialEq, Eq)]
pub struct SentFrame {
    pub id: u32,
    pub data: Vec<u8>,
}

/// What a success gives: the frames, and the transfer ID in their tails.
#[derive(Clone, Debug, PartialEq, Eq)]
pub struct Sent {
    pub transfer_id: u8,
    pub frames: Vec<SentFrame>,
}

#[derive(Clone, Copy, Debug, PartialEq, Eq)]
pub enum Refusal {
    OutOfRange,
    PayloadTooLong,
    OutputTooSmall,
    TableFull,
}

impl Refusal {
    pub fn number(self) -> u32 {
        match self {
            Refusal::OutOfRange => 14,
            Refusal::PayloadTooLong => 11,
            Refusal::OutputTooSmall => 8,
            Refusal::TableFull => 9,
        }
    }
}

/// Sends into `room` bytes of output; only a success changes the map.
pub fn send(map: &mut Map, outgoing: &Outgoing, room: usize) -> Result<Sent, Refusal> {
    let stream = outgoing.stream().ok_or(Refusal::OutOfRange)?;
    let payload = outgoing.payload;
    if payload.len() > LONGEST_PAYLOAD {
        return Err(Refusal::PayloadTooLong);
    }
    if room < RECORD * frame_count(payload.len()) {
        return Err(Refusal::OutputTooSmall);
    }
    let transfer_id = match stream.transfer_type {
        TransferType::Response => outgoing.transfer_id as u8,
        _ => map
            .draw(descriptor(&stream), outgoing.time)
            .ok_or(Refusal::TableFull)?,
    };
    let id = stream.id(outgoing.priority as u8, outgoing.discriminator as u16);
    let frames = split(payload, outgoing.signature, transfer_id);
    Ok(Sent {
        transfer_id,
        frames: frames
            .into_iter()
            .map(|data| SentFrame { id, data })
            .collect(),
    })
}

/// How many frames a payload takes.
pub fn frame_count(payload: usize) -> usize {
    if payload <= FRAME_PAYLOAD {
        1
    } else {
        (payload + 8) / FRAME_PAYLOAD
    }
}

/// The data of each frame of a transfer, tails included.
pub fn split(payload: &[u8], signature: u64, transfer_id: u8) -> Vec<Vec<u8>> {
    let mut bytes = Vec::new();
    if payload.len() > FRAME_PAYLOAD {
        bytes.extend(transfer_checksum(signature, payload).to_le_bytes());
    }
    bytes.extend(payload);
    let count = bytes.len().div_ceil(FRAME_PAYLOAD).max(1);
    (0..count)
        .map(|index| {
            let tail = Tail {
                start: index == 0,
                end: index + 1 == count,
                toggle: index % 2 == 1,
                transfer_id,
            };
            let part = bytes.chunks(FRAME_PAYLOAD).nth(index).unwrap_or(&[]);
            [part, &[tail.byte()]].concat()
        })
        .collect()
}

fn descriptor(stream: &Stream) -> Descriptor {
    Descriptor {
        transfer_type: stream.transfer_type,
        type_id: stream.type_id,
        destination: stream.destination,
    }
}

impl Outgoing<'_> {
    /// The stream to send on; none if 14 refuses the call.
    fn stream(&self) -> Option<Stream> {
        let transfer_type = TransferType::of_number(self.transfer_type)?;
        let service = transfer_type.is_service();
        let addressed = if service {
            (1..=LARGEST_NODE).contains(&self.destination)
        } else {
            self.destination == 0
        };
        let in_range = self.own <= LARGEST_NODE
            && self.type_id <= largest_type(service)
            && addressed
            && self.priority <= LARGEST_PRIORITY
            && (transfer_type != TransferType::Response
                || self.transfer_id < u32::from(TRANSFER_IDS))
            && (self.own != 0 || self.may_be_anonymous(service));
        in_range.then_some(Stream {
            transfer_type,
            type_id: self.type_id as u16,
            source: self.own as u8,
            destination: self.destination as u8,
        })
    }

    fn may_be_anonymous(&self, service: bool) -> bool {
        !service
            && self.type_id <= LARGEST_ANONYMOUS_TYPE
            && self.payload.len() <= FRAME_PAYLOAD
            && self.discriminator <= LARGEST_DISCRIMINATOR
    }
}

impl SentFrame {
    /// ID, low byte first, data length, data with unused bytes zero.
    pub fn record(&self) -> [u8; RECORD] {
        let mut record = [0; RECORD];
        record[..4].copy_from_slice(&self.id.to_le_bytes());
        record[4] = self.data.len() as u8;
        record[5..5 + self.data.len()].copy_from_slice(&self.data);
        record
    }
}
