//! The entry points as C calls them: numbers and lent bytes in, a result word out.
//!
//! A result word holds the answer's number in bits 0 to 7 (RULES 13.3). After a transfer handed out
//! come its length, stream, priority and transfer ID, after a send the number of its frames and
//! their transfer ID, at the same place; after a correction comes the checksum, after an allocator's
//! reply, a capture or a log its length.

use crate::allocator::{self, Allocator, Request};
use crate::captures::Written;
use crate::map::{self, Map};
use crate::patch;
use crate::receive::{Answer, Frame, Receiver, Subscription, Transfer};
use crate::send::{self, Outgoing, RECORD};
use crate::state;

/// Major, minor and patch version, a byte each.
pub const VERSION: u32 = 0x00_02_00;
/// Lent state that is too short or at fault.
pub const FAULT: u32 = 20;
/// A setup that is not allowed.
pub const NOT_ALLOWED: u32 = 13;
/// Bytes of a subscription record: kind, type ID and signature.
pub const SUBSCRIPTION: usize = 13;

pub fn setup(bytes: &mut [u8], own: u32, subscriptions: &[u8]) -> u32 {
    if bytes.len() < state::SIZE {
        return FAULT;
    }
    let receiver = read_subscriptions(subscriptions).and_then(|list| Receiver::setup(own, list));
    match receiver {
        Some(receiver) => {
            bytes[..state::SIZE].fill(0);
            state::write(&receiver, bytes);
            0
        }
        None => NOT_ALLOWED,
    }
}

pub fn read_subscriptions(list: &[u8]) -> Option<Vec<Subscription>> {
    let records = list.chunks_exact(SUBSCRIPTION);
    if !records.remainder().is_empty() {
        return None;
    }
    records
        .map(|record| {
            let kind = u32::from(record[0]);
            let type_id = state::get_u32(record, 1);
            Subscription::of_numbers(kind, type_id, state::get_u64(record, 5))
        })
        .collect()
}

pub fn receive(bytes: &mut [u8], frame: &Frame, out: &mut [u8]) -> u64 {
    let Some(mut receiver) = state::read(bytes) else {
        return u64::from(FAULT);
    };
    let answer = receiver.receive(frame, out.len());
    state::write(&receiver, bytes);
    hand_over(&answer, out)
}

/// Puts an answer's payload, if it has one, into the output and gives the result word.
pub fn hand_over(answer: &Answer, out: &mut [u8]) -> u64 {
    let number = u64::from(answer.number());
    match answer {
        Answer::HandedOut(transfer) => {
            out[..transfer.payload.len()].copy_from_slice(&transfer.payload);
            number | transfer_bits(transfer)
        }
        _ => number,
    }
}

fn transfer_bits(transfer: &Transfer) -> u64 {
    let stream = &transfer.stream;
    (transfer.payload.len() as u64) << 8
        | u64::from(stream.transfer_type.number()) << 18
        | u64::from(stream.type_id) << 20
        | u64::from(stream.source) << 36
        | u64::from(stream.destination) << 43
        | u64::from(transfer.priority) << 50
        | transfer_id_bits(transfer.transfer_id)
}

fn transfer_id_bits(transfer_id: u8) -> u64 {
    u64::from(transfer_id) << 55
}

pub fn map_setup(bytes: &mut [u8]) -> u32 {
    if bytes.len() < map::SIZE {
        return FAULT;
    }
    bytes[..map::SIZE].fill(0);
    0
}

pub fn send(bytes: &mut [u8], outgoing: &Outgoing, out: &mut [u8]) -> u64 {
    let Some(mut map) = Map::read(bytes) else {
        return u64::from(FAULT);
    };
    match send::send(&mut map, outgoing, out.len()) {
        Ok(sent) => {
            map.write(bytes);
            for (record, frame) in out.chunks_exact_mut(RECORD).zip(&sent.frames) {
                record.copy_from_slice(&frame.record());
            }
            (sent.frames.len() as u64) << 8 | transfer_id_bits(sent.transfer_id)
        }
        Err(refusal) => u64::from(refusal.number()),
    }
}

/// Of numbers that are larger than a checksum or a byte, the low bits count.
pub fn patch(checksum: u32, old: u32, new: u32, after: u64) -> u64 {
    match patch::patch(checksum as u16, old as u8, new as u8, after) {
        Ok(corrected) => u64::from(corrected) << 8,
        Err(number) => u64::from(number),
    }
}

pub fn allocator_setup(bytes: &mut [u8]) -> u32 {
    if bytes.len() < allocator::SIZE {
        return FAULT;
    }
    bytes[..allocator::SIZE].fill(0);
    0
}

pub fn allocate(bytes: &mut [u8], request: &Request, out: &mut [u8]) -> u64 {
    let Some(mut state) = Allocator::read(bytes) else {
        return u64::from(FAULT);
    };
    let answer = state.allocate(request, out.len());
    state.write(bytes);
    let length = match &answer {
        allocator::Answer::Reply(reply) => {
            out[..reply.len()].copy_from_slice(reply);
            reply.len()
        }
        _ => 0,
    };
    u64::from(answer.number()) | (length as u64) << 8
}

/// The word of a capture or of a log that was written.
pub fn written(answer: Written) -> u64 {
    match answer {
        Ok(length) => (length as u64) << 8,
        Err(refusal) => u64::from(refusal.number()),
    }
}
