//! Batches at random: the traffic of the comparison of single calls, as records.

use crate::random::Random;
use crate::traffic::{Call, Traffic};
use reference::batch::RECORD;
use reference::frame::{Stream, Tail};
use reference::receive::{Frame, Receiver, LONGEST_PAYLOAD};

pub const MOST: usize = 100;
/// Room for a whole batch of the longest payloads that can end in it.
pub const MOST_ROOM: usize = 4096;

/// So many records, their lengths damaged now and then, and perhaps a part of one more.
pub fn records(random: &mut Random, receiver: &Receiver, clock: u64) -> Vec<u8> {
    let mut shadow = receiver.clone();
    let mut traffic = match random.below(3) {
        0 => Traffic::pressed(random, receiver, clock),
        _ => Traffic::new(random, receiver, clock),
    };
    let singles = random.once_in(3);
    let mut bytes = Vec::new();
    for _ in 0..length(random) {
        let mut call = traffic.next(random, &shadow);
        if singles && random.coin() {
            make_single(random, &shadow, &mut call);
        }
        let frame = Frame {
            id: call.id,
            data: &call.data,
            interface: call.interface,
            time: call.time,
        };
        shadow.receive(&frame, LONGEST_PAYLOAD);
        push(random, &mut bytes, &call);
    }
    let rest = random.index(RECORD);
    if random.coin() {
        bytes.extend(random.bytes(rest));
    }
    bytes
}

fn length(random: &mut Random) -> usize {
    match random.below(8) {
        0 => 0,
        1 => 1,
        2 => random.index(4),
        3 => MOST,
        _ => random.index(MOST + 1),
    }
}

/// A transfer of a single frame, which is handed out where it is subscribed and new.
fn make_single(random: &mut Random, receiver: &Receiver, call: &mut Call) {
    let messages: Vec<_> = receiver
        .subscriptions
        .iter()
        .filter(|one| !one.service)
        .collect();
    if messages.is_empty() {
        return;
    }
    let one = messages[random.index(messages.len())];
    let source = random.between(1, 127) as u32;
    call.id = 16 << 24 | u32::from(one.type_id) << 8 | source;
    let expected = receiver
        .place_of(&Stream::of_id(call.id))
        .and_then(|place| receiver.places[place].as_ref())
        .map_or(random.below(32) as u8, |session| session.expected_id);
    let tail = Tail {
        start: true,
        end: true,
        toggle: false,
        transfer_id: expected,
    };
    let length = random.pick(&[0, 0, 1, 7, 7, 7]);
    call.data = random.bytes(length);
    call.data.push(tail.byte());
}

fn push(random: &mut Random, bytes: &mut Vec<u8>, call: &Call) {
    let mut record = random.bytes(RECORD);
    record[..8].copy_from_slice(&call.time.to_le_bytes());
    record[8..12].copy_from_slice(&call.id.to_le_bytes());
    record[12] = call.interface.min(255) as u8;
    record[13] = match random.below(64) {
        0 => random.byte(),
        1 => random.between(9, 12) as u8,
        _ => call.data.len() as u8,
    };
    let data = &call.data[..call.data.len().min(8)];
    record[14..14 + data.len()].copy_from_slice(data);
    bytes.extend(record);
}
