//! Lists of subscriptions and captures as bytes, right and wrong.

use crate::random::Random;
use crate::traffic::Traffic;
use reference::captures::{trailer, RECORD, TRAILER};
use reference::crc::crc16;
use reference::entry::SUBSCRIPTION;
use reference::judge::{list, Frame};
use reference::receive::Subscription;

pub fn list(subscriptions: &[Subscription]) -> Vec<u8> {
    let records = subscriptions
        .iter()
        .map(|one| list::record(one.service.into(), one.type_id.into(), one.signature));
    records.flatten().collect()
}

/// The capture of frames, with no preface.
pub fn capture(frames: &[Frame]) -> Vec<u8> {
    let mut bytes: Vec<u8> = frames.iter().flat_map(Frame::record).collect();
    let trailer = trailer(frames.len() as u32, crc16(&bytes));
    bytes.extend(trailer);
    bytes
}

/// Most captures have none.
pub fn preface(random: &mut Random, traffic: &Traffic) -> Vec<u8> {
    match random.below(16) {
        0 => random.bytes(RECORD),
        1 => capture(&traffic.frames),
        2 => {
            let length = random.index(100);
            random.bytes(length)
        }
        _ => Vec::new(),
    }
}

/// Makes a list one that 13 refuses.
pub type Spoil = fn(&mut Random, &mut Vec<u8>);

pub const LISTS: [(&str, Spoil); 7] = [
    ("13: bytes of no whole record", |random, list| {
        let most = SUBSCRIPTION as u64 - 1;
        match random.coin() {
            true => list.truncate(list.len() - random.between(1, most) as usize),
            false => list.extend(vec![0; random.between(1, most) as usize]),
        }
    }),
    ("13: more than 64", |random, bytes| {
        let first = random.below(60_000) as u32;
        let count = random.between(65, 70) as u32;
        let more = (first..first + count).map(|one| list::record(0, one, 0));
        *bytes = more.flatten().collect();
    }),
    ("13: a kind above 1", |random, bytes| {
        let kind = random.between(2, 255) as u8;
        one_more(random, bytes, list::record(kind, 1, 0));
    }),
    ("13: a message type above 65535", |random, bytes| {
        let type_id = 65536 << random.below(16);
        one_more(random, bytes, list::record(0, type_id, 0));
    }),
    ("13: a service type above 255", |random, bytes| {
        let type_id = 256 << random.below(24);
        one_more(random, bytes, list::record(1, type_id, 0));
    }),
    ("13: a kind and type twice", |random, bytes| {
        let record = one(random, bytes);
        one_more(random, bytes, record);
    }),
    ("13: the same, with another signature", |random, bytes| {
        let mut record = one(random, bytes);
        record[5 + random.index(8)] ^= 1 << random.below(8);
        one_more(random, bytes, record);
    }),
];

/// One of the records that stay when another is put in.
fn one(random: &mut Random, bytes: &[u8]) -> [u8; SUBSCRIPTION] {
    let (records, _) = bytes.as_chunks();
    records[random.index(records.len().min(63))]
}

/// Another record, and not more than 64 in all.
fn one_more(random: &mut Random, bytes: &mut Vec<u8>, record: [u8; SUBSCRIPTION]) {
    bytes.truncate(63 * SUBSCRIPTION);
    let at = random.index(bytes.len() / SUBSCRIPTION + 1) * SUBSCRIPTION;
    bytes.splice(at..at, record);
}

/// Makes a capture with at least one record one that 22 refuses.
pub const CAPTURES: [(&str, Spoil); 7] = [
    ("22: a byte of the trailer", |random, bytes| {
        let at = bytes.len() - 1 - random.index(TRAILER);
        bytes[at] ^= 1 << random.below(8);
    }),
    ("22: a byte of the last record", |random, bytes| {
        let at = bytes.len() - TRAILER - 1 - random.index(RECORD);
        bytes[at] ^= random.between(1, 255) as u8;
    }),
    ("22: a byte after the trailer", |random, bytes| {
        bytes.push(random.byte())
    }),
    ("22: the last byte lost", |_, bytes| {
        bytes.pop();
    }),
    ("22: fewer than 16 bytes", |random, bytes| {
        let length = random.index(TRAILER);
        bytes.drain(..bytes.len() - length);
    }),
    (
        "22: a distance and count of more than there is",
        |random, bytes| {
            let before = bytes.len() - TRAILER;
            let count = (before / RECORD + 1) as u32 + random.below(3) as u32;
            let sum = crc16(&bytes[..before]);
            bytes.truncate(before);
            bytes.extend(trailer(count, sum));
        },
    ),
    ("22: another checksum", |random, bytes| {
        let at = bytes.len() - 3 - random.index(2);
        bytes[at] ^= random.between(1, 255) as u8;
    }),
];
