//! Captures at random, whole and damaged, each with the number that it must be answered with, where
//! the way it was made tells.

use crate::random::Random;
use reference::captures::{trailer, write_log, write_record, write_records, RECORD, TRAILER};
use reference::crc::crc16;
use reference::logs::Line;

/// The inverse of 21 modulo 2^32.
const INVERSE: u32 = 0x3CF3_CF3D;

/// A capture in its parts.
pub struct Capture {
    pub preface: Vec<u8>,
    pub records: Vec<u8>,
    pub trailer: Vec<u8>,
    /// The length of its log.
    pub log: usize,
}

impl Capture {
    pub fn new(lines: &[Line]) -> Capture {
        let records = write_records(lines);
        Capture {
            preface: Vec::new(),
            trailer: trailer(lines.len() as u32, crc16(&records)).to_vec(),
            records,
            log: write_log(lines).len(),
        }
    }

    pub fn bytes(&self) -> Vec<u8> {
        [&self.preface[..], &self.records, &self.trailer].concat()
    }

    fn count(&self) -> usize {
        self.records.len() / RECORD
    }

    /// Makes the trailer right.
    fn seal(&mut self) {
        self.trailer = trailer(self.count() as u32, crc16(&self.records)).to_vec();
    }

    fn field(&mut self, from: usize, bytes: &[u8]) {
        self.trailer[from..from + bytes.len()].copy_from_slice(bytes);
    }

    /// One of the records; there is one.
    fn record(&mut self, random: &mut Random) -> &mut [u8] {
        if self.records.is_empty() {
            let line = Line {
                id: 1,
                data: vec![2, 3],
                time: 4000,
            };
            self.records.extend(write_record(&line));
            self.seal();
        }
        let at = random.index(self.count());
        &mut self.records[at * RECORD..][..RECORD]
    }
}

/// Each sort of preface.
pub const PREFACES: [(&str, fn(&mut Random) -> Vec<u8>); 4] = [
    ("no preface", |_| Vec::new()),
    ("a preface of any bytes", |random| {
        let length = random.between(1, 100) as usize;
        random.bytes(length)
    }),
    ("a preface that is a capture", |random| {
        Capture::new(&crate::logs::lines(random)).bytes()
    }),
    ("a preface of records", |random| {
        let mut lines = crate::logs::lines(random);
        lines.truncate(9);
        write_records(&lines)
    }),
];

/// Damages a capture; the number that must be answered, given the room, if it is known.
pub type Damage = fn(&mut Random, &mut Capture) -> Option<u32>;

pub const DAMAGES: [(&str, Damage); 29] = [
    ("a byte of the preface changed", preface_changed),
    ("a byte of the records changed", records_changed),
    ("a byte of the trailer changed", trailer_changed),
    ("a byte lost", byte_lost),
    ("a byte put in", byte_put_in),
    ("cut at the end", cut_at_end),
    ("cut at the front", cut_at_front),
    ("bytes appended", appended),
    ("fewer than 16 bytes", short),
    ("distance: near", distance_near),
    ("distance: high half", distance_high),
    ("count: near", count_near),
    ("count: high half", count_high),
    ("checksum changed", checksum_changed),
    ("checksum: over the preface too", checksum_of_preface),
    ("checksum: over distance and count too", checksum_of_trailer),
    ("checksum: another start", checksum_start),
    ("checksum: high byte first", checksum_swapped),
    ("mark changed", mark_changed),
    ("count and distance: more than there is", beyond),
    ("count and distance: alike in 32 bits only", wrapped),
    ("count and distance: into the preface", into_preface),
    ("count and distance: fewer records", fewer),
    ("record: over 8 data bytes", over_8),
    ("record: an unused byte not zero", unused),
    ("record: a time between milliseconds", between),
    ("record: a time of ten digits", ten_digits),
    ("record at fault, checksum wrong", fault_and_checksum),
    ("records at fault, two ways", two_faults),
];

/// A byte that is another one afterwards.
fn change(random: &mut Random, bytes: &mut [u8]) {
    let at = random.index(bytes.len());
    bytes[at] ^= match random.coin() {
        true => 1 << random.below(8),
        false => random.between(1, 255) as u8,
    };
}

fn preface_changed(random: &mut Random, capture: &mut Capture) -> Option<u32> {
    capture.preface.push(random.byte());
    change(random, &mut capture.preface);
    Some(0)
}

/// The checksum catches every burst of up to 16 bits (RULES 6.6).
fn records_changed(random: &mut Random, capture: &mut Capture) -> Option<u32> {
    capture.record(random);
    change(random, &mut capture.records);
    Some(22)
}

/// No field goes with another value of one other field.
fn trailer_changed(random: &mut Random, capture: &mut Capture) -> Option<u32> {
    change(random, &mut capture.trailer);
    Some(22)
}

/// Bytes that have no parts any more.
fn replace(capture: &mut Capture, bytes: Vec<u8>) {
    capture.preface.clear();
    capture.records.clear();
    capture.trailer = bytes;
}

fn byte_lost(random: &mut Random, capture: &mut Capture) -> Option<u32> {
    capture.record(random);
    let mut bytes = capture.bytes();
    bytes.remove(random.index(bytes.len()));
    replace(capture, bytes);
    None
}

fn byte_put_in(random: &mut Random, capture: &mut Capture) -> Option<u32> {
    let mut bytes = capture.bytes();
    bytes.insert(random.index(bytes.len() + 1), random.byte());
    replace(capture, bytes);
    None
}

fn cut_at_end(random: &mut Random, capture: &mut Capture) -> Option<u32> {
    capture.record(random);
    let mut bytes = capture.bytes();
    let most = (bytes.len() - TRAILER) as u64;
    let cut = match random.coin() {
        true => random.between(1, most),
        false => random.between(1, most.min(40)),
    };
    bytes.truncate(bytes.len() - cut as usize);
    replace(capture, bytes);
    None
}

fn cut_at_front(random: &mut Random, capture: &mut Capture) -> Option<u32> {
    capture.record(random);
    capture.preface.clear();
    let cut = random.between(1, capture.records.len() as u64) as usize;
    capture.records.drain(..cut);
    Some(22)
}

fn appended(random: &mut Random, capture: &mut Capture) -> Option<u32> {
    let mut bytes = capture.bytes();
    let length = random.between(1, 24) as usize;
    match random.below(4) {
        0 => bytes.extend(vec![0; length]),
        1 => bytes.extend(&capture.trailer[..length.min(TRAILER - 1)]),
        2 => bytes.push(b'\n'),
        _ => bytes.extend(random.bytes(length)),
    }
    replace(capture, bytes);
    None
}

fn short(random: &mut Random, capture: &mut Capture) -> Option<u32> {
    let (bytes, length) = (capture.bytes(), random.index(TRAILER));
    let part = match random.coin() {
        true => &bytes[..length],
        false => &bytes[bytes.len() - length..],
    };
    replace(capture, part.to_vec());
    Some(22)
}

fn distance_near(random: &mut Random, capture: &mut Capture) -> Option<u32> {
    let by = random.pick(&[1, 2, 20, 21, 22, 42, 1 << 8, 1 << 16]);
    let distance = capture.records.len() as u64;
    let other = match random.coin() {
        true => distance + by,
        false => distance.wrapping_sub(by),
    };
    capture.field(0, &other.to_le_bytes());
    Some(22)
}

fn distance_high(random: &mut Random, capture: &mut Capture) -> Option<u32> {
    let high = random.between(1, 0xFFFF_FFFF) as u32 >> random.below(32);
    capture.field(4, &high.max(1).to_le_bytes());
    Some(22)
}

fn count_near(random: &mut Random, capture: &mut Capture) -> Option<u32> {
    let count = capture.count() as u32;
    let other = match random.coin() {
        true => count.wrapping_add(1),
        false => count.wrapping_sub(1),
    };
    capture.field(8, &other.to_le_bytes());
    Some(22)
}

fn count_high(random: &mut Random, capture: &mut Capture) -> Option<u32> {
    let high = random.between(1, 0xFFFF) as u16 >> random.below(16);
    capture.field(10, &high.max(1).to_le_bytes());
    Some(22)
}

fn checksum_changed(random: &mut Random, capture: &mut Capture) -> Option<u32> {
    change(random, &mut capture.trailer[12..14]);
    Some(22)
}

fn checksum_of_preface(random: &mut Random, capture: &mut Capture) -> Option<u32> {
    if capture.preface.is_empty() {
        capture.preface = random.bytes(21);
    }
    let before = [&capture.preface[..], &capture.records].concat();
    capture.field(12, &crc16(&before).to_le_bytes());
    None
}

fn checksum_of_trailer(_: &mut Random, capture: &mut Capture) -> Option<u32> {
    let all = [&capture.records, &capture.trailer[..12]].concat();
    capture.field(12, &crc16(&all).to_le_bytes());
    None
}

/// As of a transfer whose signature is 0.
fn checksum_start(_: &mut Random, capture: &mut Capture) -> Option<u32> {
    let all = [&[0; 8], capture.records.as_slice()].concat();
    capture.field(12, &crc16(&all).to_le_bytes());
    None
}

fn checksum_swapped(_: &mut Random, capture: &mut Capture) -> Option<u32> {
    let sum = crc16(&capture.records);
    capture.field(12, &sum.to_be_bytes());
    (sum != sum.swap_bytes()).then_some(22)
}

fn mark_changed(random: &mut Random, capture: &mut Capture) -> Option<u32> {
    let mark = random.pick(&[
        *b"TC", *b"ct", *b"CC", *b"TT", *b"cT", *b"\0T", *b"C\0", *b"CU",
    ]);
    capture.field(14, &mark);
    Some(22)
}

fn beyond(random: &mut Random, capture: &mut Capture) -> Option<u32> {
    let before = capture.preface.len() + capture.records.len();
    let least = (before / RECORD + 1) as u64;
    let count = match random.below(3) {
        0 => least,
        1 => u64::from(u32::MAX) - random.below(3),
        _ => random.between(least, u32::MAX.into()),
    };
    let all = [&capture.preface[..], &capture.records].concat();
    capture.trailer = trailer(count as u32, crc16(&all)).to_vec();
    Some(22)
}

/// 21 times the count is more than 2^32, and the distance only its low 32 bits.
fn wrapped(random: &mut Random, capture: &mut Capture) -> Option<u32> {
    capture.record(random);
    let before = [&capture.preface[..], &capture.records].concat();
    let distance = match random.between(1, before.len() as u64) as usize {
        whole if whole % RECORD == 0 => whole - 1,
        other => other,
    };
    let sum = crc16(&before[before.len() - distance..]);
    capture.trailer = trailer((distance as u32).wrapping_mul(INVERSE), sum).to_vec();
    capture.field(0, &(distance as u64).to_le_bytes());
    Some(22)
}

/// Bytes of the preface become records.
fn into_preface(random: &mut Random, capture: &mut Capture) -> Option<u32> {
    let more = random.between(1, 3) as usize;
    if capture.preface.len() < more * RECORD {
        capture.preface = random.bytes(more * RECORD);
    }
    let start = capture.preface.len() - more * RECORD;
    let records = [&capture.preface[start..], &capture.records].concat();
    capture.trailer = trailer((records.len() / RECORD) as u32, crc16(&records)).to_vec();
    None
}

/// The first records become a preface.
fn fewer(random: &mut Random, capture: &mut Capture) -> Option<u32> {
    capture.record(random);
    let first = random.between(1, capture.count() as u64) as usize * RECORD;
    capture.preface.extend(capture.records.drain(..first));
    capture.seal();
    None
}

fn over_8(random: &mut Random, capture: &mut Capture) -> Option<u32> {
    capture.record(random)[12] = match random.coin() {
        true => 9,
        false => random.between(9, 255) as u8,
    };
    capture.seal();
    Some(23)
}

fn unused(random: &mut Random, capture: &mut Capture) -> Option<u32> {
    let record = capture.record(random);
    let length = random.index(8);
    record[12] = length as u8;
    record[13 + length..].fill(0);
    record[13 + length + random.index(8 - length)] = random.between(1, 255) as u8;
    capture.seal();
    Some(23)
}

fn between(random: &mut Random, capture: &mut Capture) -> Option<u32> {
    let record = capture.record(random);
    record[0] ^= 1 + 6 * u8::from(random.coin());
    capture.seal();
    Some(23)
}

fn ten_digits(random: &mut Random, capture: &mut Capture) -> Option<u32> {
    let seconds: u64 = 1_000_000_000;
    let milliseconds = match random.below(4) {
        0 => seconds * 1000,
        1 => u64::MAX / 1000,
        2 => random.between(seconds * 1000, seconds * 10_000),
        _ => random.between(seconds * 1000, u64::MAX / 1000),
    };
    capture.record(random)[..8].copy_from_slice(&(milliseconds * 1000).to_le_bytes());
    capture.seal();
    Some(23)
}

fn fault_and_checksum(random: &mut Random, capture: &mut Capture) -> Option<u32> {
    let fault = random.pick(&[over_8, unused, between, ten_digits]);
    fault(random, capture);
    change(random, &mut capture.trailer[12..14]);
    Some(22)
}

fn two_faults(random: &mut Random, capture: &mut Capture) -> Option<u32> {
    ten_digits(random, capture);
    let other = random.pick(&[over_8, unused]);
    other(random, capture)
}
