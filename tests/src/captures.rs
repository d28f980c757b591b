//! Captures (RULES 18): logs in binary, both ways. Each step of the two calls is a function of its
//! own, so that wrong variants can replace one.

use crate::crc::crc16;
use crate::logs::Line;

/// Bytes of a record: a time, and a frame record.
pub const RECORD: usize = 21;
pub const TRAILER: usize = 16;
const MARK: [u8; 2] = *b"CT";
/// The first time, in microseconds, whose seconds have ten digits.
const TIME_END: u64 = 1_000_000_000_000_000;

/// Why a call refuses.
#[derive(Clone, Copy, Debug, PartialEq)]
pub enum Refusal {
    OutputSmall,
    TooManyLines,
    NotWellFormed,
    WrongTrailer,
    NotCarried,
}

impl Refusal {
    pub fn number(self) -> u32 {
        match self {
            Refusal::OutputSmall => 8,
            Refusal::TooManyLines => 9,
            Refusal::NotWellFormed => 18,
            Refusal::WrongTrailer => 22,
            Refusal::NotCarried => 23,
        }
    }
}

/// What a call gives: the length of what it wrote to the front of the output buffer.
pub type Written = Result<usize, Refusal>;

/// A log to a capture (RULES 18.3).
pub fn capture(log: &[u8], out: &mut [u8]) -> Written {
    let lines = read_log(log).ok_or(Refusal::NotWellFormed)?;
    let count = u32::try_from(lines.len()).map_err(|_| Refusal::TooManyLines)?;
    let records = write_records(&lines);
    let trailer = trailer(count, crc16(&records));
    store(&[records.as_slice(), &trailer].concat(), out)
}

/// A capture to a log (RULES 18.4).
pub fn uncapture(capture: &[u8], out: &mut [u8]) -> Written {
    let records = find_records(capture).ok_or(Refusal::WrongTrailer)?;
    let lines = read_records(records).ok_or(Refusal::NotCarried)?;
    store(&write_log(&lines), out)
}

/// Puts the bytes at the front of the buffer, if there is room.
pub fn store(bytes: &[u8], out: &mut [u8]) -> Written {
    let front = out.get_mut(..bytes.len()).ok_or(Refusal::OutputSmall)?;
    front.copy_from_slice(bytes);
    Ok(bytes.len())
}

/// The lines of a log; none if one of them is not well formed.
pub fn read_log(log: &[u8]) -> Option<Vec<Line>> {
    log.split_inclusive(|&byte| byte == b'\n')
        .map(|line| Some(Line::parse(line.strip_suffix(b"\n")?)?.1))
        .collect()
}

pub fn write_log(lines: &[Line]) -> Vec<u8> {
    lines.iter().flat_map(|line| line.text()).collect()
}

pub fn write_records(lines: &[Line]) -> Vec<u8> {
    lines.iter().flat_map(write_record).collect()
}

pub fn write_record(line: &Line) -> [u8; RECORD] {
    let mut record = [0; RECORD];
    record[..8].copy_from_slice(&line.time.to_le_bytes());
    record[8..12].copy_from_slice(&line.id.to_le_bytes());
    record[12] = line.data.len() as u8;
    record[13..13 + line.data.len()].copy_from_slice(&line.data);
    record
}

pub fn trailer(count: u32, checksum: u16) -> [u8; TRAILER] {
    let mut trailer = [0; TRAILER];
    trailer[..8].copy_from_slice(&(RECORD as u64 * u64::from(count)).to_le_bytes());
    trailer[8..12].copy_from_slice(&count.to_le_bytes());
    trailer[12..14].copy_from_slice(&checksum.to_le_bytes());
    trailer[14..].copy_from_slice(&MARK);
    trailer
}

/// The records of a capture; none if its trailer is wrong (RULES 18.2).
pub fn find_records(capture: &[u8]) -> Option<&[u8]> {
    let (before, trailer) = capture.split_last_chunk::<TRAILER>()?;
    let fields = Fields::read(trailer);
    if fields.mark != MARK
        || u128::from(fields.distance) != RECORD as u128 * u128::from(fields.count)
    {
        return None;
    }
    let start = (before.len() as u64).checked_sub(fields.distance)?;
    let records = &before[start as usize..];
    (crc16(records) == fields.checksum).then_some(records)
}

/// What a trailer says.
pub struct Fields {
    pub distance: u64,
    pub count: u32,
    pub checksum: u16,
    pub mark: [u8; 2],
}

impl Fields {
    pub fn read(trailer: &[u8; TRAILER]) -> Fields {
        let number = |from: usize, to: usize| {
            let bytes = trailer[from..to].iter().rev();
            bytes.fold(0, |value, &byte| value << 8 | u64::from(byte))
        };
        Fields {
            distance: number(0, 8),
            count: number(8, 12) as u32,
            checksum: number(12, 14) as u16,
            mark: [trailer[14], trailer[15]],
        }
    }
}

/// The frames of records as lines; none if no line can carry one of them.
pub fn read_records(records: &[u8]) -> Option<Vec<Line>> {
    records
        .chunks_exact(RECORD)
        .map(|record| is_carried(record).then(|| read_record(record)))
        .collect()
}

/// Whether a line can carry a record.
pub fn is_carried(record: &[u8]) -> bool {
    let (time, length) = (time(record), usize::from(record[12]));
    length <= 8
        && record[13 + length..].iter().all(|&byte| byte == 0)
        && time % 1_000 == 0
        && time < TIME_END
}

pub fn time(record: &[u8]) -> u64 {
    u64::from_le_bytes(record[..8].try_into().expect("8 bytes"))
}

/// The frame of a record; nothing is checked.
pub fn read_record(record: &[u8]) -> Line {
    let length = usize::from(record[12]).min(8);
    Line {
        time: time(record),
        id: u32::from_le_bytes(record[8..12].try_into().expect("4 bytes")),
        data: record[13..13 + length].to_vec(),
    }
}
