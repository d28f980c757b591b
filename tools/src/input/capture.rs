//! Captures (RULES 18): told by their trailer, judged whole, and then read record by record.

use super::progress::Progress;
use super::Sink;
use crate::failure::Failure;
use crate::frame::Frame;
use crate::interrupt;
use crate::library::header::{STAMPED_SIZE, TRAILER_SIZE};
use crate::library::{sentence, NOT_CARRIED, NO_CAPTURE};
use std::fs::File;
use std::io::{self, Read, Seek, SeekFrom};

const BLOCK: usize = 3000 * STAMPED_SIZE;
/// Times from here on have more than nine digits of seconds.
const NO_TIME: u64 = 1_000_000_000_000_000;

pub struct Trailer {
    /// Where the first record is.
    at: u64,
    count: u64,
    checksum: u16,
}

/// The trailer, if the file is taken for a capture (RULES 18.7): its mark, and a distance that goes with the count and the length. Afterwards
/// the file is where it was.
pub fn trailer(file: &mut File) -> Result<Option<Trailer>, Failure> {
    let here = file.stream_position().map_err(|_| Failure::reading())?;
    let trailer = read_trailer(file);
    file.seek(SeekFrom::Start(here))
        .map_err(|_| Failure::reading())?;
    trailer.map_err(|_| Failure::reading())
}

fn read_trailer(file: &mut (impl Read + Seek)) -> io::Result<Option<Trailer>> {
    let length = file.seek(SeekFrom::End(0))?;
    let Some(before) = length.checked_sub(TRAILER_SIZE as u64) else {
        return Ok(None);
    };
    file.seek(SeekFrom::Start(before))?;
    let mut bytes = [0; TRAILER_SIZE];
    file.read_exact(&mut bytes)?;
    let number = |from: usize, to: usize| {
        bytes[from..to]
            .iter()
            .rev()
            .fold(0, |number, byte| number << 8 | u64::from(*byte))
    };
    let (distance, count) = (number(0, 8), number(8, 12));
    let right =
        &bytes[14..] == b"CT" && distance == STAMPED_SIZE as u64 * count && distance <= before;
    Ok(right.then(|| Trailer {
        at: before - distance,
        count,
        checksum: number(12, 14) as u16,
    }))
}

/// Nothing is handed over of a capture that 22 or 23 refuses.
pub fn run(file: &mut File, trailer: &Trailer, sink: &mut dyn Sink) -> Result<(), Failure> {
    judge(file, trailer)?;
    let mut progress = Progress::new(Some(trailer.count * STAMPED_SIZE as u64));
    each_block(file, trailer, |_, records| {
        progress.add(records.len());
        records
            .chunks(STAMPED_SIZE)
            .try_for_each(|record| sink.frame(&Frame::of_record(record)))
    })?;
    progress.end();
    Ok(())
}

/// 22, then 23 with the record, counted from 1.
fn judge(file: &mut (impl Read + Seek), trailer: &Trailer) -> Result<(), Failure> {
    let (mut checksum, mut refused) = (0xFFFF, None);
    each_block(file, trailer, |first, records| {
        checksum = records
            .iter()
            .fold(checksum, |register, byte| step(register, *byte));
        let wrong = records
            .chunks(STAMPED_SIZE)
            .position(|record| !is_carried(record));
        refused = refused.or(wrong.map(|place| first + place as u64 + 1));
        Ok(())
    })?;
    if interrupt::came() {
        return Ok(());
    }
    if checksum != trailer.checksum {
        return Err(Failure::Refused(format!(
            "{NO_CAPTURE} {}",
            sentence(NO_CAPTURE)
        )));
    }
    refused.map_or(Ok(()), |record| {
        Err(Failure::Refused(format!(
            "{NOT_CARRIED} {record} {}",
            sentence(NOT_CARRIED)
        )))
    })
}

/// Each block of whole records, with the number of records before it; none after Ctrl-C.
fn each_block(
    file: &mut (impl Read + Seek),
    trailer: &Trailer,
    mut take: impl FnMut(u64, &[u8]) -> Result<(), Failure>,
) -> Result<(), Failure> {
    file.seek(SeekFrom::Start(trailer.at))
        .map_err(|_| Failure::reading())?;
    let mut block = vec![0; BLOCK];
    let (mut first, all) = (0, trailer.count);
    while first < all && !interrupt::came() {
        let count = (all - first).min((BLOCK / STAMPED_SIZE) as u64);
        let records = &mut block[..count as usize * STAMPED_SIZE];
        file.read_exact(records).map_err(|_| Failure::reading())?;
        take(first, records)?;
        first += count;
    }
    Ok(())
}

/// Whether a line of a log can carry the record (RULES 18.4).
fn is_carried(record: &[u8]) -> bool {
    let frame = Frame::of_record(record);
    let rest = frame.bytes.get(usize::from(record[12])..);
    let unused = rest.is_some_and(|rest| rest.iter().all(|byte| *byte == 0));
    unused && frame.time % 1000 == 0 && frame.time < NO_TIME
}

/// CRC-16-CCITT-FALSE (RULES 6.1).
fn step(register: u16, byte: u8) -> u16 {
    register << 8 ^ TABLE[usize::from((register >> 8) as u8 ^ byte)]
}

const TABLE: [u16; 256] = {
    let mut table = [0; 256];
    let mut byte = 0;
    while byte < 256 {
        let (mut register, mut bit) = ((byte as u16) << 8, 0);
        while bit < 8 {
            let top = register & 0x8000 != 0;
            register = register << 1 ^ if top { 0x1021 } else { 0 };
            bit += 1;
        }
        table[byte] = register;
        byte += 1;
    }
    table
};

#[cfg(test)]
mod tests {
    use super::*;
    use crate::library::verdict_on_capture;
    use crate::test::Random;
    use std::io::Cursor;

    /// What this module says of a file: no capture at all, or 22, 23 or 0.
    fn verdict(bytes: &[u8]) -> u32 {
        let mut file = Cursor::new(bytes);
        let Some(trailer) = read_trailer(&mut file).unwrap() else {
            return NO_CAPTURE;
        };
        match judge(&mut file, &trailer) {
            Ok(()) => 0,
            Err(Failure::Refused(text)) => text.split(' ').next().unwrap().parse().unwrap(),
            Err(other) => panic!("{other:?}"),
        }
    }

    fn sealed(records: &[u8]) -> Vec<u8> {
        let checksum = records
            .iter()
            .fold(0xFFFF, |register, byte| step(register, *byte));
        let count = (records.len() / STAMPED_SIZE) as u32;
        [
            records,
            (records.len() as u64).to_le_bytes().as_slice(),
            count.to_le_bytes().as_slice(),
            checksum.to_le_bytes().as_slice(),
            b"CT",
        ]
        .concat()
    }

    fn record(random: &mut Random) -> Vec<u8> {
        let length = random.below(9) as usize;
        let mut bytes = [0; 8];
        bytes[..length].fill_with(|| random.next() as u8);
        let time = random.below(1_000_000_000_000) * 1000;
        [
            time.to_le_bytes().as_slice(),
            (random.next() as u32).to_le_bytes().as_slice(),
            &[length as u8],
            &bytes,
        ]
        .concat()
    }

    /// The proved call and this module say the same of whole and of damaged captures.
    #[test]
    fn as_the_library_says() {
        let mut random = Random(1);
        let mut seen = std::collections::BTreeMap::new();
        for _ in 0..20_000 {
            let count = random.below(6);
            let mut records: Vec<u8> = (0..count).flat_map(|_| record(&mut random)).collect();
            // damage before the seal shows in a record, damage after it in the checksum
            if random.below(3) == 0 && !records.is_empty() {
                let place = random.below(records.len() as u64) as usize;
                records[place] ^= 1 << random.below(8);
            }
            let mut capture = sealed(&records);
            match random.below(6) {
                0 => capture.insert(0, random.next() as u8),
                1 => {
                    let place = random.below(capture.len() as u64) as usize;
                    capture[place] ^= 1 << random.below(8);
                }
                2 => capture.truncate(random.below(capture.len() as u64) as usize),
                3 => capture.push(random.next() as u8),
                _ => (),
            }
            let said = verdict_on_capture(&capture);
            assert_eq!(verdict(&capture), said, "{capture:02X?}");
            *seen.entry(said).or_insert(0) += 1;
        }
        for answer in [0, NO_CAPTURE, NOT_CARRIED] {
            assert!(
                seen.get(&answer).is_some_and(|times| *times > 500),
                "{seen:?}"
            );
        }
    }

    /// More records than a block has, and the record that is told.
    #[test]
    fn blocks() {
        let mut random = Random(2);
        let mut records: Vec<u8> = (0..7000).flat_map(|_| record(&mut random)).collect();
        assert_eq!(verdict(&sealed(&records)), 0);
        records[6500 * STAMPED_SIZE] = 1;
        let capture = sealed(&records);
        let mut file = Cursor::new(&capture);
        let trailer = read_trailer(&mut file).unwrap().unwrap();
        match judge(&mut file, &trailer) {
            Err(Failure::Refused(text)) => assert!(text.starts_with("23 6501 "), "{text}"),
            other => panic!("{other:?}"),
        }
    }
}
