//! Wrong variants of the two calls: each must be caught, or the comparison shows nothing.

use crate::sides::{Call, Side, REFERENCE};
use reference::captures::*;
use reference::crc::crc16;
use reference::entry::written;
use reference::logs::Line;

type Wrong = fn(&[u8], &mut [u8]) -> Written;

pub fn all() -> Vec<(&'static str, Side)> {
    let reading: [(_, Wrong); 19] = [
        ("distance-not-checked", |c, out| {
            trailed(c, out, distance_not_checked)
        }),
        ("distance-low-half", |c, out| {
            trailed(c, out, distance_low_half)
        }),
        ("distance-in-32-bits", |c, out| {
            trailed(c, out, distance_in_32_bits)
        }),
        ("distance-beyond-is-cut", |c, out| {
            trailed(c, out, distance_beyond_is_cut)
        }),
        ("count-low-half", |c, out| trailed(c, out, count_low_half)),
        ("checksum-not-checked", |c, out| {
            trailed(c, out, checksum_not_checked)
        }),
        ("checksum-over-preface", |c, out| {
            trailed(c, out, checksum_over_preface)
        }),
        ("checksum-high-byte-first", |c, out| {
            trailed(c, out, checksum_high_byte_first)
        }),
        ("mark-not-checked", |c, out| {
            trailed(c, out, mark_not_checked)
        }),
        ("line-feed-after-trailer", |c, out| {
            trailed(c, out, line_feed_after)
        }),
        ("preface-refused", |c, out| trailed(c, out, preface_refused)),
        ("no-records-refused", |c, out| {
            trailed(c, out, no_records_refused)
        }),
        ("ten-digits-accepted", |c, out| {
            carried(c, out, ten_digits_accepted)
        }),
        ("microseconds-cut", |c, out| {
            carried(c, out, microseconds_cut)
        }),
        ("unused-byte-accepted", |c, out| {
            carried(c, out, unused_byte_accepted)
        }),
        ("nine-bytes-cut", |c, out| carried(c, out, nine_bytes_cut)),
        ("high-id-refused", |c, out| carried(c, out, high_id_refused)),
        ("no-data-refused", |c, out| carried(c, out, no_data_refused)),
        ("23-before-22", records_before_checksum),
    ];
    let writing: [(_, Wrong); 6] = [
        ("unclosed-line-accepted", unclosed_line_accepted),
        ("last-line-not-looked-at", last_line_not_looked_at),
        ("empty-log-refused", empty_log_refused),
        ("checksum-from-0", checksum_from_0),
        ("8-before-18", room_before_lines),
        ("refusal-writes", refusal_writes),
    ];
    let reading_words: [(_, fn(&[u8], &mut [u8]) -> u64); 3] = [
        ("8-before-23", |c, out| written(room_before_records(c, out))),
        ("8-writes-what-fits", |c, out| {
            written(writes_what_fits(c, out))
        }),
        ("length-of-10-bits", |c, out| {
            written(uncapture(c, out)) & 0x3_FFFF
        }),
    ];
    let reading = reading.map(|(name, call)| (name, Call::Reference(call)));
    let reading_words = reading_words.map(|(name, call)| (name, Call::Word(call)));
    let back = reading
        .into_iter()
        .chain(reading_words)
        .map(|(name, uncapture)| {
            let side = Side {
                uncapture,
                ..REFERENCE
            };
            (name, side)
        });
    let there = writing.into_iter().map(|(name, call)| {
        let capture = Call::Reference(call);
        (
            name,
            Side {
                capture,
                ..REFERENCE
            },
        )
    });
    back.chain(there).collect()
}

/// A capture to a log, with another way to find its records.
fn trailed(capture: &[u8], out: &mut [u8], find: fn(&[u8]) -> Option<&[u8]>) -> Written {
    let records = find(capture).ok_or(Refusal::WrongTrailer)?;
    let lines = read_records(records).ok_or(Refusal::NotCarried)?;
    store(&write_log(&lines), out)
}

/// The last so many bytes in front of the trailer, if the mark and the rest are right.
fn found(capture: &[u8], distance: u64, right: bool) -> Option<&[u8]> {
    let (before, trailer) = capture.split_last_chunk::<TRAILER>()?;
    let start = (before.len() as u64).checked_sub(distance)?;
    let records = &before[start as usize..];
    let fields = Fields::read(trailer);
    (right && fields.mark == *b"CT" && crc16(records) == fields.checksum).then_some(records)
}

fn fields(capture: &[u8]) -> Option<Fields> {
    Some(Fields::read(capture.last_chunk::<TRAILER>()?))
}

fn distance_of(count: u32) -> u64 {
    21 * u64::from(count)
}

fn distance_not_checked(capture: &[u8]) -> Option<&[u8]> {
    found(capture, distance_of(fields(capture)?.count), true)
}

fn distance_low_half(capture: &[u8]) -> Option<&[u8]> {
    let fields = fields(capture)?;
    let size = distance_of(fields.count);
    found(capture, size, fields.distance as u32 == size as u32)
}

fn distance_in_32_bits(capture: &[u8]) -> Option<&[u8]> {
    let fields = fields(capture)?;
    let size = fields.count.wrapping_mul(21);
    found(capture, size.into(), fields.distance == u64::from(size))
}

fn distance_beyond_is_cut(capture: &[u8]) -> Option<&[u8]> {
    let fields = fields(capture)?;
    let right = fields.distance == distance_of(fields.count);
    let most = capture.len() as u64 - TRAILER as u64;
    found(capture, fields.distance.min(most), right)
}

fn count_low_half(capture: &[u8]) -> Option<&[u8]> {
    let fields = fields(capture)?;
    let size = distance_of(fields.count & 0xFFFF);
    found(capture, size, fields.distance == size)
}

/// Makes the trailer say what it does not, and finds the records of that.
fn repaired(capture: &[u8], trailer: [u8; TRAILER]) -> Option<&[u8]> {
    let before = &capture[..capture.len() - TRAILER];
    let whole = [before, &trailer].concat();
    let length = find_records(&whole)?.len();
    Some(&before[before.len() - length..])
}

fn checksum_not_checked(capture: &[u8]) -> Option<&[u8]> {
    let fields = fields(capture)?;
    let right = fields.distance == distance_of(fields.count) && fields.mark == *b"CT";
    let before = capture.len() as u64 - TRAILER as u64;
    let start = before.checked_sub(fields.distance)?;
    right.then(|| &capture[start as usize..before as usize])
}

fn checksum_over_preface(capture: &[u8]) -> Option<&[u8]> {
    let fields = fields(capture)?;
    let records = checksum_not_checked(capture)?;
    let before = &capture[..capture.len() - TRAILER];
    (crc16(before) == fields.checksum).then_some(records)
}

fn checksum_high_byte_first(capture: &[u8]) -> Option<&[u8]> {
    let mut trailer = *capture.last_chunk::<TRAILER>()?;
    trailer.swap(12, 13);
    repaired(capture, trailer)
}

fn mark_not_checked(capture: &[u8]) -> Option<&[u8]> {
    let mut trailer = *capture.last_chunk::<TRAILER>()?;
    trailer[14..].copy_from_slice(b"CT");
    repaired(capture, trailer)
}

fn line_feed_after(capture: &[u8]) -> Option<&[u8]> {
    find_records(capture.strip_suffix(b"\n").unwrap_or(capture))
}

fn preface_refused(capture: &[u8]) -> Option<&[u8]> {
    find_records(capture).filter(|records| records.len() + TRAILER == capture.len())
}

fn no_records_refused(capture: &[u8]) -> Option<&[u8]> {
    find_records(capture).filter(|records| !records.is_empty())
}

/// A capture to a log, with another test of its records.
fn carried(capture: &[u8], out: &mut [u8], read: fn(&[u8]) -> Option<Line>) -> Written {
    let records = find_records(capture).ok_or(Refusal::WrongTrailer)?;
    let lines: Option<Vec<Line>> = records.chunks_exact(RECORD).map(read).collect();
    store(&write_log(&lines.ok_or(Refusal::NotCarried)?), out)
}

/// The frame of a record, if it can be carried once it is changed so.
fn adapted(record: &[u8], change: fn(&mut [u8])) -> Option<Line> {
    let mut other = record.to_vec();
    change(&mut other);
    is_carried(&other).then(|| read_record(&other))
}

fn ten_digits_accepted(record: &[u8]) -> Option<Line> {
    let line = adapted(record, |record| record[..8].fill(0))?;
    let time = time(record);
    (time % 1000 == 0 && time < 10u64.pow(16)).then_some(Line { time, ..line })
}

fn microseconds_cut(record: &[u8]) -> Option<Line> {
    adapted(record, |record| {
        let whole = time(record) / 1000 * 1000;
        record[..8].copy_from_slice(&whole.to_le_bytes());
    })
}

fn unused_byte_accepted(record: &[u8]) -> Option<Line> {
    adapted(record, |record| {
        let end = 13 + usize::from(record[12]).min(8);
        record[end..].fill(0);
    })
}

fn nine_bytes_cut(record: &[u8]) -> Option<Line> {
    adapted(record, |record| record[12] = record[12].min(8))
}

fn high_id_refused(record: &[u8]) -> Option<Line> {
    adapted(record, |_| ()).filter(|line| line.id < 1 << 29)
}

fn no_data_refused(record: &[u8]) -> Option<Line> {
    adapted(record, |_| ()).filter(|line| !line.data.is_empty())
}

fn records_before_checksum(capture: &[u8], out: &mut [u8]) -> Written {
    if let Some(records) = checksum_not_checked(capture) {
        read_records(records).ok_or(Refusal::NotCarried)?;
    }
    uncapture(capture, out)
}

fn room_before_records(capture: &[u8], out: &mut [u8]) -> Written {
    let records = find_records(capture).ok_or(Refusal::WrongTrailer)?;
    let lines: Vec<Line> = records.chunks_exact(RECORD).map(read_record).collect();
    let log = write_log(&lines);
    if out.len() < log.len() {
        return Err(Refusal::OutputSmall);
    }
    uncapture(capture, out)
}

fn writes_what_fits(capture: &[u8], out: &mut [u8]) -> Written {
    let records = find_records(capture).ok_or(Refusal::WrongTrailer)?;
    let log = write_log(&read_records(records).ok_or(Refusal::NotCarried)?);
    let fits = log.len().min(out.len());
    out[..fits].copy_from_slice(&log[..fits]);
    store(&log, out)
}

fn unclosed_line_accepted(log: &[u8], out: &mut [u8]) -> Written {
    match log.last() {
        None | Some(b'\n') => capture(log, out),
        _ => capture(&[log, b"\n"].concat(), out),
    }
}

fn last_line_not_looked_at(log: &[u8], out: &mut [u8]) -> Written {
    let lines: Vec<&[u8]> = log.split_inclusive(|&byte| byte == b'\n').collect();
    match lines.split_last() {
        Some((_, first)) if read_log(log).is_none() => capture(&first.concat(), out),
        _ => capture(log, out),
    }
}

fn empty_log_refused(log: &[u8], out: &mut [u8]) -> Written {
    match log {
        [] => Err(Refusal::NotWellFormed),
        _ => capture(log, out),
    }
}

/// The checksum that begins with 0: an initial 0xFFFF is the same as 0xFFFF added to the first bytes.
fn checksum_from_0(log: &[u8], out: &mut [u8]) -> Written {
    let length = capture(log, out)?;
    let mut records = out[..length - TRAILER].to_vec();
    records.iter_mut().take(2).for_each(|byte| *byte = !*byte);
    let sum = if records.is_empty() {
        0
    } else {
        crc16(&records)
    };
    out[length - 4..length - 2].copy_from_slice(&sum.to_le_bytes());
    Ok(length)
}

fn room_before_lines(log: &[u8], out: &mut [u8]) -> Written {
    let count = log.iter().filter(|&&byte| byte == b'\n').count();
    if out.len() < RECORD * count + TRAILER {
        return Err(Refusal::OutputSmall);
    }
    capture(log, out)
}

fn refusal_writes(log: &[u8], out: &mut [u8]) -> Written {
    let first = log.split_inclusive(|&byte| byte == b'\n').next();
    if let Some(lines) = first.and_then(read_log) {
        let record = write_records(&lines);
        if out.len() > TRAILER + record.len() {
            out[..record.len()].copy_from_slice(&record);
        }
    }
    capture(log, out)
}
