// The programs `capture` and `uncapture` written by hand for speed, to time the proved ones against: from standard input to standard
// output, with fixed memory and the same refusals. `baseline capture|uncapture [large]`; the checksum goes by a table of 16 entries, as the
// proved one does, or by one of 256.
#[path = "../log/line.rs"]
#[allow(dead_code)]
mod line;

use std::fs::File;
use std::io::{stdin, stdout, Read, Seek, SeekFrom, Write};
use std::mem::ManuallyDrop;
use std::os::fd::FromRawFd;

const RECORD: usize = 21;
const TRAILER: usize = 16;
const BLOCK: usize = 32768;
const RECORDS: usize = 1024;
const HEX: &[u8; 16] = b"0123456789ABCDEF";

const fn table<const N: usize>(bits: u32) -> [u16; N] {
    let mut table = [0; N];
    let mut i = 0;
    while i < N {
        let mut crc = (i as u16) << (16 - bits);
        let mut bit = 0;
        while bit < bits {
            crc = if crc & 0x8000 != 0 { crc << 1 ^ 0x1021 } else { crc << 1 };
            bit += 1;
        }
        table[i] = crc;
        i += 1;
    }
    table
}

static SMALL: [u16; 16] = table(4);
static LARGE: [u16; 256] = table(8);

fn crc16_small(start: u16, bytes: &[u8]) -> u16 {
    bytes.iter().fold(start, |crc, &byte| {
        let crc = crc << 4 ^ SMALL[(crc >> 12 ^ byte as u16 >> 4) as usize];
        crc << 4 ^ SMALL[(crc >> 12 ^ byte as u16 & 15) as usize]
    })
}

fn crc16_large(start: u16, bytes: &[u8]) -> u16 {
    bytes.iter().fold(start, |crc, &byte| crc << 8 ^ LARGE[(crc >> 8) as usize ^ byte as usize])
}

fn refuse(text: String) -> ! {
    eprintln!("{text}");
    std::process::exit(1)
}

fn capture(crc16: fn(u16, &[u8]) -> u16) {
    let (mut input, mut output) = (stdin().lock(), stdout().lock());
    let mut block = vec![0; BLOCK];
    let mut out = Vec::with_capacity(RECORD * BLOCK / 15);
    let (mut kept, mut count, mut sum) = (0, 0u64, 0xFFFF);
    loop {
        let got = input.read(&mut block[kept..]).unwrap();
        if got == 0 {
            break;
        }
        let (n, mut from) = (kept + got, 0);
        while let Some(length) = block[from..n].iter().position(|&c| c == b'\n') {
            count += 1;
            let Some(l) = line::parse(&block[from..from + length + 1]) else {
                refuse(format!("18: line {count}"));
            };
            out.extend_from_slice(&l.time.to_le_bytes());
            out.extend_from_slice(&l.id.to_le_bytes());
            out.push(l.len as u8);
            out.extend_from_slice(&l.bytes);
            from += length + 1;
        }
        sum = crc16(sum, &out);
        output.write_all(&out).unwrap();
        out.clear();
        block.copy_within(from..n, 0);
        kept = n - from;
    }
    if kept > 0 {
        refuse(format!("18: line {}", count + 1));
    }
    if count >> 32 > 0 {
        refuse("9".to_string());
    }
    out.extend_from_slice(&(count * RECORD as u64).to_le_bytes());
    out.extend_from_slice(&(count as u32).to_le_bytes());
    out.extend_from_slice(&sum.to_le_bytes());
    out.extend_from_slice(b"CT");
    output.write_all(&out).unwrap();
}

fn number(bytes: &[u8]) -> u64 {
    bytes.iter().rev().fold(0, |value, &byte| value << 8 | byte as u64)
}

/// The line of a record; false if there is none.
fn print(record: &[u8], out: &mut Vec<u8>) -> bool {
    let (time, len) = (number(&record[..8]), record[12] as usize);
    if len > 8 || record[13 + len..].iter().any(|&c| c != 0) || time % 1000 != 0 || time >= 1_000_000_000_000_000 {
        return false;
    }
    let (mut seconds, thousandths) = (time / 1_000_000, time / 1000 % 1000);
    let mut text = [0; 9];
    let mut at = 9;
    loop {
        at -= 1;
        text[at] = b'0' + (seconds % 10) as u8;
        seconds /= 10;
        if seconds == 0 {
            break;
        }
    }
    out.extend_from_slice(&text[at..]);
    let digit = |value: u64| b'0' + (value % 10) as u8;
    out.extend_from_slice(&[b'.', digit(thousandths / 100), digit(thousandths / 10), digit(thousandths), b' ']);
    for &byte in record[8..12].iter().rev() {
        out.extend_from_slice(&[HEX[(byte >> 4) as usize], HEX[(byte & 15) as usize]]);
    }
    for &byte in &record[13..13 + len] {
        out.extend_from_slice(&[b' ', HEX[(byte >> 4) as usize], HEX[(byte & 15) as usize]]);
    }
    out.push(b'\n');
    true
}

fn uncapture(crc16: fn(u16, &[u8]) -> u16) {
    let mut output = stdout().lock();
    let mut file = ManuallyDrop::new(unsafe { File::from_raw_fd(0) });
    let Ok(end) = file.seek(SeekFrom::End(-(TRAILER as i64))) else {
        refuse("22".to_string());
    };
    let mut trailer = [0; TRAILER];
    file.read_exact(&mut trailer).unwrap();
    let (distance, mut left) = (number(&trailer[..8]), number(&trailer[8..12]) as usize);
    if trailer[14..] != *b"CT" || distance != (left * RECORD) as u64 || distance > end {
        refuse("22".to_string());
    }
    file.seek(SeekFrom::Start(end - distance)).unwrap();
    let mut block = vec![0; RECORD * RECORDS];
    let mut out = Vec::with_capacity(47 * RECORDS);
    let (mut done, mut bad, mut sum) = (0, None, 0xFFFF);
    while left > 0 {
        let part = &mut block[..RECORD * left.min(RECORDS)];
        file.read_exact(part).unwrap();
        sum = crc16(sum, part);
        for record in part.chunks_exact(RECORD) {
            done += 1;
            if bad.is_none() && !print(record, &mut out) {
                bad = Some(done);
            }
        }
        output.write_all(&out).unwrap();
        out.clear();
        left -= left.min(RECORDS);
    }
    if sum as u64 != number(&trailer[12..14]) {
        refuse("22".to_string());
    }
    if let Some(record) = bad {
        refuse(format!("23: record {record}"));
    }
}

fn main() {
    let words: Vec<String> = std::env::args().collect();
    let crc16 = if words.len() > 2 { crc16_large } else { crc16_small };
    match words.get(1).map(String::as_str) {
        Some("capture") => capture(crc16),
        _ => uncapture(crc16),
    }
}
