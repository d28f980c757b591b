//! Captures (RULES 18): the sample values, and each edge of both calls.

use reference::captures::{capture, trailer, uncapture, Refusal, Written, RECORD, TRAILER};
use reference::crc::crc16;
use reference::logs::run;

const LOG: &str = "1.000 1001552A 01 00 00 00 00 00 00 C0\n\
                   1.001 1001552A 01 00 00 00 00 00 00 C0\n\
                   2.000 1001552A 01 81\n\
                   2.500 1001562A C1\n";
const CAPTURE: &str = "40420F00000000002A550110080100000000 0000C0\
                       28460F00000000002A550110080100000000 0000C0\
                       80841E00000000002A550110020181000000 000000\
                       A0252600000000002A56011001C100000000 000000\
                       5400000000000000040000003B844354";
const NO_LINE: &str = "0000000000000000 00000000 FFFF 4354";
const LONGEST: &str = "999999999.999 FFFFFFFF 01 02 03 04 05 06 07 08\n";

fn bytes(hex: &str) -> Vec<u8> {
    let digits: Vec<u8> = hex.bytes().filter(|byte| *byte != b' ').collect();
    let byte = |pair: &[u8]| u8::from_str_radix(std::str::from_utf8(pair).unwrap(), 16).unwrap();
    digits.chunks(2).map(byte).collect()
}

/// What a call writes, with more room than it needs; bytes after it stay, and all of them if it
/// refuses.
fn written(call: fn(&[u8], &mut [u8]) -> Written, input: &[u8]) -> Result<Vec<u8>, u32> {
    let mut out = vec![0xA5; 1000];
    let result = call(input, &mut out);
    let length = result.unwrap_or(0);
    assert!(out[length..].iter().all(|&byte| byte == 0xA5));
    result
        .map(|length| out[..length].to_vec())
        .map_err(Refusal::number)
}

fn captured(log: &str) -> Result<Vec<u8>, u32> {
    written(capture, log.as_bytes())
}

fn uncaptured(capture: &[u8]) -> Result<String, u32> {
    written(uncapture, capture).map(|log| String::from_utf8(log).unwrap())
}

/// A record, and a capture of records with a right trailer.
fn record(time: u64, id: u32, length: u8, data: [u8; 8]) -> Vec<u8> {
    [&time.to_le_bytes()[..], &id.to_le_bytes(), &[length], &data].concat()
}

fn sealed(records: &[u8]) -> Vec<u8> {
    let trailer = trailer((records.len() / RECORD) as u32, crc16(records));
    [records, &trailer].concat()
}

#[test]
fn samples_of_17_8() {
    assert_eq!(captured(LOG), Ok(bytes(CAPTURE)));
    assert_eq!(uncaptured(&bytes(CAPTURE)), Ok(LOG.to_string()));
    assert_eq!(captured(""), Ok(bytes(NO_LINE)));
    let least =
        "0000000000000000 01 01 00 1E 00 0000000000000000 1500000000000000 01000000 ADDC 4354";
    assert_eq!(captured("0.000 1E000101\n"), Ok(bytes(least)));
    let most = "187CC6A47E8D0300 FFFFFFFF 08 0102030405060708 1500000000000000 01000000 7986 4354";
    assert_eq!(captured(LONGEST), Ok(bytes(most)));
    assert_eq!(captured("0.000 1E000101\n0"), Err(18));
}

/// Every way in which a trailer is wrong.
#[test]
fn wrong_trailers() {
    let whole = bytes(CAPTURE);
    let at = whole.len() - TRAILER;
    for length in 0..TRAILER {
        assert_eq!(
            uncaptured(&whole[whole.len() - length..]),
            Err(22),
            "{length} bytes"
        );
    }
    for place in at..whole.len() {
        let mut other = whole.clone();
        other[place] ^= 1;
        assert_eq!(uncaptured(&other), Err(22), "byte {place}");
    }
    assert_eq!(
        uncaptured(&whole[1..]),
        Err(22),
        "distance beyond the front"
    );
    let mut beyond = whole.clone();
    beyond[at..].copy_from_slice(&trailer(u32::MAX, crc16(&whole[..at])));
    assert_eq!(uncaptured(&beyond), Err(22), "the largest count");
    beyond[at..].copy_from_slice(&trailer(5, crc16(&whole[..at])));
    assert_eq!(uncaptured(&beyond), Err(22), "a count of one more");
}

/// Neither preface nor trailer nor a signature is summed up.
#[test]
fn checksum_of_records_only() {
    let whole = bytes(CAPTURE);
    let (records, old) = whole.split_at(whole.len() - TRAILER);
    let preface = b"vendor".as_slice();
    let with = |sum: u16| [preface, records, &trailer(4, sum)].concat();
    assert_eq!(uncaptured(&with(crc16(records))), Ok(LOG.to_string()));
    for other in [
        [preface, records].concat(),
        [records, old].concat(),
        [&[0; 8], records].concat(),
    ] {
        assert_eq!(uncaptured(&with(crc16(&other))), Err(22));
    }
    assert_eq!(bytes(NO_LINE)[12..14], [0xFF, 0xFF]);
}

#[test]
fn nothing_follows_the_trailer() {
    for more in [&[0][..], b"\n", b"CT", &[0; 16]] {
        assert_eq!(uncaptured(&[&bytes(CAPTURE), more].concat()), Err(22));
    }
}

#[test]
fn preface_is_ignored() {
    let whole = bytes(CAPTURE);
    for preface in [&b"x"[..], &whole, &whole[..84], &[0; 21], b"CT"] {
        assert_eq!(uncaptured(&[preface, &whole].concat()), Ok(LOG.to_string()));
        assert_eq!(
            uncaptured(&[preface, &bytes(NO_LINE)].concat()),
            Ok(String::new())
        );
    }
}

/// Every line well formed and closed; the empty log too.
#[test]
fn well_formed_logs() {
    for log in [
        "\n",
        "0.000 1E000101",
        "0.000 1E000101\n\n",
        "0.000 1E000101\r\n",
        "01.000 1E000101\n",
    ] {
        assert_eq!(captured(log), Err(18), "{log:?}");
        assert_eq!(
            captured(&format!("{LOG}{log}")),
            Err(18),
            "{log:?} at the end"
        );
        assert_eq!(
            captured(&format!("{log}{LOG}")),
            Err(18),
            "{log:?} in front"
        );
    }
    assert_eq!(captured("1000000000.000 1E000101\n"), Err(18));
    assert_eq!(
        captured("0.000 1E000101 01 02 03 04 05 06 07 08 09\n"),
        Err(18)
    );
}

/// 18 before 8; 22 before 23 before 8; the least room.
#[test]
fn orders_and_room() {
    let number = |result: Written| result.map_err(Refusal::number);
    let bad = sealed(&record(1, 0, 0, [0; 8]));
    let mut worse = bad.clone();
    worse[RECORD + 12] ^= 1;
    assert_eq!(number(capture(b"0.000 1E000101\n0", &mut [])), Err(18));
    assert_eq!(number(uncapture(&worse, &mut [])), Err(22));
    assert_eq!(number(uncapture(&bad, &mut [])), Err(23));
    let mut out = [0xA5; 117];
    assert_eq!(number(capture(LOG.as_bytes(), &mut out[..99])), Err(8));
    assert_eq!(number(uncapture(&bytes(CAPTURE), &mut out[..116])), Err(8));
    assert_eq!(out, [0xA5; 117]);
    assert_eq!(number(capture(LOG.as_bytes(), &mut out[..100])), Ok(100));
    assert_eq!(number(uncapture(&bytes(CAPTURE), &mut out)), Ok(117));
    assert_eq!(number(uncapture(&bytes(NO_LINE), &mut [])), Ok(0));
}

/// Any ID, and no data.
#[test]
fn carried_records() {
    for id in [0, 0x1FFF_FFFF, 0x2000_0000, u32::MAX] {
        let one = sealed(&record(1000, id, 0, [0; 8]));
        assert_eq!(uncaptured(&one), Ok(format!("0.001 {id:08X}\n")));
    }
    let full = sealed(&record(0, 1, 8, [255; 8]));
    assert_eq!(
        uncaptured(&full),
        Ok(format!("0.000 00000001{}\n", " FF".repeat(8)))
    );
    for length in [9, 16, 128, 255] {
        assert_eq!(uncaptured(&sealed(&record(0, 1, length, [0; 8]))), Err(23));
    }
    for length in 0..8 {
        for place in usize::from(length)..8 {
            let mut data = [0; 8];
            data[place] = 0x80;
            assert_eq!(uncaptured(&sealed(&record(0, 1, length, data))), Err(23));
        }
    }
    let last = [record(0, 1, 0, [0; 8]), record(0, 1, 9, [0; 8])].concat();
    assert_eq!(uncaptured(&sealed(&last)), Err(23), "the last of two");
}

#[test]
fn times() {
    let at = |time| uncaptured(&sealed(&record(time, 1, 0, [0; 8])));
    let end = 1_000_000_000_000_000;
    assert_eq!(at(end - 1000), Ok("999999999.999 00000001\n".to_string()));
    for time in [
        end,
        end + 1000,
        u64::MAX / 1000 * 1000,
        1,
        999,
        1001,
        end - 1,
    ] {
        assert_eq!(at(time), Err(23), "{time}");
    }
}

/// What comes out of a capture counts as one interface, like a log.
#[test]
fn read_back_by_interface_0() {
    let back = uncaptured(&captured(LOG).unwrap()).unwrap();
    assert_eq!(run(back.as_bytes()), run(LOG.as_bytes()));
}

/// RULES 18.5.
#[test]
fn lengths() {
    assert_eq!(captured(LOG).unwrap().len(), 21 * 4 + 16);
    assert_eq!(LONGEST.len(), 14 + 3 * 8 + 9);
    assert_eq!(
        uncaptured(&captured("0.000 1E000101\n").unwrap())
            .unwrap()
            .len(),
        15
    );
}
