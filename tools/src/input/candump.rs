//! Lines of candump: of its recordings (`candump -l`), with stamps of micro- or nanoseconds, and of its screen form, with a stamp (`-t a`, `-t A`, `-t z`) or none.

use crate::frame::Frame;
use std::time::Instant;

/// No line has so many bytes; one of a log has far fewer.
pub const LONGEST: usize = 512;
pub const NOT_CANDUMP: &str = "not a line of candump";
pub const SHORT_ID: &str = "an 11-bit ID";
pub const REMOTE_FRAME: &str = "a remote frame";
pub const ERROR_FRAME: &str = "an error frame";

/// The most digits of a log's seconds.
const LAST_SECOND: u64 = 999_999_999;
const ERROR_FLAG: u32 = 0x20000000;

#[derive(Debug, PartialEq, Eq, Clone, Copy)]
pub struct Stamp {
    pub seconds: u64,
    pub micros: u32,
}

#[derive(Debug, PartialEq, Eq)]
pub struct Recorded<'a> {
    pub stamp: Option<Stamp>,
    pub interface: &'a str,
    id: u32,
    length: u8,
    bytes: [u8; 8],
}

/// A line without its line feed; or why it gives no frame.
pub fn parse(line: &[u8]) -> Result<Recorded<'_>, &'static str> {
    if line.len() >= LONGEST {
        return Err(NOT_CANDUMP);
    }
    let line = line.strip_suffix(b"\r").unwrap_or(line);
    let line = std::str::from_utf8(line).map_err(|_| NOT_CANDUMP)?;
    let line = line.trim_matches(' ');
    let (stamp, line) = match line.strip_prefix('(') {
        Some(line) => {
            let (stamp, rest) = line.split_once(')').ok_or(NOT_CANDUMP)?;
            (Some(stamp_of(stamp).ok_or(NOT_CANDUMP)?), rest)
        }
        None => (None, line),
    };
    let mut words = line.split(' ').filter(|word| !word.is_empty());
    let interface = words
        .next()
        .filter(|name| is_interface(name))
        .ok_or(NOT_CANDUMP)?;
    let second = words.next().ok_or(NOT_CANDUMP)?;
    let (id, data) = match second.split_once('#') {
        Some((id, data)) => recorded(id, data, stamp, words)?,
        None => on_screen(second, words)?,
    };
    let mut bytes = [0; 8];
    bytes[..data.len()].copy_from_slice(&data);
    Ok(Recorded {
        stamp,
        interface,
        id,
        length: data.len() as u8,
        bytes,
    })
}

/// `1001552A#0102C0`, then perhaps the direction.
fn recorded<'a>(
    id: &str,
    data: &str,
    stamp: Option<Stamp>,
    mut words: impl Iterator<Item = &'a str>,
) -> Result<(u32, Vec<u8>), &'static str> {
    let direction = words.next().unwrap_or("R");
    if stamp.is_none() || !matches!(direction, "R" | "T") || words.next().is_some() {
        return Err(NOT_CANDUMP);
    }
    if !is_hex(id) {
        return Err(NOT_CANDUMP);
    }
    if data.starts_with('#') {
        return Err("a CAN FD frame");
    }
    if data.starts_with('R') {
        return Err(REMOTE_FRAME);
    }
    let id = identifier(id)?;
    // eight bytes sent with a length code above 8 have it behind an underscore
    let data = match data.split_once('_') {
        Some((data, code)) if data.len() == 16 && code.len() == 1 && is_hex(code) => data,
        Some(_) => return Err(NOT_CANDUMP),
        None => data,
    };
    if !data.is_empty() && !is_hex(data) {
        return Err(NOT_CANDUMP);
    }
    if data.len() % 2 != 0 || data.len() > 16 {
        return Err("not 0 to 8 data bytes");
    }
    let pairs = (0..data.len()).step_by(2).map(|at| byte(&data[at..at + 2]));
    Ok((id, pairs.collect::<Result<_, _>>()?))
}

/// `1001552A  [3]  01 02 C0`, before it perhaps direction and flags, and behind it perhaps the bytes as text.
fn on_screen<'a>(
    first: &'a str,
    mut words: impl Iterator<Item = &'a str>,
) -> Result<(u32, Vec<u8>), &'static str> {
    let mut id = first;
    if matches!(first, "RX" | "TX") {
        let is_flag = |flag: &&str| matches!(*flag, "-" | "B" | "E");
        if ![words.next(), words.next()].iter().flatten().all(is_flag) {
            return Err(NOT_CANDUMP);
        }
        id = words.next().ok_or(NOT_CANDUMP)?;
    }
    let length = words
        .next()
        .and_then(|word| word.strip_prefix('[')?.strip_suffix(']'));
    let length = length.filter(|digits| digits.bytes().all(|digit| digit.is_ascii_digit()));
    let length = length.ok_or(NOT_CANDUMP)?;
    if !is_hex(id) {
        return Err(NOT_CANDUMP);
    }
    if length.len() == 2 {
        return Err("a CAN FD frame");
    }
    Ok((identifier(id)?, data_on_screen(length, words)?))
}

/// So many data bytes, and after them nothing but the letters that `-a` prints.
fn data_on_screen<'a>(
    length: &str,
    mut words: impl Iterator<Item = &'a str>,
) -> Result<Vec<u8>, &'static str> {
    let count: usize = length.parse().map_err(|_| NOT_CANDUMP)?;
    if count > 8 {
        return Err("not 0 to 8 data bytes");
    }
    let mut data = Vec::new();
    for _ in 0..count {
        let word = words.next().ok_or("not 0 to 8 data bytes")?;
        if word == "remote" {
            return Err(REMOTE_FRAME);
        }
        data.push(byte(word)?);
    }
    match words.next() {
        None => Ok(data),
        Some("remote") => Err(REMOTE_FRAME),
        Some(text) if text.starts_with('\'') => Ok(data),
        Some(_) => Err(NOT_CANDUMP),
    }
}

fn identifier(digits: &str) -> Result<u32, &'static str> {
    match digits.len() {
        3 => Err(SHORT_ID),
        8 => {
            let id = u32::from_str_radix(digits, 16).map_err(|_| NOT_CANDUMP)?;
            match id & ERROR_FLAG {
                0 => Ok(id),
                _ => Err(ERROR_FRAME),
            }
        }
        _ => Err(NOT_CANDUMP),
    }
}

fn byte(digits: &str) -> Result<u8, &'static str> {
    let is_byte = digits.len() == 2 && is_hex(digits);
    let byte = is_byte
        .then(|| u8::from_str_radix(digits, 16).ok())
        .flatten();
    byte.ok_or(NOT_CANDUMP)
}

fn is_hex(digits: &str) -> bool {
    !digits.is_empty() && digits.bytes().all(|digit| digit.is_ascii_hexdigit())
}

/// Linux has names of at most 15 bytes.
fn is_interface(name: &str) -> bool {
    name.len() <= 15 && name.bytes().all(|byte| byte.is_ascii_graphic()) && !name.contains('#')
}

/// `1436509052.249713`, nine digits behind the dot too, or `2015-07-10 06:17:32.249713`.
fn stamp_of(text: &str) -> Option<Stamp> {
    let (whole, part) = text.split_once('.')?;
    if !matches!(part.len(), 6 | 9) {
        return None;
    }
    let micros = digits(&part[..6])? as u32;
    digits(part)?;
    let seconds = match whole.split_once(' ') {
        Some((date, time)) => seconds_of(date, time)?,
        None => digits(whole)?,
    };
    Some(Stamp { seconds, micros })
}

fn digits(text: &str) -> Option<u64> {
    let right = (1..=12).contains(&text.len()) && text.bytes().all(|byte| byte.is_ascii_digit());
    right.then(|| text.parse().ok()).flatten()
}

/// Seconds since 1970 of a date and a time of day.
fn seconds_of(date: &str, time: &str) -> Option<u64> {
    let [year, month, day] = three(date, '-')?;
    let [hour, minute, second] = three(time, ':')?;
    if !(1970..10000).contains(&year) || !(1..=12).contains(&month) || !(1..=31).contains(&day) {
        return None;
    }
    // days by years that begin in March, so that a leap day is the last of its year
    let shifted = if month < 3 { year - 1 } else { year };
    let of_year = (153 * ((month + 9) % 12) + 2) / 5 + day - 1;
    let days = 365 * shifted + shifted / 4 - shifted / 100 + shifted / 400 + of_year - 719_468;
    Some(((days * 24 + hour) * 60 + minute) * 60 + second)
}

fn three(text: &str, between: char) -> Option<[u64; 3]> {
    let numbers: Option<Vec<u64>> = text.split(between).map(digits).collect();
    numbers?.try_into().ok()
}

impl Recorded<'_> {
    pub fn frame(&self, time: u64, interface: u32) -> Frame {
        Frame {
            time,
            id: self.id,
            interface,
            length: self.length,
            bytes: self.bytes,
        }
    }
}

/// The times of a recording, since the first stamp's second.
pub struct Clock {
    offset: Option<u64>,
    /// The time of the last stamp.
    last: Option<u64>,
    /// For lines without a stamp: when the program started, if lines are read as they come.
    start: Option<Instant>,
    told_without: bool,
    note: Option<String>,
}

impl Clock {
    /// With so many seconds to be taken off; without them, those of the first stamp.
    pub fn new(live: bool, offset: Option<u64>) -> Clock {
        Clock {
            offset,
            last: None,
            start: live.then(Instant::now),
            told_without: false,
            note: None,
        }
    }

    /// What the reader should know of the last time, if it is new.
    pub fn note(&mut self) -> Option<String> {
        self.note.take()
    }

    /// In microseconds, or why there is none.
    pub fn time(&mut self, stamp: Option<Stamp>) -> Result<u64, &'static str> {
        let Some(stamp) = stamp else {
            return Ok(self.without_stamp());
        };
        let offset = self.offset.unwrap_or_else(|| {
            let taken = stamp.seconds;
            self.note = Some(format!(
                "{taken} seconds, those of the first stamp, are taken off every time"
            ));
            taken
        });
        self.offset = Some(offset);
        let since = stamp
            .seconds
            .checked_sub(offset)
            .ok_or("a time before the offset")?;
        if since > LAST_SECOND {
            return Err("seconds of more than nine digits");
        }
        let time = since * 1_000_000 + u64::from(stamp.micros);
        self.last = Some(time);
        Ok(time)
    }

    /// The time of the last stamp; before any, when the line came; in a file 0.
    fn without_stamp(&mut self) -> u64 {
        let (time, told) = match (self.last, self.start) {
            (Some(last), _) => (last, "get the time of the line before"),
            (None, Some(start)) => (
                start.elapsed().as_micros() as u64,
                "get the time at which they come",
            ),
            (None, None) => (0, "get the time 0; candump -t a prints stamps"),
        };
        if !std::mem::replace(&mut self.told_without, true) {
            self.note = Some(format!("lines without a time stamp {told}"));
        }
        time
    }
}

/// The names of the interfaces of a recording, in the order in which they come.
pub struct Names(Vec<String>);

/// The most names that are told apart.
const NAMES_MAX: usize = 16;
const FURTHER: &str = "further ones";

impl Names {
    pub fn new() -> Names {
        Names(Vec::new())
    }

    /// The number of an interface, and its name if that is new. All beyond the most have one number and one name, which is none of an interface.
    pub fn number<'a>(&mut self, name: &'a str) -> (u32, Option<&'a str>) {
        if let Some(known) = self.0.iter().position(|known| known == name) {
            return (known as u32, None);
        }
        if self.0.len() > NAMES_MAX {
            return (NAMES_MAX as u32, None);
        }
        let name = if self.0.len() == NAMES_MAX {
            FURTHER
        } else {
            name
        };
        self.0.push(name.to_string());
        (self.0.len() as u32 - 1, Some(name))
    }
}

#[cfg(test)]
mod tests {
    use super::*;

    fn read(line: &str) -> Result<(Option<(u64, u32)>, String, u32, Vec<u8>), &'static str> {
        let recorded = parse(line.as_bytes())?;
        let stamp = recorded.stamp.map(|stamp| (stamp.seconds, stamp.micros));
        let data = recorded.bytes[..usize::from(recorded.length)].to_vec();
        Ok((stamp, recorded.interface.to_string(), recorded.id, data))
    }

    #[test]
    fn forms() {
        let id = 0x1001552A;
        let can0 = "can0".to_string();
        let stamp = Some((1436509052, 249713));
        let right = |line, stamp, data: &[u8]| {
            assert_eq!(
                read(line),
                Ok((stamp, can0.clone(), id, data.to_vec())),
                "{line}"
            );
        };
        right("(1436509052.249713) can0 1001552A#01C0", stamp, &[1, 0xC0]);
        right(
            "(1436509052.249713) can0 1001552a#01c0\r",
            stamp,
            &[1, 0xC0],
        );
        right("(1436509052.249713999) can0 1001552A#", stamp, &[]);
        right("(1436509052.249713) can0 1001552A#01 T", stamp, &[1]);
        right(
            "(1436509052.249713) can0 1001552A#0102030405060708_F",
            stamp,
            &[1, 2, 3, 4, 5, 6, 7, 8],
        );
        right(
            " (1436509052.249713)  can0  1001552A   [2]  01 C0",
            stamp,
            &[1, 0xC0],
        );
        right(
            " (2015-07-10 06:17:32.249713)  can0  1001552A   [2]  01 C0",
            stamp,
            &[1, 0xC0],
        );
        right(" (000.000001)  can0  1001552A   [0] ", Some((0, 1)), &[]);
        right("  can0  1001552A   [2]  01 C0", None, &[1, 0xC0]);
        right("  can0  TX - -  1001552A   [2]  01 C0", None, &[1, 0xC0]);
        right(
            "  can0  RX B E  1001552A   [2]  01 C0   '.. '",
            None,
            &[1, 0xC0],
        );
    }

    #[test]
    fn no_frames() {
        let left_out = |line: &str, reason| assert_eq!(read(line), Err(reason), "{line}");
        left_out("(1.000000) can0 044#2A", "an 11-bit ID");
        left_out("  can0  044   [1]  2A", "an 11-bit ID");
        left_out("(1.000000) can0 1001552A#R", "a remote frame");
        left_out("(1.000000) can0 1001552A#R4", "a remote frame");
        left_out("  can0  1001552A   [0]  remote request", "a remote frame");
        left_out("  can0  1001552A   [3]  remote request", "a remote frame");
        left_out("(1.000000) can0 1001552A##1AABB", "a CAN FD frame");
        left_out(
            "  can0  1001552A  [08]  01 02 03 04 05 06 07 08",
            "a CAN FD frame",
        );
        left_out(
            "(1.000000) can0 20000004#0000000000000000",
            "an error frame",
        );
        left_out("(1.000000) can0 1001552A#C", "not 0 to 8 data bytes");
        left_out(
            "(1.000000) can0 1001552A#010203040506070809",
            "not 0 to 8 data bytes",
        );
        left_out(
            "  can0  1001552A   [9]  01 02 03 04 05 06 07 08 09",
            "not 0 to 8 data bytes",
        );
        for line in [
            "",
            "can0",
            "can0 1001552A",
            "can0 1001552A#01",
            "(1.000) can0 1001552A#01",
            "(1.00000a) can0 1001552A#01",
            "(1.000000 can0 1001552A#01",
            "(1.000000) can0 1001552A#0G",
            "(1.000000) can0 1001552A#01 X",
            "(1.000000) can0 1001552A#01 R R",
            "(1.000000) can0 101552A#01",
            "(1.000000) a_name_of_16_byt 1001552A#01",
            "(1.000000) can0\x1b 1001552A#01",
            "(2015-13-10 06:17:32.249713) can0 1001552A#01",
            "  can0  1001552A   [2]  01 C0 02",
            "  can0  1001552A   [x]  01",
            "  can0  1001552A   [1]  +1",
            "1.000 1001552A 01",
        ] {
            left_out(line, NOT_CANDUMP);
        }
        let long = format!("(1.000000) can0 1001552A#01{}", " ".repeat(LONGEST));
        left_out(&long, NOT_CANDUMP);
    }

    #[test]
    fn dates() {
        assert_eq!(seconds_of("1970-01-01", "00:00:00"), Some(0));
        assert_eq!(seconds_of("2000-02-29", "12:00:00"), Some(951_825_600));
        assert_eq!(seconds_of("2100-03-01", "00:00:01"), Some(4_107_542_401));
        assert_eq!(seconds_of("2026-12-31", "23:59:59"), Some(1_798_761_599));
        assert_eq!(seconds_of("1969-12-31", "00:00:00"), None);
    }

    #[test]
    fn times() {
        let mut clock = Clock::new(false, None);
        let stamp = |seconds, micros| Some(Stamp { seconds, micros });
        assert_eq!(clock.time(None), Ok(0));
        assert!(clock.note().is_some_and(|note| note.contains("the time 0")));
        assert_eq!(clock.time(stamp(100, 7)), Ok(7));
        assert!(clock
            .note()
            .is_some_and(|note| note.starts_with("100 seconds")));
        assert_eq!(clock.time(stamp(101, 0)), Ok(1_000_000));
        assert_eq!(clock.time(None), Ok(1_000_000));
        assert_eq!(clock.time(stamp(99, 0)), Err("a time before the offset"));
        assert_eq!(
            clock.time(stamp(100 + LAST_SECOND, 0)),
            Ok(LAST_SECOND * 1_000_000)
        );
        assert_eq!(
            clock.time(stamp(101 + LAST_SECOND, 0)),
            Err("seconds of more than nine digits")
        );
        assert_eq!(clock.note(), None);
        assert_eq!(
            Clock::new(false, Some(0)).time(stamp(100, 7)),
            Ok(100_000_007)
        );
    }

    #[test]
    fn names() {
        let mut names = Names::new();
        assert_eq!(names.number("can0"), (0, Some("can0")));
        assert_eq!(names.number("can1"), (1, Some("can1")));
        assert_eq!(names.number("can0"), (0, None));
        for number in 2..NAMES_MAX as u32 {
            let name = format!("can{number}");
            assert_eq!(names.number(&name), (number, Some(name.as_str())));
        }
        let beyond = NAMES_MAX as u32;
        assert_eq!(names.number("vcan0"), (beyond, Some(FURTHER)));
        assert_eq!(names.number("vcan0"), (beyond, None));
        assert_eq!(names.number("vcan1"), (beyond, None));
        assert_eq!(names.number("can15"), (15, None));
    }
}
