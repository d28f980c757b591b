//! Logs at random, whole and with one line damaged.

use crate::random::Random;
use reference::captures::write_log;
use reference::logs::Line;

/// The last time that a line can say, in milliseconds.
const LAST: u64 = 999_999_999_999;

pub fn lines(random: &mut Random) -> Vec<Line> {
    let count = match random.below(2000) {
        0 => random.index(3000),
        1..=99 => 0,
        100..=299 => 1,
        _ => random.index(9),
    };
    (0..count).map(|_| line(random)).collect()
}

pub fn line(random: &mut Random) -> Line {
    let milliseconds = match random.below(8) {
        0 => random.pick(&[0, 1, 999, 1000, LAST - 1, LAST]),
        _ => random.next() % 10u64.pow(random.between(1, 12) as u32),
    };
    let id = match random.below(4) {
        0 => random.pick(&[0, 1, 0x1FFF_FFFF, 0x2000_0000, u32::MAX]),
        1 => random.next() as u32,
        _ => random.next() as u32 & 0x1FFF_FFFF,
    };
    let length = random.index(9);
    Line {
        id,
        data: random.bytes(length),
        time: milliseconds * 1000,
    }
}

/// Damages one line, with its line feed.
pub type Damage = fn(&mut Random, &mut Vec<u8>);

/// Each way to damage a line, and whether it is then never well formed.
pub const DAMAGES: [(&str, Damage, bool); 14] = [
    ("a byte changed", change, false),
    ("a byte lost", lose, false),
    ("a byte put in", put_in, false),
    (
        "line feed lost",
        |_, line| line.truncate(line.len() - 1),
        true,
    ),
    ("bytes after the line feed", trail, false),
    ("lower case", lower_case, true),
    ("a leading zero", |_, line| line.insert(0, b'0'), true),
    ("ten digits of seconds", ten_digits, true),
    ("two digits of milliseconds", two_digits, true),
    ("nine data bytes", nine_bytes, true),
    ("seven digits of an ID", seven_digits, true),
    (
        "carriage return",
        |_, line| line.insert(line.len() - 1, b'\r'),
        true,
    ),
    (
        "a space at the end",
        |_, line| line.insert(line.len() - 1, b' '),
        true,
    ),
    ("an empty line", |_, line| line.insert(0, b'\n'), true),
];

/// A log of which one line is damaged.
pub fn damaged(random: &mut Random, lines: &[Line], damage: Damage) -> Vec<u8> {
    let at = random.index(lines.len());
    let mut line = lines[at].text();
    damage(random, &mut line);
    [write_log(&lines[..at]), line, write_log(&lines[at + 1..])].concat()
}

fn change(random: &mut Random, line: &mut Vec<u8>) {
    let at = random.index(line.len());
    line[at] = match random.below(3) {
        0 => random.byte(),
        1 => line[at] ^ 1 << random.below(8),
        _ => random.pick(b"0129AFGaf:/@. \n"),
    };
}

fn lose(random: &mut Random, line: &mut Vec<u8>) {
    line.remove(random.index(line.len()));
}

fn put_in(random: &mut Random, line: &mut Vec<u8>) {
    let byte = random.pick(b"0129AFf. \n\r\t\0");
    line.insert(random.index(line.len() + 1), byte);
}

/// In the middle of a log they stand in front of the next line.
fn trail(random: &mut Random, line: &mut Vec<u8>) {
    let length = random.between(1, 50) as usize;
    line.extend(random.bytes(length));
}

/// A letter is there for sure.
fn lower_case(_: &mut Random, line: &mut Vec<u8>) {
    let space = line.iter().position(|&byte| byte == b' ').expect("an ID");
    line[space + 1] = b'A';
    line.make_ascii_lowercase();
}

fn dot(line: &[u8]) -> usize {
    line.iter().position(|&byte| byte == b'.').expect("a time")
}

fn ten_digits(random: &mut Random, line: &mut Vec<u8>) {
    let seconds = random.between(1_000_000_000, 9_999_999_999).to_string();
    line.splice(..dot(line), seconds.into_bytes());
}

fn two_digits(_: &mut Random, line: &mut Vec<u8>) {
    line.remove(dot(line) + 1);
}

fn seven_digits(_: &mut Random, line: &mut Vec<u8>) {
    line.remove(dot(line) + 5);
}

fn nine_bytes(random: &mut Random, line: &mut Vec<u8>) {
    while line.len() < dot(line) + 13 + 9 * 3 + 1 {
        let byte = format!(" {:02X}", random.byte());
        line.splice(line.len() - 1..line.len() - 1, byte.into_bytes());
    }
}
