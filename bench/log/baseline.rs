// A log program written by hand for speed, to time the proved one against: the same output, with none of the checks on the
// receiver's own state. `baseline --make BYTES` prints a log of about that size instead: NodeStatus from twenty nodes, and
// transfers of several frames from eight others, short enough that 26 never comes: each session here has room of its own.
mod line;

use line::parse;
use std::io::{Read, Write};

const OLD: u64 = 2_000_000;
const SWITCH: u64 = 1_000_000;
/// The signatures that the program `signatures` works out, in the order of its lines.
const SIGNATURES: [u64; 9] = signatures(include_bytes!("../../crates/signatures/stdout"));
const SUBSCRIPTIONS: [(bool, u16, u64); 9] = [
    (false, 341, SIGNATURES[0]),
    (true, 1, SIGNATURES[1]),
    (false, 1, SIGNATURES[2]),
    (false, 16370, SIGNATURES[3]),
    (false, 16383, SIGNATURES[4]),
    (false, 1092, SIGNATURES[5]),
    (false, 1030, SIGNATURES[6]),
    (true, 11, SIGNATURES[7]),
    (true, 10, SIGNATURES[8]),
];

/// Sixteen hexadecimal digits at the front of each line.
const fn signatures(text: &[u8]) -> [u64; 9] {
    let mut found = [0; 9];
    let (mut line, mut column, mut i) = (0, 0, 0);
    while i < text.len() {
        let c = text[i];
        if c == b'\n' {
            (line, column) = (line + 1, 0);
        } else {
            if column < 16 {
                let digit = if c <= b'9' { c - b'0' } else { c - b'a' + 10 };
                found[line] = found[line] << 4 | digit as u64;
            }
            column += 1;
        }
        i += 1;
    }
    found
}

const TABLE: [u16; 256] = {
    let mut table = [0; 256];
    let mut i = 0;
    while i < 256 {
        let mut crc = (i as u16) << 8;
        let mut bit = 0;
        while bit < 8 {
            crc = if crc & 0x8000 != 0 {
                crc << 1 ^ 0x1021
            } else {
                crc << 1
            };
            bit += 1;
        }
        table[i] = crc;
        i += 1;
    }
    table
};

fn crc16(start: u16, bytes: &[u8]) -> u16 {
    bytes.iter().fold(start, |crc, &byte| {
        crc << 8 ^ TABLE[(crc >> 8) as usize ^ byte as usize]
    })
}

struct Session {
    time: u64,
    len: usize,
    expected: u8,
    toggle: bool,
    bytes: [u8; 521],
}

struct Receiver {
    keys: [u32; 32],
    sessions: Vec<Session>,
}

enum Answer<'a> {
    Number(u8),
    Handed(&'a [u8]),
}

impl Receiver {
    fn new() -> Receiver {
        let empty = || Session {
            time: 0,
            len: 0,
            expected: 0,
            toggle: false,
            bytes: [0; 521],
        };
        Receiver {
            keys: [0; 32],
            sessions: (0..32).map(|_| empty()).collect(),
        }
    }

    fn receive<'a>(&'a mut self, id: u32, data: &'a [u8], time: u64) -> Answer<'a> {
        let service = id & 128 != 0;
        let (source, destination) = (id & 127, id >> 8 & 127);
        if id >= 1 << 29 {
            return Answer::Number(2);
        }
        let Some((&tail, payload)) = data.split_last() else {
            return Answer::Number(3);
        };
        if service && (source == 0 || destination == 0) {
            return Answer::Number(4);
        }
        let (start, end, toggle) = (tail & 128 != 0, tail & 64 != 0, tail & 32 != 0);
        let transfer = tail & 31;
        let anonymous = !service && source == 0;
        if start && toggle
            || anonymous && !(start && end)
            || !end && data.len() < 8
            || end && !start && data.len() == 1
        {
            return Answer::Number(5);
        }
        if service && destination != 1 {
            return Answer::Number(6);
        }
        let type_id = match (service, anonymous) {
            (true, _) => id >> 16 & 255,
            (_, true) => id >> 8 & 3,
            _ => id >> 8 & 65535,
        };
        let Some(signature) = SUBSCRIPTIONS
            .iter()
            .find(|s| s.0 == service && s.1 as u32 == type_id)
        else {
            return Answer::Number(7);
        };
        if anonymous {
            return Answer::Handed(payload);
        }
        // a stream is the ID without its priority; a named source is never 0
        let key = id & 0xFF_FFFF;
        let place = match self.keys.iter().position(|&k| k == key) {
            Some(place) => place,
            None if !start => return Answer::Number(30),
            None => {
                let old = |i: &usize| time.saturating_sub(self.sessions[*i].time) > OLD;
                let free = self
                    .keys
                    .iter()
                    .position(|&k| k == 0)
                    .or_else(|| (0..32).find(old));
                let Some(place) = free else {
                    return Answer::Number(9);
                };
                self.keys[place] = key;
                let s = &mut self.sessions[place];
                (s.time, s.len, s.expected, s.toggle) = (time, 0, transfer, false);
                place
            }
        };
        let s = &mut self.sessions[place];
        let age = time.saturating_sub(s.time);
        // all frames come by interface 0
        let other = s.expected.wrapping_sub(transfer) & 31 > 1;
        let late = age > SWITCH && transfer.wrapping_sub(s.expected) & 31 < 16;
        if age > OLD || start && (other || late) {
            (s.len, s.toggle, s.expected) = (0, false, transfer);
            if !start {
                s.expected = (transfer + 1) & 31;
                return Answer::Number(30);
            }
        }
        if toggle != s.toggle || transfer != s.expected || start != (s.len == 0) {
            return Answer::Number(match (start, transfer == s.expected) {
                (false, _) if s.len == 0 => 30,
                (_, false) => 32,
                (true, true) => 33,
                (false, true) => 31,
            });
        }
        if start {
            s.time = time;
        }
        s.bytes[s.len..s.len + payload.len()].copy_from_slice(payload);
        s.len += payload.len();
        s.toggle = !s.toggle;
        let len = s.len;
        if len <= 514 && !end {
            return Answer::Number(0);
        }
        (s.len, s.toggle, s.expected) = (0, false, (s.expected + 1) & 31);
        if len > 514 {
            return Answer::Number(11);
        }
        if start {
            return Answer::Handed(&s.bytes[..len]);
        }
        let sum = crc16(crc16(0xFFFF, &signature.2.to_le_bytes()), &s.bytes[2..len]);
        if sum.to_le_bytes() != s.bytes[..2] {
            return Answer::Number(12);
        }
        Answer::Handed(&s.bytes[2..len])
    }
}

fn decimal(out: &mut Vec<u8>, mut value: u64) {
    let mut text = [0; 21];
    let mut at = 20;
    loop {
        text[at] = b'0' + (value % 10) as u8;
        value /= 10;
        if value == 0 {
            break;
        }
        at -= 1;
    }
    text[at - 1] = b' ';
    out.extend_from_slice(&text[at - 1..]);
}

fn one(receiver: &mut Receiver, line: &[u8], out: &mut Vec<u8>) -> bool {
    let Some(l) = parse(line) else {
        out.extend_from_slice(b"? - 18\n");
        return false;
    };
    out.extend_from_slice(&line[..l.head]);
    let data = &l.bytes[..l.len];
    match receiver.receive(l.id, data, l.time) {
        Answer::Number(n) => {
            out.extend_from_slice(if n == 0 { b" +" } else { b" -" });
            decimal(out, n as u64);
            out.push(b'\n');
            false
        }
        Answer::Handed(payload) => {
            let service = l.id & 128 != 0;
            let source = l.id & 127;
            let (letter, type_id, destination) = match (service, source) {
                (true, _) => (
                    if l.id & 0x8000 != 0 { b'Q' } else { b'R' },
                    l.id >> 16 & 255,
                    l.id >> 8 & 127,
                ),
                (_, 0) => (b'M', l.id >> 8 & 3, 0),
                _ => (b'M', l.id >> 8 & 65535, 0),
            };
            out.extend_from_slice(&[b' ', letter]);
            let transfer = data[l.len - 1] & 31;
            for value in [
                type_id,
                source,
                destination,
                l.id >> 24,
                transfer as u32,
                payload.len() as u32,
            ] {
                decimal(out, value as u64);
            }
            out.push(b' ');
            if payload.is_empty() {
                out.push(b'-');
            }
            const HEX: &[u8; 16] = b"0123456789ABCDEF";
            for &byte in payload {
                out.extend_from_slice(&[HEX[(byte >> 4) as usize], HEX[(byte & 15) as usize]]);
            }
            out.push(b'\n');
            true
        }
    }
}

fn run() {
    let (mut input, mut output) = (std::io::stdin().lock(), std::io::stdout().lock());
    let mut receiver = Receiver::new();
    let mut out = Vec::with_capacity(1 << 16);
    out.extend_from_slice(b"time kind type from to prio id len payload\n");
    let mut block = vec![0; 1 << 16];
    let (mut kept, mut lines, mut transfers) = (0, 0u64, 0u64);
    loop {
        let got = input.read(&mut block[kept..]).unwrap_or(0);
        if got == 0 {
            break;
        }
        let (n, mut from) = (kept + got, 0);
        while let Some(length) = block[from..n].iter().position(|&c| c == b'\n') {
            lines += 1;
            transfers += one(&mut receiver, &block[from..from + length + 1], &mut out) as u64;
            from += length + 1;
            if out.len() > 64_000 {
                output.write_all(&out).unwrap();
                out.clear();
            }
        }
        kept = (n - from).min(48);
        block.copy_within(from..from + kept, 0);
    }
    if kept > 0 {
        lines += 1;
        transfers += one(&mut receiver, &block[..kept], &mut out) as u64;
    }
    out.extend_from_slice(b"end");
    decimal(&mut out, lines);
    decimal(&mut out, transfers);
    out.push(b'\n');
    output.write_all(&out).unwrap();
}

fn make(bytes: usize) {
    let mut output = std::io::BufWriter::new(std::io::stdout().lock());
    let (mut written, mut step) = (0, 0u64);
    let mut next = [0u8; 28];
    let mut queue: Vec<Vec<Vec<u8>>> = vec![Vec::new(); 28];
    let mut seed = 1u64;
    while written < bytes {
        seed = seed
            .wrapping_mul(6364136223846793005)
            .wrapping_add(1442695040888963407);
        let node = (seed >> 33) as usize % 28;
        let (type_id, signature) = if node < 20 {
            (341, SIGNATURES[0])
        } else {
            (16383, SIGNATURES[4])
        };
        if queue[node].is_empty() {
            let length = if node < 20 {
                7
            } else {
                20 + (seed >> 40) as usize % 60
            };
            let payload: Vec<u8> = (0..length).map(|i| (seed >> (i % 8 * 7)) as u8).collect();
            let mut text = payload.clone();
            if length > 7 {
                let sum = crc16(crc16(0xFFFF, &signature.to_le_bytes()), &payload);
                text.splice(0..0, sum.to_le_bytes());
            }
            let count = text.len().div_ceil(7);
            let tail = |i: usize| {
                (i == 0) as u8 * 128 | (i + 1 == count) as u8 * 64 | (i % 2) as u8 * 32 | next[node]
            };
            queue[node] = text
                .chunks(7)
                .enumerate()
                .map(|(i, part)| [part, &[tail(i)]].concat())
                .rev()
                .collect();
            next[node] = (next[node] + 1) % 32;
        }
        let data = queue[node].pop().unwrap();
        step += 1;
        let mut line = format!(
            "{}.{:03} {:08X}",
            step / 5000,
            step / 5 % 1000,
            16 << 24 | type_id << 8 | (node as u32 + 1)
        );
        data.iter()
            .for_each(|byte| line.push_str(&format!(" {byte:02X}")));
        line.push('\n');
        output.write_all(line.as_bytes()).unwrap();
        written += line.len();
    }
}

fn main() {
    let words: Vec<String> = std::env::args().collect();
    match words.get(2) {
        Some(bytes) if words[1] == "--make" => make(bytes.parse().unwrap()),
        _ => run(),
    }
}
