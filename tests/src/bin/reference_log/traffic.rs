//! A log at random: nodes that talk over a poor link, frames of any shape, and lines that are not
//! well formed.

use crate::random::Random;
use reference::definitions as types;
use reference::frame::{next_transfer_id, Stream, TransferType};
use reference::receive::LONGEST_PAYLOAD;
use reference::send::split;
use std::fmt::Write;

/// More streams than the receiver has places.
const TALKERS: usize = 48;
/// Long transfers of so many at once need more blocks than there are.
const CROWD: usize = 20;
/// The largest time of a log, in milliseconds.
const LAST: u64 = 999_999_999_999;

pub fn log(random: &mut Random, lines: u64) -> Vec<u8> {
    let mut talkers: Vec<Talker> = (0..TALKERS).map(|_| Talker::new(random)).collect();
    let (mut clock, mut talking) = (0, CROWD);
    let mut log = Vec::new();
    for line in 0..lines {
        // first many long transfers, without leaps of the clock, which leave few places for them
        let crowded = line < lines / 10;
        clock = if crowded {
            line / 2
        } else {
            tick(random, clock)
        };
        if !crowded && random.once_in(2000) {
            talking = random.pick(&[1, 2, 4, 12, TALKERS]);
        }
        // with few talkers, or long transfers, the link is better, so that these come to their end
        let trouble = if crowded || talking <= 4 { 600 } else { 30 };
        let talker = &mut talkers[random.index(talking)];
        // about a second later, the start again: on one cable this alone shows the switch delay
        if !crowded && random.once_in(1000) {
            talker.next = 0;
            clock = (clock + 990 + random.below(20)).min(LAST);
        }
        let (id, data) = match random.below(16) {
            0 => wild(random),
            1 if talker.next > 0 && random.once_in(8) => talker.start_again(random),
            _ => talker.speak(random, trouble, crowded),
        };
        let line = text(clock, id, &data);
        match random.below(trouble) {
            0 => log.extend(spoilt(random, line)),
            _ => log.extend(line.into_bytes()),
        }
    }
    log
}

/// Milliseconds. Now and then the clock leaps, back too.
fn tick(random: &mut Random, clock: u64) -> u64 {
    match random.below(4000) {
        0 => clock + random.below(4_000),
        1 => clock.saturating_sub(random.below(4_000)),
        2 => random.below(1_000_000_000_000),
        3 => random.below(100_000),
        _ => (clock + random.below(2)).min(LAST),
    }
}

fn text(clock: u64, id: u32, data: &[u8]) -> String {
    let mut line = format!("{}.{:03} {id:08X}", clock / 1000, clock % 1000);
    for byte in data {
        write!(line, " {byte:02X}").expect("a string takes all");
    }
    line.push('\n');
    line
}

/// A line with something wrong in it, most of the time.
fn spoilt(random: &mut Random, line: String) -> Vec<u8> {
    let mut bytes = line.into_bytes();
    let at = random.index(bytes.len());
    match random.below(12) {
        0 => bytes.make_ascii_lowercase(),
        1 => bytes.insert(at, b' '),
        2 => bytes.insert(0, b'0'),
        3 => drop(bytes.remove(at)),
        4 => bytes.insert(bytes.len() - 1, b'\r'),
        5 => bytes[at] = random.byte(),
        6 => bytes
            .splice(bytes.len() - 1..bytes.len() - 1, *b" 00")
            .for_each(drop),
        7 => bytes
            .splice(0..0, vec![b'1'; random.index(12)])
            .for_each(drop),
        8 => bytes = vec![b'\n'],
        9 => bytes
            .splice(at..at, vec![b'A'; random.index(300)])
            .for_each(drop),
        10 => bytes
            .splice(at..at, vec![b'0'; random.index(4)])
            .for_each(drop),
        _ => bytes.truncate(at),
    }
    bytes
}

fn wild(random: &mut Random) -> (u32, Vec<u8>) {
    let id = match random.below(4) {
        0 => random.next() as u32,
        1 => (random.next() as u32 & 0x1FFF_FFFF) & !0x7F,
        2 => talked(random).id(random.below(32) as u8, 0),
        _ => random.next() as u32 & 0x1FFF_FFFF,
    };
    let length = random.index(9);
    (id, random.bytes(length))
}

/// A stream of a subscribed type, with the own node as the destination of services.
fn talked(random: &mut Random) -> Stream {
    let source = random.between(1, 127) as u8;
    let (transfer_type, type_id) = match random.below(12) {
        0 => (TransferType::Message, types::NODE_STATUS),
        1 => (TransferType::Message, types::ALLOCATION),
        2 => (TransferType::Message, types::KEY_VALUE),
        3 => (TransferType::Message, types::LOG_MESSAGE),
        4 => (TransferType::Message, types::BATTERY_INFO),
        5 => (TransferType::Message, types::RAW_COMMAND),
        6 => (TransferType::Request, types::GET_NODE_INFO),
        7 => (TransferType::Response, types::GET_NODE_INFO),
        8 => (TransferType::Request, types::GET_SET),
        9 => (TransferType::Response, types::GET_SET),
        10 => (TransferType::Request, types::EXECUTE_OPCODE),
        _ => (TransferType::Response, types::EXECUTE_OPCODE),
    };
    let destination = u8::from(transfer_type.is_service());
    Stream {
        transfer_type,
        type_id,
        source,
        destination,
    }
}

fn signature(stream: &Stream) -> u64 {
    match (stream.transfer_type, stream.type_id) {
        (TransferType::Message, types::NODE_STATUS) => types::node_status(),
        (TransferType::Message, types::ALLOCATION) => types::allocation(),
        (TransferType::Message, types::KEY_VALUE) => types::key_value(),
        (TransferType::Message, types::LOG_MESSAGE) => types::log_message(),
        (TransferType::Message, types::BATTERY_INFO) => types::battery_info(),
        (TransferType::Message, _) => types::raw_command(),
        (_, types::GET_SET) => types::get_set(),
        (_, types::EXECUTE_OPCODE) => types::execute_opcode(),
        _ => types::get_node_info(),
    }
}

/// A node sending transfers of one stream, frame by frame.
struct Talker {
    stream: Stream,
    anonymous: bool,
    transfer_id: u8,
    frames: Vec<Vec<u8>>,
    next: usize,
}

impl Talker {
    fn new(random: &mut Random) -> Talker {
        Talker {
            stream: talked(random),
            anonymous: false,
            transfer_id: random.below(32) as u8,
            frames: Vec::new(),
            next: 0,
        }
    }

    fn speak(&mut self, random: &mut Random, trouble: u64, long: bool) -> (u32, Vec<u8>) {
        if self.next >= self.frames.len() {
            self.begin(random, long);
        }
        let mut data = self.frames[self.next].clone();
        match random.below(trouble) {
            0 => (),
            1 => self.next += 2,
            2 => {
                let at = random.index(data.len());
                data[at] ^= 1 << random.below(8);
                self.next += 1;
            }
            _ => self.next += 1,
        }
        (self.id(random), data)
    }

    /// The start of the transfer once more, before what comes next.
    fn start_again(&self, random: &mut Random) -> (u32, Vec<u8>) {
        (self.id(random), self.frames[0].clone())
    }

    fn id(&self, random: &mut Random) -> u32 {
        let (priority, discriminator) = (random.below(32) as u8, random.below(16384) as u16);
        let id = self.stream.id(priority, discriminator);
        if self.anonymous {
            id & !0x7F
        } else {
            id
        }
    }

    /// The next transfer, and at times another stream.
    fn begin(&mut self, random: &mut Random, long: bool) {
        if random.once_in(8) {
            self.stream = talked(random);
        }
        self.transfer_id = next_transfer_id(self.transfer_id);
        self.anonymous = random.once_in(16) && !self.stream.transfer_type.is_service();
        let length = match random.below(16) {
            _ if self.anonymous => random.index(8),
            _ if long => LONGEST_PAYLOAD + 20 - random.index(100),
            0..=8 => random.index(8),
            9..=12 => random.index(40),
            13 => random.index(LONGEST_PAYLOAD + 1),
            _ => LONGEST_PAYLOAD - 7 + random.index(16),
        };
        self.frames = split(
            &random.bytes(length),
            signature(&self.stream),
            self.transfer_id,
        );
        self.next = 0;
    }
}
