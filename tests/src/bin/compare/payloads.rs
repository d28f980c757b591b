//! Messages compared: random ones written, and payloads whole, cut, lengthened and damaged read.

use crate::clipping::{around, change_numbers, ARGUMENT, COMMAND, HUGE, INTEGER};
use crate::entry_points::Serialization;
use crate::lent::Pair;
use crate::random::Random;
use crate::tally::{compare, Difference, Tally};
use reference::binary16::{narrow, widen, LARGEST};
use reference::bits::Refusal;
use reference::codec::{counting, fields, Fields, Value, FLOATS};
use reference::messages::{
    decode, encode, Allocation, BatteryInfo, GetSetRequest, GetSetResponse, HardwareVersion,
    KeyValue, LogMessage, Message, MessageType, NodeInfo, NodeStatus, OpcodeRequest,
    OpcodeResponse, Parameter, RawCommand, SoftwareVersion, MOST_COMMANDS, NUMERIC_CASES,
    VALUE_CASES,
};

const MOST_ROOM: usize = 600;

pub struct Payloads {
    side: Serialization,
    random: Random,
    /// What was read, and what was written, of each type.
    pub tallies: Vec<(Tally, Tally)>,
    out: Pair,
}

/// Bytes for the lists of one message.
pub struct Lists([Vec<u8>; 3]);

impl Payloads {
    pub fn new(side: Serialization, seed: u64) -> Payloads {
        let mut random = Random::new(seed);
        let tallies = MessageType::ALL.into_iter().map(|message_type| {
            let ((read, reading), (written, writing)) = numbers(message_type);
            let reading = Tally::new(read, reading, &[]);
            (reading, Tally::new(written, writing, &[]))
        });
        Payloads {
            side,
            tallies: tallies.collect(),
            out: Pair::new(MOST_ROOM, &mut random),
            random,
        }
    }

    /// Compares so many messages, each written and read.
    pub fn run(&mut self, calls: u64) -> Result<(), Difference> {
        for call in 0..calls {
            let index = self.random.index(MessageType::ALL.len());
            let lists = Lists::new(&mut self.random);
            let message = message(&mut self.random, MessageType::ALL[index], &lists);
            let payload = self.write(index, call, &message)?;
            self.read(index, call, &message, payload)?;
        }
        Ok(())
    }

    /// Writes by both sides; gives the bytes, if the message can be written at all.
    fn write(
        &mut self,
        index: usize,
        call: u64,
        message: &Message,
    ) -> Result<Option<Vec<u8>>, Difference> {
        let mut bytes = vec![0; MOST_ROOM];
        let length = encode(message, &mut bytes);
        let room = match (length, self.random.below(4)) {
            (Ok(length), 0) => length.saturating_sub(1),
            (Ok(length), 1) => self.random.index(length + 1),
            (Ok(length), 2) => length,
            _ => MOST_ROOM,
        };
        self.out.lend(room, false);
        let expected = word(encode(message, self.out.expected.content_mut()));
        let actual = word((self.side.encode)(message, self.out.actual.content_mut()));
        self.tallies[index].1.number((expected & 255) as u32);
        compare((expected, actual), &[("output", &self.out)], || {
            format!("encode call {call}, {message:x?}")
        })?;
        bytes.truncate(length.unwrap_or(0));
        Ok(length.is_ok().then_some(bytes))
    }

    /// Reads the bytes written, which give the message back, or others.
    fn read(
        &mut self,
        index: usize,
        call: u64,
        message: &Message,
        written: Option<Vec<u8>>,
    ) -> Result<(), Difference> {
        let whole = written.is_some() && self.random.coin();
        let mut payload = written.unwrap_or_else(|| self.random.bytes(40));
        if !whole {
            spoil(&mut self.random, &mut payload);
        }
        let message_type = MessageType::ALL[index];
        let expected = decode(message_type, &payload);
        let actual = (self.side.decode)(message_type, &payload);
        let number = expected
            .as_ref()
            .map_or_else(|refusal| refusal.number(), |_| 0);
        self.tallies[index].0.number(number);
        let read = actual.as_ref().map(fields);
        let read = read.map(counting);
        let back = !whole || read == Ok(coming_back(message));
        if expected == actual && back {
            return Ok(());
        }
        Err(Difference(format!(
            "decode call {call}, {message_type:?} {payload:x?}: expected {expected:x?}, got {actual:x?}"
        )))
    }
}

fn word(result: Result<usize, Refusal>) -> u64 {
    match result {
        Ok(length) => (length as u64) << 8,
        Err(refusal) => u64::from(refusal.number()),
    }
}

pub type Expected = (&'static str, &'static [u32]);

/// The calls of a type, and the numbers that they can answer.
pub fn numbers(message_type: MessageType) -> (Expected, Expected) {
    const READING: &[u32] = &[0, 15, 16];
    const WRITING: &[u32] = &[0, 8, 17];
    match message_type {
        MessageType::NodeStatus => (
            ("decode NodeStatus", READING),
            ("encode NodeStatus", &[0, 8]),
        ),
        MessageType::Allocation => (
            ("decode Allocation", READING),
            ("encode Allocation", WRITING),
        ),
        MessageType::KeyValue => (("decode KeyValue", READING), ("encode KeyValue", WRITING)),
        MessageType::LogMessage => (
            ("decode LogMessage", READING),
            ("encode LogMessage", WRITING),
        ),
        MessageType::NodeInfoRequest => (
            ("decode GetNodeInfo request", &[0, 16]),
            ("encode GetNodeInfo request", &[0]),
        ),
        MessageType::NodeInfoResponse => (
            ("decode GetNodeInfo response", &[0, 15, 16, 17]),
            ("encode GetNodeInfo response", WRITING),
        ),
        MessageType::BatteryInfo => (
            ("decode BatteryInfo", READING),
            ("encode BatteryInfo", WRITING),
        ),
        MessageType::RawCommand => (
            ("decode RawCommand", &[0, 16, 25]),
            ("encode RawCommand", WRITING),
        ),
        MessageType::GetSetRequest => (
            ("decode GetSet request", &[0, 15, 16, 27]),
            ("encode GetSet request", &[0, 8, 17, 27]),
        ),
        MessageType::GetSetResponse => (
            ("decode GetSet response", &[0, 15, 16, 27]),
            ("encode GetSet response", &[0, 8, 17, 27]),
        ),
        MessageType::OpcodeRequest => (
            ("decode ExecuteOpcode request", READING),
            ("encode ExecuteOpcode request", &[0, 8]),
        ),
        MessageType::OpcodeResponse => (
            ("decode ExecuteOpcode response", &[0, 15, 16, 25]),
            ("encode ExecuteOpcode response", &[0, 8]),
        ),
    }
}

impl Lists {
    pub fn new(random: &mut Random) -> Lists {
        let mut list = || {
            let length = random.pick(&[0, 1, 6, 16, 31, 58, 80, 90, 255, 256]);
            random.bytes(length)
        };
        Lists([list(), list(), list()])
    }

    /// A list of at most so many items, rarely one more.
    fn at_most(&self, random: &mut Random, index: usize, most: usize) -> &[u8] {
        let list = &self.0[index];
        let most = most + usize::from(random.once_in(5));
        &list[..list.len().min(most)]
    }
}

pub fn message<'a>(
    random: &mut Random,
    message_type: MessageType,
    lists: &'a Lists,
) -> Message<'a> {
    match message_type {
        MessageType::NodeStatus => Message::NodeStatus(status(random)),
        MessageType::Allocation => Message::Allocation(Allocation {
            node_id: number(random, 7),
            first_part: number(random, 1),
            unique_id: lists.at_most(random, 0, 16),
        }),
        MessageType::KeyValue => Message::KeyValue(KeyValue {
            value: random.next() as u32,
            key: lists.at_most(random, 0, 58),
        }),
        MessageType::LogMessage => Message::LogMessage(LogMessage {
            level: number(random, 3),
            source: lists.at_most(random, 0, 31),
            text: lists.at_most(random, 1, 90),
        }),
        MessageType::NodeInfoRequest => Message::NodeInfoRequest,
        MessageType::NodeInfoResponse => Message::NodeInfoResponse(info(random, lists)),
        MessageType::BatteryInfo => Message::BatteryInfo(battery(random, lists)),
        MessageType::RawCommand => Message::RawCommand(commands(random)),
        MessageType::GetSetRequest => Message::GetSetRequest(GetSetRequest {
            index: number(random, 13),
            value: parameter(random, lists, 0, VALUE_CASES),
            name: lists.at_most(random, 2, 92),
        }),
        MessageType::GetSetResponse => Message::GetSetResponse(GetSetResponse {
            value: parameter(random, lists, 0, VALUE_CASES),
            default: parameter(random, lists, 1, VALUE_CASES),
            highest: parameter(random, lists, 0, NUMERIC_CASES),
            lowest: parameter(random, lists, 1, NUMERIC_CASES),
            name: lists.at_most(random, 2, 92),
        }),
        MessageType::OpcodeRequest => Message::OpcodeRequest(OpcodeRequest {
            opcode: number(random, 8),
            argument: around(random, ARGUMENT),
        }),
        MessageType::OpcodeResponse => Message::OpcodeResponse(OpcodeResponse {
            argument: around(random, ARGUMENT),
            ok: number(random, 1),
        }),
    }
}

/// Numbers that 32 bits do not make.
pub const NO_PATTERNS: [i128; 6] = [-HUGE, i64::MIN as i128, -1, 1 << 32, 1 << 64, HUGE];

/// A signalling NaN is all ones in the exponent, and below it a zero and then some one.
pub const SIGNALLING: u32 = 0x7F80_0001;

/// A value with something for every case, often what would be refused; rarely of no case.
fn parameter<'a>(
    random: &mut Random,
    lists: &'a Lists,
    list: usize,
    cases: usize,
) -> Parameter<'a> {
    let tag = random.index(cases) as i128;
    let unknown = random.pick(&[-HUGE, -1, cases as i128, 7, 8, 1 << 64]);
    let bits = random.next() as u32;
    let nan = SIGNALLING | bits & 0x803F_FFFF;
    let pattern = i128::from(if random.once_in(8) { nan } else { bits });
    let no_pattern = random.pick(&NO_PATTERNS);
    Parameter {
        tag: if random.once_in(30) { unknown } else { tag },
        integer: around(random, INTEGER),
        real: if random.once_in(6) {
            no_pattern
        } else {
            pattern
        },
        boolean: number(random, 8),
        text: lists.at_most(random, list, 128),
    }
}

/// A number for a field of so many bits, often outside of it.
fn number(random: &mut Random, bits: u32) -> i128 {
    around(random, (0, (1 << bits) - 1))
}

fn status(random: &mut Random) -> NodeStatus {
    NodeStatus {
        uptime: number(random, 32),
        health: number(random, 2),
        mode: number(random, 3),
        sub_mode: number(random, 3),
        vendor_code: number(random, 16),
    }
}

fn info<'a>(random: &mut Random, lists: &'a Lists) -> NodeInfo<'a> {
    NodeInfo {
        status: status(random),
        software: SoftwareVersion {
            major: number(random, 8),
            minor: number(random, 8),
            flags: number(random, 8),
            commit: number(random, 32),
            image_crc: number(random, 64),
        },
        hardware: HardwareVersion {
            major: number(random, 8),
            minor: number(random, 8),
            unique_id: unique_id(random),
            certificate: lists.at_most(random, 1, 255),
        },
        name: match random.below(16) {
            0 => lists.at_most(random, 2, 80),
            1 => &[],
            _ => name(random),
        },
    }
}

fn battery<'a>(random: &mut Random, lists: &'a Lists) -> BatteryInfo<'a> {
    BatteryInfo {
        floats: [(); 7].map(|()| float(random)),
        status_flags: number(random, 11),
        health: number(random, 7),
        charge: number(random, 7),
        charge_deviation: number(random, 7),
        battery_id: number(random, 8),
        model_instance_id: number(random, 32),
        model_name: lists.at_most(random, 0, 31),
    }
}

/// Any number of commands, rarely one too many. The places past the count hold the like.
fn commands(random: &mut Random) -> RawCommand {
    let places = [(); MOST_COMMANDS].map(|()| around(random, COMMAND));
    let count = random.index(MOST_COMMANDS + 1);
    let count = if random.once_in(8) {
        MOST_COMMANDS + 1
    } else {
        count
    };
    RawCommand { count, places }
}

/// The bits of a binary32: one at an edge, one that a binary16 equals, one halfway to the next
/// or beside that, or any.
fn float(random: &mut Random) -> u32 {
    const EDGES: [u32; 8] = [
        0x8000_0000,
        0x3300_0000,
        0x387F_E000,
        0x477F_EFFF,
        0x477F_F000,
        0x7F80_0000,
        0xFF80_0000,
        0x7F80_0001,
    ];
    let half = random.next() as u16;
    match random.below(4) {
        0 => random.pick(&EDGES),
        1 => widen(half),
        2 if half & 0x7FFF < LARGEST => {
            let halfway = (u64::from(widen(half)) + u64::from(widen(half + 1))) / 2;
            (halfway + random.below(3)) as u32
        }
        _ => random.next() as u32,
    }
}

/// Sixteen bytes, rarely one fewer or more.
fn unique_id(random: &mut Random) -> &'static [u8] {
    const BYTES: &[u8] = b"a part of these bytes: 16 of them";
    let first = random.index(16);
    let length = match random.below(60) {
        0 => 15,
        1 => 17,
        _ => 16,
    };
    &BYTES[first..first + length]
}

/// A name of allowed letters, rarely too long by one.
fn name(random: &mut Random) -> &'static [u8] {
    const LETTERS: &[u8] = b"abcdefghijklmnopqrstuvwxyz0123456789.-_\
        zyxwvutsrqponmlkjihgfedcba9876543210_-.abc";
    let first = random.index(LETTERS.len());
    match random.below(4) {
        0 => &LETTERS[..random.between(80, 81) as usize],
        1 => &LETTERS[first..(first + 4).min(LETTERS.len())],
        _ => &LETTERS[first..],
    }
}

fn spoil(random: &mut Random, payload: &mut Vec<u8>) {
    match random.below(4) {
        0 => payload.truncate(random.index(payload.len() + 1)),
        1 => {
            let count = random.pick(&[1, 2, 60, 100]);
            payload.extend(std::iter::repeat_n(b'a', count));
        }
        2 if !payload.is_empty() => {
            let at = random.index(payload.len());
            payload[at] = random.byte();
        }
        _ => {
            let length = random.index(120);
            *payload = random.bytes(length);
        }
    }
}

/// The fields of a message as they come back: of unions only what the tag names, numbers clipped,
/// sub-mode zero, floats as their binary16.
fn coming_back(message: &Message) -> Fields {
    let mut back = counting(fields(message));
    change_numbers(&mut back, |number, (low, high)| number.clamp(low, high));
    for (name, value) in &mut back {
        match value {
            Value::Number(number) if name.ends_with("sub_mode") => *number = 0,
            Value::Number(bits) if FLOATS.contains(&name.as_str()) => {
                *bits = widen(narrow(*bits as u32)).into();
            }
            _ => (),
        }
    }
    back
}
