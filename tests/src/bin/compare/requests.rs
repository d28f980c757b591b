//! The codec program compared: requests as lines through a pipe, and its answers line by line.

use crate::clipping::{
    self, chosen, chosen_cases, clips, edges, is_float, range, refused, COMMAND, HUGE,
};
use crate::entry_points::{Serialization, REFERENCE};
use crate::parameters::{self, Asking, Known};
use crate::payloads::{message, numbers, Lists, NO_PATTERNS, SIGNALLING};
use crate::random::Random;
use crate::tally::{Difference, Tally};
use reference::binary16::{narrow, widen};
use reference::bits::Writer;
use reference::codec::{
    absent, answer, asked, case_of, counting, fields, hex, type_name, Asked, Fields, Value, FLOATS,
    LONGEST_LINE,
};
use reference::messages::{encode, Message, MessageType};
use std::io::{Read, Write};
use std::process::{Command, Stdio};

/// Who answers the lines.
pub enum Answerer {
    Program(String),
    Calls(Serialization),
}

pub struct Requests {
    answerer: Answerer,
    random: Random,
    /// What was read, and what was written, of each type.
    tallies: Vec<(Tally, Tally)>,
    ill_formed: Tally,
    cases: Tally,
}

/// A line, and what it asks: the type's index, and whether it encodes. Of some lines the answer's
/// number is known, with the case that they show.
struct Request {
    line: Vec<u8>,
    index: usize,
    encodes: bool,
    known: Option<(u32, &'static str)>,
}

/// The lines of one run of the program.
const BLOCK: u64 = 20_000;
/// The index of RawCommand.
const COMMANDS_TYPE: usize = 7;
/// The indexes of GetSet's request and response.
const GET_SET_TYPES: [usize; 2] = [8, 9];
const MODES: [&str; 8] = [
    "mode 0", "mode 1", "mode 2", "mode 3", "mode 4", "mode 5", "mode 6", "mode 7",
];
const LEVELS: [&str; 8] = [
    "level 0", "level 1", "level 2", "level 3", "level 4", "level 5", "level 6", "level 7",
];
const NAN: &str = "signalling NaN";
const REAL_NAN: &str = "signalling NaN as a parameter";
const ANY_SUB_MODE: &str = "sub-mode outside of 64 bits";
const FAR_BELOW: &str = "number of 30 digits below 0";
const FAR_ABOVE: &str = "number of 30 digits above 0";
/// What a float is on its way to 16 bits.
const KEPT: &str = "float that a binary16 equals";
const ROUNDED: &str = "float to be rounded";
const CLIPPED: &str = "finite float of 65520 or more";
const MINUS_ZERO: &str = "-0";
const INFINITE: &str = "infinity";
const NO_NUMBER: &str = "NaN on its way to 16 bits";
/// Lists by name, and the case that one is empty.
const EMPTY: [(&str, &str); 7] = [
    ("unique_id", "empty unique ID of an Allocation"),
    ("key", "empty key"),
    ("source", "empty source"),
    ("text", "empty text"),
    (
        "hardware_version.certificate_of_authenticity",
        "empty certificate",
    ),
    ("name", "empty name"),
    ("model_name", "empty model name"),
];
/// Commands on both sides of each edge.
const COMMANDS: [(i128, &str); 4] = [
    (-8193, "command -8193"),
    (-8192, "command -8192"),
    (8191, "command 8191"),
    (8192, "command 8192"),
];

impl Requests {
    pub fn new(answerer: Answerer, seed: u64) -> Requests {
        let tallies = MessageType::ALL.into_iter().map(|message_type| {
            let ((read, reading), (written, writing)) = numbers(message_type);
            (
                Tally::new(read, reading, &chosen_cases(message_type)),
                Tally::new(written, writing, &clipping::cases(message_type)),
            )
        });
        let empty = EMPTY.map(|(_, case)| case);
        let floats = [KEPT, ROUNDED, CLIPPED, MINUS_ZERO, INFINITE, NO_NUMBER];
        let commands = COMMANDS.map(|(_, case)| case);
        let others = [NAN, REAL_NAN, ANY_SUB_MODE, FAR_BELOW, FAR_ABOVE];
        let mut cases = [&MODES[..], &LEVELS, &empty, &floats, &commands, &others].concat();
        cases.extend(parameters::cases());
        Requests {
            answerer,
            random: Random::new(seed),
            tallies: tallies.collect(),
            ill_formed: Tally::new("lines not of the form", &[], &["?"]),
            cases: Tally::new("cases of lines", &[], &cases),
        }
    }

    pub fn into_tallies(self) -> Vec<Tally> {
        let pairs = self
            .tallies
            .into_iter()
            .flat_map(|(read, written)| [read, written]);
        pairs.chain([self.ill_formed, self.cases]).collect()
    }

    /// Compares about so many lines, every cut of one message of each type, the edges of each
    /// number, commands of every count and length, and the lines about parameters.
    pub fn run(&mut self, lines: u64) -> Result<(), Difference> {
        let mut block = self.every_cut();
        block.extend(every_edge());
        block.extend(self.every_command());
        block.extend(parameters::lines(&mut self.random).iter().map(known_line));
        for part in block.chunks(BLOCK as usize) {
            self.compare(part)?;
        }
        block.clear();
        for line in 0..lines {
            let request = self.request();
            block.push(request);
            if block.len() as u64 >= BLOCK || line + 1 == lines {
                self.compare(&block)?;
                block.clear();
            }
        }
        Ok(())
    }

    fn compare(&mut self, block: &[Request]) -> Result<(), Difference> {
        let expected: Vec<String> = block
            .iter()
            .map(|request| by_reference(&request.line))
            .collect();
        let lines: Vec<&[u8]> = block.iter().map(|request| &request.line[..]).collect();
        // about every other block ends without a line feed
        let actual = self.answerer.answers(&lines, self.random.coin())?;
        for (at, request) in block.iter().enumerate() {
            let got = actual.get(at).map_or("nothing", |got| got);
            if got != expected[at] {
                let line = String::from_utf8_lossy(&request.line);
                return Err(Difference(format!(
                    "line {line:?}: expected {:?}, got {got:?}",
                    expected[at]
                )));
            }
            self.count(request, &expected[at])?;
        }
        if actual.len() == block.len() {
            return Ok(());
        }
        Err(Difference(format!(
            "{} lines, {} answers",
            block.len(),
            actual.len()
        )))
    }

    /// Counts an answer. It must be the known one; of a message to be written, 27 and 17 must have a
    /// cause, and a cause give its number.
    fn count(&mut self, request: &Request, answer: &str) -> Result<(), Difference> {
        let number = answer.split(' ').next().and_then(|word| word.parse().ok());
        let (read, written) = &mut self.tallies[request.index];
        let Some(number) = number else {
            self.ill_formed.case("?");
            return Ok(());
        };
        if let Some((known, case)) = request.known {
            if number != known {
                let line = String::from_utf8_lossy(&request.line);
                return Err(Difference(format!("line {line:?}: {number}, not {known}")));
            }
            self.cases.case(case);
        }
        if !request.encodes {
            read.number(number);
            let seen = chosen(answer.split(' ').filter_map(number_word));
            seen.into_iter().for_each(|case| read.case(case));
            return Ok(());
        }
        written.number(number);
        let Some(Asked::Encode(message_type, _, given)) = asked(&request.line) else {
            return Ok(());
        };
        let fields = given.fields(message_type);
        let refused = refused(message_type, &fields);
        let refusing = [17, 27].contains(&number).then_some(number);
        if refusing != refused.as_ref().map(|(number, _)| *number) {
            let line = String::from_utf8_lossy(&request.line);
            return Err(Difference(format!("line {line:?}: {number}, {refused:?}")));
        }
        let causes = refused.into_iter().flat_map(|(_, causes)| causes);
        causes.for_each(|cause| written.case(cause));
        if number == 0 {
            let clips = clips(message_type, &fields);
            clips.into_iter().for_each(|clip| written.case(clip));
        }
        Ok(())
    }

    /// A message of each type before the parameters' with every list as long as it may be, cut at
    /// every length.
    fn every_cut(&mut self) -> Vec<Request> {
        const LENGTHS: [(usize, [u8; 2]); 8] = [
            (7, [0, 0]),
            (17, [0, 0]),
            (62, [0, 0]),
            (122, [0, 31]),
            (0, [0, 0]),
            (376, [40, 255]),
            (54, [0, 0]),
            (35, [0, 0]),
        ];
        let mut requests = Vec::new();
        for (index, (length, [at, count])) in LENGTHS.into_iter().enumerate() {
            let mut payload = vec![b'a'; length];
            if let Some(byte) = payload.get_mut(usize::from(at)) {
                *byte = count;
            }
            requests.extend((0..=length).map(|end| decode_line(index, &payload[..end])));
        }
        requests
    }

    /// RawCommand: every length from 0 to 40 bytes, every count from 0 to 21, each bit of padding
    /// set by itself, and numbers on both sides of each edge.
    fn every_command(&mut self) -> Vec<Request> {
        const ROUNDS: usize = 20;
        let mut requests = Vec::new();
        for length in 0..=40 {
            requests.push(decode_line(COMMANDS_TYPE, &vec![0; length]));
            requests.push(decode_line(COMMANDS_TYPE, &vec![255; length]));
            requests.push(decode_line(COMMANDS_TYPE, &self.random.bytes(length)));
        }
        for number in edges(COMMAND) {
            for at in 0..20 {
                let mut numbers = vec![0; 20];
                numbers[at] = number;
                requests.push(command_line(&numbers));
            }
        }
        for count in (0..=21).cycle().take(22 * ROUNDS) {
            let numbers: Vec<i128> = (0..count)
                .map(|_| i128::from(self.random.below(16_384)) - 8192)
                .collect();
            requests.push(command_line(&numbers));
            let mut payload = payload_of(&numbers);
            requests.push(decode_line(COMMANDS_TYPE, &payload));
            for bit in 0..8 * payload.len() - 14 * count {
                *payload.last_mut().expect("padding is in a byte") ^= 1 << bit;
                requests.push(decode_line(COMMANDS_TYPE, &payload));
                *payload.last_mut().expect("padding is in a byte") ^= 1 << bit;
            }
        }
        requests
    }

    /// Of any type, and more often of GetSet, which has the most cases.
    fn request(&mut self) -> Request {
        let index = match self.random.index(MessageType::ALL.len() + 4) {
            index if index < MessageType::ALL.len() => index,
            more => GET_SET_TYPES[more % 2],
        };
        let mut request = if self.random.coin() {
            self.encoding(index)
        } else {
            self.decoding(index)
        };
        if self.random.once_in(20) {
            break_form(&mut self.random, &mut request.line);
        }
        request
    }

    /// Bytes of a message as they are, or spoiled.
    fn decoding(&mut self, index: usize) -> Request {
        let mut payload = vec![0; 600];
        loop {
            let lists = Lists::new(&mut self.random);
            let message = self.message(index, &lists);
            if let Ok(length) = encode(&message, &mut payload) {
                payload.truncate(length);
                self.count_cases(&message);
                break;
            }
        }
        if self.random.coin() {
            spoil(&mut self.random, &mut payload);
        }
        decode_line(index, &payload)
    }

    /// Fields of a message in any order, some left out, some as other text for the same number;
    /// sometimes a float as a number that 32 bits do not make.
    fn encoding(&mut self, index: usize) -> Request {
        let lists = Lists::new(&mut self.random);
        let message = self.message(index, &lists);
        self.count_cases(&message);
        let room = self.room(&message);
        let mut words: Vec<String> = Vec::new();
        for (name, mut value) in fields(&message) {
            if self.random.once_in(20) {
                continue;
            }
            let often = if name == "value" { 10 } else { 60 };
            if is_float(&name) && self.random.once_in(often) {
                value = Value::Number(self.random.pick(&NO_PATTERNS));
            }
            let text = self.text(&value);
            words.insert(self.random.index(words.len() + 1), format!("{name}={text}"));
        }
        encode_line(index, &room, &words)
    }

    /// Any message of the type; of a KeyValue often one with a signalling NaN.
    fn message<'a>(&mut self, index: usize, lists: &'a Lists) -> Message<'a> {
        let mut message = message(&mut self.random, MessageType::ALL[index], lists);
        if let Message::KeyValue(one) = &mut message {
            if self.random.once_in(4) {
                one.value = SIGNALLING | one.value & 0x803F_FFFF;
            }
        }
        message
    }

    fn count_cases(&mut self, message: &Message) {
        for (name, value) in counting(fields(message)) {
            let name = name.rsplit("status.").next().unwrap_or("");
            match value {
                Value::Number(mode @ 0..=7) if name == "mode" => {
                    self.cases.case(MODES[mode as usize])
                }
                Value::Number(level @ 0..=7) if name == "level.value" => {
                    self.cases.case(LEVELS[level as usize])
                }
                Value::Number(bits)
                    if name == "value" && bits & 0x7FC0_0001 == SIGNALLING.into() =>
                {
                    self.cases.case(NAN);
                }
                Value::Number(bits)
                    if name.ends_with("real_value") && bits & !0x803F_FFFE == SIGNALLING.into() =>
                {
                    self.cases.case(REAL_NAN);
                }
                Value::Number(bits) if FLOATS.contains(&name) => {
                    self.cases.case(float_case(bits as u32));
                }
                Value::Number(number) if name == "sub_mode" && u64::try_from(number).is_err() => {
                    self.cases.case(ANY_SUB_MODE);
                }
                Value::Number(number) if number <= -HUGE => self.cases.case(FAR_BELOW),
                Value::Number(number) if number >= HUGE => self.cases.case(FAR_ABOVE),
                Value::Numbers(numbers) => {
                    let edges = COMMANDS.iter().filter(|(edge, _)| numbers.contains(edge));
                    edges.for_each(|(_, case)| self.cases.case(case));
                }
                Value::List(bytes) if bytes.is_empty() => {
                    let list = EMPTY.iter().find(|(list, _)| *list == name);
                    list.iter().for_each(|(_, case)| self.cases.case(case));
                }
                _ => (),
            }
        }
    }

    /// Near the message's length, or as much as can be.
    fn room(&mut self, message: &Message) -> String {
        let mut bytes = [0; 600];
        let length = encode(message, &mut bytes).unwrap_or(bytes.len());
        match self.random.below(6) {
            0 => length.saturating_sub(1).to_string(),
            1 => self.random.index(length + 1).to_string(),
            2 => length.to_string(),
            3 => format!("{length:021}"),
            4 => "18446744073709551616".to_string(),
            _ => "512".to_string(),
        }
    }

    /// A zero in several ways, and a number of 30 digits with more of them.
    fn text(&mut self, value: &Value) -> String {
        let mut text = value.text();
        match value {
            Value::Number(0) => text = self.random.pick(&["0", "-0", "000"]).to_string(),
            Value::Number(number) if number.abs() >= HUGE => {
                let more = self.random.index(30);
                text.extend(std::iter::repeat_n('9', more));
            }
            _ => (),
        }
        text
    }
}

fn float_case(bits: u32) -> &'static str {
    match bits & 0x7FFF_FFFF {
        0x7F80_0001.. => NO_NUMBER,
        0x7F80_0000 => INFINITE,
        0x477F_F000.. => CLIPPED,
        _ if bits == 0x8000_0000 => MINUS_ZERO,
        _ if widen(narrow(bits)) == bits => KEPT,
        _ => ROUNDED,
    }
}

fn decode_line(index: usize, payload: &[u8]) -> Request {
    let name = type_name(MessageType::ALL[index]);
    Request {
        line: format!("decode {name} {}", hex(payload)).into_bytes(),
        index,
        encodes: false,
        known: None,
    }
}

/// A line whose answer is known.
fn known_line(known: &Known) -> Request {
    let mut types = MessageType::ALL.into_iter();
    let index = types.position(|one| one == known.message_type);
    let index = index.expect("one of all");
    let request = match &known.asking {
        Asking::Reading(payload) => decode_line(index, payload),
        Asking::Writing(fields, room) => {
            fields_line(index, if *room { "512" } else { "0" }, fields)
        }
    };
    Request {
        known: Some((known.number, known.case)),
        ..request
    }
}

/// The name and the number of a word that is a field's.
fn number_word(word: &str) -> Option<(&str, i128)> {
    let (name, text) = word.split_once('=')?;
    Some((name, text.parse().ok()?))
}

fn encode_line(index: usize, room: &str, words: &[String]) -> Request {
    let name = type_name(MessageType::ALL[index]);
    let words: String = words.iter().map(|word| format!(" {word}")).collect();
    Request {
        line: format!("encode {name} {room}{words}").into_bytes(),
        index,
        encodes: true,
        known: None,
    }
}

/// A line with all of these fields, in their order.
fn fields_line(index: usize, room: &str, fields: &Fields) -> Request {
    let word = |(name, value): &(String, Value)| format!("{name}={}", value.text());
    let words: Vec<String> = fields.iter().map(word).collect();
    encode_line(index, room, &words)
}

/// A line that asks for these commands.
fn command_line(numbers: &[i128]) -> Request {
    let cmd = ("cmd".to_string(), Value::Numbers(numbers.to_vec()));
    fields_line(COMMANDS_TYPE, "512", &vec![cmd])
}

/// Each number of each type at its edges, in a message that is else allowed and whose tag names it.
fn every_edge() -> Vec<Request> {
    let mut requests = Vec::new();
    for (index, message_type) in MessageType::ALL.into_iter().enumerate() {
        let mut plain = absent(message_type);
        for (name, value) in &mut plain {
            match name.as_str() {
                "hardware_version.unique_id" => *value = Value::List(vec![7; 16]),
                "name" => *value = Value::List(b"a".to_vec()),
                _ => (),
            }
        }
        for at in 0..plain.len() {
            let (name, Value::Number(_)) = &plain[at] else {
                continue;
            };
            for number in range(name).map_or(vec![], |range| edges(range).to_vec()) {
                let mut given = plain.clone();
                given[at].1 = Value::Number(number);
                if let Some((union, tag)) = case_of(name) {
                    let union = format!("{union}.tag");
                    let field = given.iter_mut().find(|(name, _)| *name == union);
                    field.expect("a tag").1 = Value::Number(tag as i128);
                }
                requests.push(fields_line(index, "512", &given));
            }
        }
    }
    requests
}

/// Commands as they are written, also more than there may be.
fn payload_of(numbers: &[i128]) -> Vec<u8> {
    let mut writer = Writer::default();
    for &number in numbers {
        writer.signed(number, 14);
    }
    writer.into_bytes()
}

fn by_reference(line: &[u8]) -> String {
    Answerer::calls(
        &REFERENCE.serialization.expect("the reference has messages"),
        line,
    )
}

fn spoil(random: &mut Random, payload: &mut Vec<u8>) {
    match random.below(8) {
        0 => payload.clear(),
        1 => payload.truncate(random.index(payload.len() + 1)),
        2 => payload.truncate(random.index(payload.len().min(4) + 1)),
        3 => payload.push(random.byte()),
        4 => payload.extend(std::iter::repeat_n(b'a', 100)),
        5 if !payload.is_empty() => *payload.last_mut().expect("not empty") = b'A',
        6 if !payload.is_empty() => {
            let at = random.index(payload.len());
            payload[at] = random.byte();
        }
        _ => {
            let length = random.index(120);
            *payload = random.bytes(length);
        }
    }
}

/// Makes a line that is most likely not of the form.
fn break_form(random: &mut Random, line: &mut Vec<u8>) {
    let at = random.index(line.len());
    let byte = random.pick(b" \r=-f09?\0\xFF");
    match random.below(8) {
        0 => line[at] = byte,
        1 => line.insert(at, byte),
        2 => line.truncate(at),
        3 => line.push(byte),
        4 => line.make_ascii_lowercase(),
        5 => line.extend(b" mode=1 mode=1"),
        6 => line.extend(std::iter::repeat_n(b'A', LONGEST_LINE - line.len())),
        _ => line.extend(std::iter::repeat_n(b'A', LONGEST_LINE + 2 - line.len())),
    }
}

impl Answerer {
    fn calls(calls: &Serialization, line: &[u8]) -> String {
        answer(calls.decode, calls.encode, line)
    }

    fn answers(&self, lines: &[&[u8]], closed: bool) -> Result<Vec<String>, Difference> {
        match self {
            Answerer::Calls(calls) => Ok(lines
                .iter()
                .map(|line| Answerer::calls(calls, line))
                .collect()),
            Answerer::Program(path) => {
                let mut input = lines.join(&b'\n');
                if closed || input.ends_with(b"\n") {
                    input.push(b'\n');
                }
                let failed = |error| Difference(format!("{path}: {error}"));
                let output = through(path, input).map_err(failed)?;
                let text = String::from_utf8_lossy(&output);
                Ok(text.lines().map(str::to_string).collect())
            }
        }
    }
}

/// What the program writes for that input.
fn through(path: &str, input: Vec<u8>) -> std::io::Result<Vec<u8>> {
    let mut child = Command::new(path)
        .stdin(Stdio::piped())
        .stdout(Stdio::piped())
        .spawn()?;
    let mut stdin = child.stdin.take().expect("piped");
    let writer = std::thread::spawn(move || stdin.write_all(&input));
    let mut output = Vec::new();
    child
        .stdout
        .take()
        .expect("piped")
        .read_to_end(&mut output)?;
    child.wait()?;
    writer.join().expect("the writer ends")?;
    Ok(output)
}
