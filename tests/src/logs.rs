//! The log program (RULES 12) as a function from its input to its output.

use crate::definitions as types;
use crate::frame::TransferType;
use crate::receive::{Answer, Frame, Receiver, Subscription, Transfer, LONGEST_PAYLOAD};

/// A log has one bus.
const LOG_INTERFACE: u32 = 0;
const HEADING: &str = "time kind type from to prio id len payload\n";

pub fn run(input: &[u8]) -> Vec<u8> {
    let mut receiver = receiver();
    let (mut lines, mut transfers) = (0, 0);
    let mut output = String::from(HEADING);
    for line in input.split_inclusive(|&byte| byte == b'\n') {
        lines += 1;
        let Some((time, frame)) = line.strip_suffix(b"\n").and_then(Line::parse) else {
            output.push_str("? - 18\n");
            continue;
        };
        let answer = receiver.receive(&frame.as_frame(), LONGEST_PAYLOAD);
        transfers += u32::from(matches!(answer, Answer::HandedOut(_)));
        output.push_str(&format!("{time} {}\n", text(&answer)));
    }
    output.push_str(&format!("end {lines} {transfers}\n"));
    output.into_bytes()
}

/// Own ID 1, subscribed to every type.
fn receiver() -> Receiver {
    Receiver::setup(1, subscriptions()).expect("types that differ")
}

/// The types of RULES 10.1.
pub fn subscriptions() -> Vec<Subscription> {
    let one = |service, type_id, signature| Subscription {
        service,
        type_id,
        signature,
    };
    vec![
        one(false, types::NODE_STATUS, types::node_status()),
        one(false, types::ALLOCATION, types::allocation()),
        one(false, types::KEY_VALUE, types::key_value()),
        one(false, types::LOG_MESSAGE, types::log_message()),
        one(true, types::GET_NODE_INFO, types::get_node_info()),
        one(false, types::BATTERY_INFO, types::battery_info()),
        one(false, types::RAW_COMMAND, types::raw_command()),
        one(true, types::GET_SET, types::get_set()),
        one(true, types::EXECUTE_OPCODE, types::execute_opcode()),
    ]
}

fn text(answer: &Answer) -> String {
    match answer {
        Answer::HandedOut(transfer) => transfer_text(transfer),
        Answer::Taken => "+ 0".to_string(),
        refusal => format!("- {}", refusal.number()),
    }
}

fn transfer_text(transfer: &Transfer) -> String {
    let stream = &transfer.stream;
    let kind = match stream.transfer_type {
        TransferType::Message => 'M',
        TransferType::Request => 'Q',
        TransferType::Response => 'R',
    };
    let payload: String = match transfer.payload.as_slice() {
        [] => "-".to_string(),
        bytes => bytes.iter().map(|byte| format!("{byte:02X}")).collect(),
    };
    format!(
        "{kind} {} {} {} {} {} {} {payload}",
        stream.type_id,
        stream.source,
        stream.destination,
        transfer.priority,
        transfer.transfer_id,
        transfer.payload.len(),
    )
}

/// A frame as a line holds it.
#[derive(Clone, Debug, PartialEq)]
pub struct Line {
    pub id: u32,
    pub data: Vec<u8>,
    pub time: u64,
}

impl Line {
    /// The time as written, and the frame; none if the line, without its line feed, is not well
    /// formed.
    pub fn parse(line: &[u8]) -> Option<(&str, Line)> {
        let mut words = std::str::from_utf8(line).ok()?.split(' ');
        let written = words.next()?;
        let time = parse_time(written)?;
        let id = parse_hex(words.next()?, 8)?;
        let data: Vec<u8> = words
            .map(|word| parse_hex(word, 2).map(|byte| byte as u8))
            .collect::<Option<_>>()?;
        (data.len() <= 8).then_some((written, Line { id, data, time }))
    }

    /// The line with its line feed (RULES 12.2).
    pub fn text(&self) -> Vec<u8> {
        let (seconds, thousandths) = (self.time / 1_000_000, self.time / 1_000 % 1_000);
        let data: String = self
            .data
            .iter()
            .map(|byte| format!(" {byte:02X}"))
            .collect();
        format!("{seconds}.{thousandths:03} {:08X}{data}\n", self.id).into_bytes()
    }

    fn as_frame(&self) -> Frame<'_> {
        Frame {
            id: self.id,
            data: &self.data,
            interface: LOG_INTERFACE,
            time: self.time,
        }
    }
}

/// Seconds and milliseconds as microseconds.
fn parse_time(word: &str) -> Option<u64> {
    let (seconds, thousandths) = word.split_once('.')?;
    let digits = |text: &str| text.bytes().all(|byte| byte.is_ascii_digit());
    let needless_zero = seconds.len() > 1 && seconds.starts_with('0');
    if !(1..=9).contains(&seconds.len()) || needless_zero || thousandths.len() != 3 {
        return None;
    }
    if !digits(seconds) || !digits(thousandths) {
        return None;
    }
    let seconds: u64 = seconds.parse().ok()?;
    let thousandths: u64 = thousandths.parse().ok()?;
    Some(seconds * 1_000_000 + thousandths * 1_000)
}

/// So many capital hexadecimal digits.
fn parse_hex(word: &str, digits: usize) -> Option<u32> {
    let capital = |byte: u8| matches!(byte, b'0'..=b'9' | b'A'..=b'F');
    if word.len() != digits || !word.bytes().all(capital) {
        return None;
    }
    u32::from_str_radix(word, 16).ok()
}
