//! The codec program: a request a line, an answer a line, by the form that README.md gives.

use crate::bits::Refusal;
use crate::messages::{
    Allocation, BatteryInfo, GetSetRequest, GetSetResponse, HardwareVersion, KeyValue, LogMessage,
    Message, MessageType, NodeInfo, NodeStatus, OpcodeRequest, OpcodeResponse, Parameter,
    RawCommand, SoftwareVersion, MOST_COMMANDS, NUMERIC_CASES, VALUE_CASES,
};
use crate::receive::LONGEST_PAYLOAD;
use std::collections::BTreeMap;
use std::fmt::Write;

pub type Decode = for<'a> fn(MessageType, &'a [u8]) -> Result<Message<'a>, Refusal>;
pub type Encode = fn(&Message, &mut [u8]) -> Result<usize, Refusal>;

/// The bytes of a line, without its line feed.
pub const LONGEST_LINE: usize = 8192;
/// The length of the output buffer, whatever a line asks for.
const MOST_ROOM: usize = LONGEST_PAYLOAD;

/// The floats of a BatteryInfo in order.
pub const FLOATS: [&str; 7] = [
    "temperature",
    "voltage",
    "current",
    "average_power_10sec",
    "remaining_capacity_wh",
    "full_charge_capacity_wh",
    "hours_to_full_charge",
];

/// What a field is given as, or comes out as. A number beyond 128 bits is the nearest that is not,
/// which is as far outside of every field.
#[derive(Clone, Debug, PartialEq, Eq)]
pub enum Value {
    Number(i128),
    List(Vec<u8>),
    Numbers(Vec<i128>),
}

pub type Fields = Vec<(String, Value)>;

/// What a line asks for: to read a payload, or to write fields into so much room.
pub enum Asked {
    Decode(MessageType, Vec<u8>),
    Encode(MessageType, usize, Given),
}

/// The answer to a line, with messages read and written by these calls.
pub fn answer(decode: Decode, encode: Encode, line: &[u8]) -> String {
    match asked(line) {
        None => "?".to_string(),
        Some(Asked::Decode(message_type, payload)) => decoded(decode(message_type, &payload)),
        Some(Asked::Encode(message_type, room, given)) => {
            let mut out = [0; MOST_ROOM];
            let result = match given.message(message_type) {
                Some(message) => encode(&message, &mut out[..room]),
                None => Err(Refusal::NotAllowed),
            };
            match result {
                Ok(length) => format!("0 {}", hex(&out[..length])),
                Err(refusal) => refusal.number().to_string(),
            }
        }
    }
}

/// None for a line that is not of the form.
pub fn asked(line: &[u8]) -> Option<Asked> {
    if line.len() > LONGEST_LINE {
        return None;
    }
    let mut words = std::str::from_utf8(line).ok()?.split(' ');
    let verb = words.next()?;
    let message_type = type_named(words.next()?)?;
    let third = words.next()?;
    match verb {
        "decode" => {
            let payload = list(third)?;
            let last = words.next().is_none();
            last.then_some(Asked::Decode(message_type, payload))
        }
        "encode" => {
            let room = digits(third)?.min(MOST_ROOM as i128) as usize;
            let given = Given::read(message_type, words)?;
            Some(Asked::Encode(message_type, room, given))
        }
        _ => None,
    }
}

pub fn type_name(message_type: MessageType) -> &'static str {
    match message_type {
        MessageType::NodeStatus => "NodeStatus",
        MessageType::Allocation => "Allocation",
        MessageType::KeyValue => "KeyValue",
        MessageType::LogMessage => "LogMessage",
        MessageType::NodeInfoRequest => "GetNodeInfo.Request",
        MessageType::NodeInfoResponse => "GetNodeInfo.Response",
        MessageType::BatteryInfo => "BatteryInfo",
        MessageType::RawCommand => "RawCommand",
        MessageType::GetSetRequest => "GetSet.Request",
        MessageType::GetSetResponse => "GetSet.Response",
        MessageType::OpcodeRequest => "ExecuteOpcode.Request",
        MessageType::OpcodeResponse => "ExecuteOpcode.Response",
    }
}

fn type_named(name: &str) -> Option<MessageType> {
    let mut all = MessageType::ALL.into_iter();
    all.find(|&message_type| type_name(message_type) == name)
}

fn decoded(result: Result<Message, Refusal>) -> String {
    let message = match result {
        Ok(message) => message,
        Err(refusal) => return refusal.number().to_string(),
    };
    let mut text = "0".to_string();
    for (name, value) in counting(fields(&message)) {
        write!(text, " {name}={}", value.text()).expect("a String takes all");
    }
    text
}

impl Value {
    /// As a line has it.
    pub fn text(&self) -> String {
        match self {
            Value::Number(number) => number.to_string(),
            Value::List(bytes) => hex(bytes),
            Value::Numbers(numbers) if numbers.is_empty() => "-".to_string(),
            Value::Numbers(numbers) => {
                let texts: Vec<String> = numbers.iter().map(i128::to_string).collect();
                texts.join(",")
            }
        }
    }
}

pub fn hex(bytes: &[u8]) -> String {
    if bytes.is_empty() {
        return "-".to_string();
    }
    bytes.iter().map(|byte| format!("{byte:02X}")).collect()
}

/// The cases of a parameter's value by tag. The first has no field.
pub const CASES: [&str; VALUE_CASES] = [
    "empty",
    "integer_value",
    "real_value",
    "boolean_value",
    "string_value",
];

/// The name of the union that a field is a case of, and that case's tag.
pub fn case_of(name: &str) -> Option<(&str, usize)> {
    let (union, case) = name.rsplit_once('.')?;
    let tag = CASES.iter().position(|&known| known == case)?;
    Some((union, tag))
}

/// Without the fields of cases that their union's tag does not name.
pub fn counting(fields: Fields) -> Fields {
    let tags: Fields = fields
        .iter()
        .filter(|(name, _)| name.ends_with(".tag"))
        .cloned()
        .collect();
    let counts = |name: &str| {
        case_of(name).is_none_or(|(union, tag)| {
            tags.contains(&(format!("{union}.tag"), Value::Number(tag as i128)))
        })
    };
    fields
        .into_iter()
        .filter(|(name, _)| counts(name))
        .collect()
}

/// The fields of a message in order, every case of a union among them.
pub fn fields(message: &Message) -> Fields {
    let named = |name: &str, value: Value| (name.to_string(), value);
    let number = |name: &str, value: i128| named(name, Value::Number(value));
    let list = |name: &str, bytes: &[u8]| named(name, Value::List(bytes.to_vec()));
    match message {
        Message::NodeStatus(one) => status_fields(one, ""),
        Message::Allocation(one) => vec![
            number("node_id", one.node_id),
            number("first_part_of_unique_id", one.first_part),
            list("unique_id", one.unique_id),
        ],
        Message::KeyValue(one) => vec![number("value", one.value.into()), list("key", one.key)],
        Message::LogMessage(one) => vec![
            number("level.value", one.level),
            list("source", one.source),
            list("text", one.text),
        ],
        Message::NodeInfoRequest => vec![],
        Message::NodeInfoResponse(one) => {
            let (software, hardware) = (&one.software, &one.hardware);
            let mut all = status_fields(&one.status, "status.");
            all.extend([
                number("software_version.major", software.major),
                number("software_version.minor", software.minor),
                number("software_version.optional_field_flags", software.flags),
                number("software_version.vcs_commit", software.commit),
                number("software_version.image_crc", software.image_crc),
                number("hardware_version.major", hardware.major),
                number("hardware_version.minor", hardware.minor),
                list("hardware_version.unique_id", hardware.unique_id),
                list(
                    "hardware_version.certificate_of_authenticity",
                    hardware.certificate,
                ),
                list("name", one.name),
            ]);
            all
        }
        Message::BatteryInfo(one) => {
            let floats = FLOATS.iter().zip(one.floats);
            let floats = floats.map(|(name, bits)| number(name, bits.into()));
            floats
                .chain([
                    number("status_flags", one.status_flags),
                    number("state_of_health_pct", one.health),
                    number("state_of_charge_pct", one.charge),
                    number("state_of_charge_pct_stdev", one.charge_deviation),
                    number("battery_id", one.battery_id),
                    number("model_instance_id", one.model_instance_id),
                    list("model_name", one.model_name),
                ])
                .collect()
        }
        Message::RawCommand(one) => {
            let numbers = (0..one.count).map(|at| one.places.get(at).copied().unwrap_or(0));
            vec![named("cmd", Value::Numbers(numbers.collect()))]
        }
        Message::GetSetRequest(one) => {
            let value = parameter_fields(&one.value, "value", VALUE_CASES);
            let first = [number("index", one.index)].into_iter();
            first.chain(value).chain([list("name", one.name)]).collect()
        }
        Message::GetSetResponse(one) => {
            let mut all = parameter_fields(&one.value, "value", VALUE_CASES);
            all.extend(parameter_fields(&one.default, "default_value", VALUE_CASES));
            all.extend(parameter_fields(&one.highest, "max_value", NUMERIC_CASES));
            all.extend(parameter_fields(&one.lowest, "min_value", NUMERIC_CASES));
            all.push(list("name", one.name));
            all
        }
        Message::OpcodeRequest(one) => {
            vec![
                number("opcode", one.opcode),
                number("argument", one.argument),
            ]
        }
        Message::OpcodeResponse(one) => {
            vec![number("argument", one.argument), number("ok", one.ok)]
        }
    }
}

/// The tag, and a field for each of the first so many cases that has one.
fn parameter_fields(value: &Parameter, union: &str, cases: usize) -> Fields {
    let values = [
        Value::Number(value.tag),
        Value::Number(value.integer),
        Value::Number(value.real),
        Value::Number(value.boolean),
        Value::List(value.text.to_vec()),
    ];
    let names = ["tag"].into_iter().chain(CASES.into_iter().skip(1));
    names
        .map(|name| format!("{union}.{name}"))
        .zip(values)
        .take(cases)
        .collect()
}

fn status_fields(status: &NodeStatus, prefix: &str) -> Fields {
    let number = |name: &str, value| (format!("{prefix}{name}"), Value::Number(value));
    vec![
        number("uptime_sec", status.uptime),
        number("health", status.health),
        number("mode", status.mode),
        number("sub_mode", status.sub_mode),
        number("vendor_specific_status_code", status.vendor_code),
    ]
}

/// The fields of a message of which a line names none.
pub fn absent(message_type: MessageType) -> Fields {
    let none = Given::new(vec![]);
    fields(&none.message(message_type).expect("zeros are floats"))
}

/// The fields that a line gives, by name.
pub struct Given(BTreeMap<String, Value>);

impl Given {
    pub fn new(fields: Fields) -> Given {
        Given(fields.into_iter().collect())
    }

    fn read<'a>(message_type: MessageType, words: impl Iterator<Item = &'a str>) -> Option<Given> {
        let all = absent(message_type);
        let mut given = BTreeMap::new();
        for word in words {
            let (name, text) = word.split_once('=')?;
            let (_, kind) = all.iter().find(|(known, _)| known == name)?;
            let value = match kind {
                Value::Number(_) => Value::Number(number(text)?),
                Value::List(_) => Value::List(list(text)?),
                Value::Numbers(_) => Value::Numbers(numbers(text)?),
            };
            if given.insert(name.to_string(), value).is_some() {
                return None;
            }
        }
        Some(Given(given))
    }

    /// All fields of the message.
    pub fn fields(&self, message_type: MessageType) -> Fields {
        let mut all = absent(message_type);
        for (name, value) in &mut all {
            if let Some(given) = self.0.get(name) {
                *value = given.clone();
            }
        }
        all
    }

    fn number(&self, name: &str) -> i128 {
        match self.0.get(name) {
            Some(Value::Number(number)) => *number,
            _ => 0,
        }
    }

    /// A float is given as its 32 bits. None for a number that 32 bits do not make.
    fn float(&self, name: &str) -> Option<u32> {
        self.number(name).try_into().ok()
    }

    fn list(&self, name: &str) -> &[u8] {
        match self.0.get(name) {
            Some(Value::List(bytes)) => bytes,
            _ => &[],
        }
    }

    /// None if a float is given as a number that 32 bits do not make.
    pub fn message(&self, message_type: MessageType) -> Option<Message<'_>> {
        Some(match message_type {
            MessageType::NodeStatus => Message::NodeStatus(self.status("")),
            MessageType::Allocation => Message::Allocation(Allocation {
                node_id: self.number("node_id"),
                first_part: self.number("first_part_of_unique_id"),
                unique_id: self.list("unique_id"),
            }),
            MessageType::KeyValue => Message::KeyValue(KeyValue {
                value: self.float("value")?,
                key: self.list("key"),
            }),
            MessageType::LogMessage => Message::LogMessage(LogMessage {
                level: self.number("level.value"),
                source: self.list("source"),
                text: self.list("text"),
            }),
            MessageType::NodeInfoRequest => Message::NodeInfoRequest,
            MessageType::NodeInfoResponse => Message::NodeInfoResponse(NodeInfo {
                status: self.status("status."),
                software: SoftwareVersion {
                    major: self.number("software_version.major"),
                    minor: self.number("software_version.minor"),
                    flags: self.number("software_version.optional_field_flags"),
                    commit: self.number("software_version.vcs_commit"),
                    image_crc: self.number("software_version.image_crc"),
                },
                hardware: HardwareVersion {
                    major: self.number("hardware_version.major"),
                    minor: self.number("hardware_version.minor"),
                    unique_id: self.list("hardware_version.unique_id"),
                    certificate: self.list("hardware_version.certificate_of_authenticity"),
                },
                name: self.list("name"),
            }),
            MessageType::BatteryInfo => Message::BatteryInfo(BatteryInfo {
                floats: self.floats()?,
                status_flags: self.number("status_flags"),
                health: self.number("state_of_health_pct"),
                charge: self.number("state_of_charge_pct"),
                charge_deviation: self.number("state_of_charge_pct_stdev"),
                battery_id: self.number("battery_id"),
                model_instance_id: self.number("model_instance_id"),
                model_name: self.list("model_name"),
            }),
            MessageType::RawCommand => Message::RawCommand(self.commands()),
            MessageType::GetSetRequest => Message::GetSetRequest(GetSetRequest {
                index: self.number("index"),
                value: self.parameter("value"),
                name: self.list("name"),
            }),
            MessageType::GetSetResponse => Message::GetSetResponse(GetSetResponse {
                value: self.parameter("value"),
                default: self.parameter("default_value"),
                highest: self.parameter("max_value"),
                lowest: self.parameter("min_value"),
                name: self.list("name"),
            }),
            MessageType::OpcodeRequest => Message::OpcodeRequest(OpcodeRequest {
                opcode: self.number("opcode"),
                argument: self.number("argument"),
            }),
            MessageType::OpcodeResponse => Message::OpcodeResponse(OpcodeResponse {
                argument: self.number("argument"),
                ok: self.number("ok"),
            }),
        })
    }

    fn parameter(&self, union: &str) -> Parameter<'_> {
        let number = |name: &str| self.number(&format!("{union}.{name}"));
        Parameter {
            tag: number("tag"),
            integer: number("integer_value"),
            real: number("real_value"),
            boolean: number("boolean_value"),
            text: self.list(&format!("{union}.string_value")),
        }
    }

    /// As many as are given, and those that have a place.
    fn commands(&self) -> RawCommand {
        let numbers: &[i128] = match self.0.get("cmd") {
            Some(Value::Numbers(numbers)) => numbers,
            _ => &[],
        };
        let mut places = [0; MOST_COMMANDS];
        for (place, &number) in places.iter_mut().zip(numbers) {
            *place = number;
        }
        RawCommand {
            count: numbers.len(),
            places,
        }
    }

    fn floats(&self) -> Option<[u32; 7]> {
        let mut floats = [0; 7];
        for (float, name) in floats.iter_mut().zip(FLOATS) {
            *float = self.float(name)?;
        }
        Some(floats)
    }

    fn status(&self, prefix: &str) -> NodeStatus {
        let number = |name: &str| self.number(&format!("{prefix}{name}"));
        NodeStatus {
            uptime: number("uptime_sec"),
            health: number("health"),
            mode: number("mode"),
            sub_mode: number("sub_mode"),
            vendor_code: number("vendor_specific_status_code"),
        }
    }
}

/// Decimal digits, of any length.
fn digits(text: &str) -> Option<i128> {
    let well_formed = !text.is_empty() && text.bytes().all(|byte| byte.is_ascii_digit());
    well_formed.then(|| text.parse().unwrap_or(i128::MAX))
}

/// Decimal digits, perhaps after a minus sign.
fn number(text: &str) -> Option<i128> {
    match text.strip_prefix('-') {
        Some(size) => digits(size).map(|size| -size),
        None => digits(text),
    }
}

/// Numbers with a comma between two, or a dash for none.
fn numbers(text: &str) -> Option<Vec<i128>> {
    if text == "-" {
        return Some(Vec::new());
    }
    text.split(',').map(number).collect()
}

fn list(text: &str) -> Option<Vec<u8>> {
    if text == "-" {
        return Some(Vec::new());
    }
    let digit = |byte: &u8| matches!(byte, b'0'..=b'9' | b'A'..=b'F');
    if text.is_empty() || text.len() % 2 == 1 || !text.as_bytes().iter().all(digit) {
        return None;
    }
    let pairs = (0..text.len()).step_by(2);
    pairs
        .map(|at| u8::from_str_radix(&text[at..at + 2], 16).ok())
        .collect()
}
