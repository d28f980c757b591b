//! The standard messages by the public names of their fields. The library reads a payload to a row of numbers; this module has a table that says what each
//! number is called and how it is told.

use crate::frame::{Stream, TransferType};
use crate::library;
use crate::text;

/// The names of an enumeration's or of a set of flags' values.
pub type Names = &'static [(u64, &'static str)];

#[derive(Clone, Copy)]
enum Kind {
    Unsigned,
    Signed,
    /// Told with so many hexadecimal digits.
    Hex(usize),
    Boolean,
    /// The 32 bits of a binary32.
    Float,
    Named(Names),
    Flags(Names),
    /// Place and length in the payload; told as digits.
    Bytes,
    /// The same; told as text.
    Text,
    /// A count and 20 numbers.
    Commands,
    /// Tag, number, and the place and length of a text.
    Value,
    /// Tag and number.
    NumericValue,
}

struct Field {
    name: &'static str,
    kind: Kind,
}

const fn field(name: &'static str, kind: Kind) -> Field {
    Field { name, kind }
}

/// The most words of a row.
const WORDS: usize = 21;
const COMMANDS: usize = 20;

/// The fields of a parameter's value in `codec`; a NumericValue has the first three.
const CASES: [(&str, Given); 5] = [
    (".tag", Given::Number),
    (".integer_value", Given::Number),
    (".real_value", Given::Float),
    (".boolean_value", Given::Number),
    (".string_value", Given::Text),
];

pub struct Type {
    /// As `codec` has it.
    pub name: &'static str,
    pub full_name: &'static str,
    pub transfer_type: TransferType,
    pub type_id: u16,
    reader: library::Reader,
    fields: &'static [Field],
}

/// How the program `codec` is given a field, and tells it.
#[derive(Clone, Copy, PartialEq, Eq, Debug)]
pub enum Given {
    Number,
    /// Its 32 bits as a number.
    Float,
    /// Pairs of digits.
    Bytes,
    /// The same; they stand for letters.
    Text,
    /// With commas.
    Numbers,
}

/// What a field holds.
pub enum Value<'a> {
    Unsigned(u64),
    Signed(i64),
    Hex(u64, usize),
    Boolean(bool),
    Float(f32),
    Named(&'static str),
    Flags(u64, Names),
    Bytes(&'a [u8]),
    Text(&'a [u8]),
    Commands(&'a [u64]),
    /// A union's case that has no field.
    Empty,
}

/// A message that was read.
pub struct Message<'a> {
    pub of: &'static Type,
    row: [u64; WORDS],
    payload: &'a [u8],
}

impl Type {
    pub fn of_stream(stream: &Stream) -> Option<&'static Type> {
        let is_this = |one: &&Type| {
            one.type_id == stream.type_id && one.transfer_type == stream.transfer_type
        };
        TYPES.iter().find(is_this)
    }

    /// The fields as `codec` names them: of a union the tag, and each case that has a field.
    pub fn given(&self) -> Vec<(String, Given)> {
        let mut all = Vec::new();
        for Field { name, kind } in self.fields {
            let cases: &[(&str, Given)] = match kind {
                Kind::Float => &[("", Given::Float)],
                Kind::Bytes => &[("", Given::Bytes)],
                Kind::Text => &[("", Given::Text)],
                Kind::Commands => &[("", Given::Numbers)],
                Kind::Value => &CASES,
                Kind::NumericValue => &CASES[..3],
                _ => &[("", Given::Number)],
            };
            all.extend(
                cases
                    .iter()
                    .map(|(case, given)| (format!("{name}{case}"), *given)),
            );
        }
        all
    }

    /// The message, or the number of the refusal.
    pub fn read<'a>(&'static self, payload: &'a [u8]) -> Result<Message<'a>, u32> {
        let mut row = [0; WORDS];
        match library::read(self.reader, payload, &mut row) {
            0 => Ok(Message {
                of: self,
                row,
                payload,
            }),
            refusal => Err(refusal),
        }
    }
}

impl Message<'_> {
    /// Each field in order: its name; of a union its case too, of any other an empty text; and its value.
    pub fn each(&self, mut told: impl FnMut(&'static str, &'static str, Value)) {
        let mut row = self.row.as_slice();
        for field in self.of.fields {
            let (words, rest) = row.split_at(field.kind.words());
            row = rest;
            let (case, value) = self.value(field.kind, words);
            told(field.name, case, value);
        }
    }

    fn value<'a>(&'a self, kind: Kind, words: &'a [u64]) -> (&'static str, Value<'a>) {
        let first = words[0];
        let value = match kind {
            Kind::Unsigned => Value::Unsigned(first),
            Kind::Signed => Value::Signed(first as i64),
            Kind::Hex(digits) => Value::Hex(first, digits),
            Kind::Boolean => Value::Boolean(first != 0),
            Kind::Float => Value::Float(float(first)),
            Kind::Named(names) => named(first, names),
            Kind::Flags(names) => Value::Flags(first, names),
            Kind::Bytes => Value::Bytes(self.part(words)),
            Kind::Text => Value::Text(self.part(words)),
            Kind::Commands => Value::Commands(&words[1..][..COMMANDS.min(first as usize)]),
            Kind::Value | Kind::NumericValue => return self.case(words),
        };
        ("", value)
    }

    /// A list's bytes, by place and length.
    fn part(&self, words: &[u64]) -> &[u8] {
        let (at, length) = (words[0] as usize, words[1] as usize);
        self.payload.get(at..at + length).unwrap_or_default()
    }

    /// The case of a parameter's value (RULES 10.11).
    fn case(&self, words: &[u64]) -> (&'static str, Value<'_>) {
        match words[0] {
            0 => ("empty", Value::Empty),
            1 => ("integer_value", Value::Signed(words[1] as i64)),
            2 => ("real_value", Value::Float(float(words[1]))),
            3 => ("boolean_value", Value::Unsigned(words[1])),
            _ => ("string_value", Value::Text(self.part(&words[2..]))),
        }
    }

    /// The number in a field that has one word.
    pub fn number(&self, name: &str) -> u64 {
        self.row[self.place(name)]
    }

    pub fn float(&self, name: &str) -> f32 {
        float(self.number(name))
    }

    pub fn bytes(&self, name: &str) -> &[u8] {
        self.part(&self.row[self.place(name)..])
    }

    fn place(&self, name: &str) -> usize {
        let before = self.of.fields.iter().take_while(|field| field.name != name);
        before.map(|field| field.kind.words()).sum()
    }
}

impl Kind {
    fn words(self) -> usize {
        match self {
            Kind::Bytes | Kind::Text | Kind::NumericValue => 2,
            Kind::Value => 4,
            Kind::Commands => 1 + COMMANDS,
            _ => 1,
        }
    }
}

fn float(word: u64) -> f32 {
    f32::from_bits(word as u32)
}

fn named(number: u64, names: Names) -> Value<'static> {
    let name = names.iter().find(|(known, _)| *known == number);
    name.map_or(Value::Unsigned(number), |(_, name)| Value::Named(name))
}

/// The name of a number, or its digits.
pub fn told(number: u64, names: Names) -> Vec<u8> {
    let mut out = Vec::new();
    named(number, names).told(&mut out);
    out
}

impl Value<'_> {
    /// For people.
    pub fn told(&self, out: &mut Vec<u8>) {
        match *self {
            Value::Hex(number, digits) => put!(out, "0x{number:0digits$X}"),
            Value::Float(value) => text::float(out, value),
            Value::Named(name) => out.extend_from_slice(name.as_bytes()),
            Value::Flags(0, _) => out.push(b'0'),
            Value::Flags(bits, names) => {
                flags(out, bits, names, b'|', |out, flag| {
                    out.extend_from_slice(flag.as_bytes())
                });
            }
            Value::Text(bytes) => text::quoted(out, bytes),
            Value::Bytes(bytes) => text::hex(out, bytes),
            Value::Commands([]) => out.push(b'-'),
            Value::Commands(words) => commands(out, words),
            Value::Empty => (),
            _ => self.json(out),
        }
    }

    pub fn json(&self, out: &mut Vec<u8>) {
        match *self {
            Value::Unsigned(number) => text::number(out, number),
            Value::Signed(number) => text::signed(out, number),
            Value::Hex(..) | Value::Named(_) => {
                out.push(b'"');
                self.told(out);
                out.push(b'"');
            }
            Value::Boolean(is) => put!(out, "{is}"),
            Value::Float(value) if value.is_finite() => text::float(out, value),
            Value::Float(value) => put!(out, "\"{value:?}\""),
            Value::Flags(bits, names) => {
                out.push(b'[');
                flags(out, bits, names, b',', |out, flag| {
                    text::json(out, flag.as_bytes())
                });
                out.push(b']');
            }
            Value::Text(bytes) => text::json(out, bytes),
            Value::Bytes(bytes) => {
                out.push(b'"');
                text::hex_digits(out, bytes);
                out.push(b'"');
            }
            Value::Commands(words) => {
                out.push(b'[');
                commands(out, words);
                out.push(b']');
            }
            Value::Empty => out.extend_from_slice(b"{}"),
        }
    }
}

/// The names of the bits that are set, and those without a name as one number.
fn flags(out: &mut Vec<u8>, bits: u64, names: Names, between: u8, put: fn(&mut Vec<u8>, &str)) {
    let (mut rest, mut first) = (bits, true);
    let mut one = |out: &mut Vec<u8>, flag: &str| {
        if !std::mem::take(&mut first) {
            out.push(between);
        }
        put(out, flag);
    };
    for (bit, name) in names {
        if rest & bit != 0 {
            rest -= bit;
            one(out, name);
        }
    }
    if rest != 0 {
        one(out, &format!("0x{rest:X}"));
    }
}

fn commands(out: &mut Vec<u8>, words: &[u64]) {
    for (place, word) in words.iter().enumerate() {
        if place > 0 {
            out.push(b',');
        }
        text::signed(out, *word as i64);
    }
}

pub const HEALTH: Names = &[(0, "OK"), (1, "WARNING"), (2, "ERROR"), (3, "CRITICAL")];
pub const MODE: Names = &[
    (0, "OPERATIONAL"),
    (1, "INITIALIZATION"),
    (2, "MAINTENANCE"),
    (3, "SOFTWARE_UPDATE"),
    (7, "OFFLINE"),
];
pub const LEVEL: Names = &[(0, "DEBUG"), (1, "INFO"), (2, "WARNING"), (3, "ERROR")];
const OPTIONAL_FIELD_FLAG: Names = &[(1, "VCS_COMMIT"), (2, "IMAGE_CRC")];
const OPCODE: Names = &[(0, "SAVE"), (1, "ERASE")];
const STATE_OF_HEALTH: Names = &[(127, "UNKNOWN")];
const STATUS_FLAG: Names = &[
    (1, "IN_USE"),
    (2, "CHARGING"),
    (4, "CHARGED"),
    (8, "TEMP_HOT"),
    (16, "TEMP_COLD"),
    (32, "OVERLOAD"),
    (64, "BAD_BATTERY"),
    (128, "NEED_SERVICE"),
    (256, "BMS_ERROR"),
    (512, "RESERVED_A"),
    (1024, "RESERVED_B"),
];

/// RULES 10, in its order. The fields are those of the entries' rows.
pub static TYPES: &[Type] = &[
    Type {
        name: "NodeStatus",
        full_name: "uavcan.protocol.NodeStatus",
        transfer_type: TransferType::Message,
        type_id: 341,
        reader: library::tecelume_decode_node_status_fields,
        fields: &[
            field("uptime_sec", Kind::Unsigned),
            field("health", Kind::Named(HEALTH)),
            field("mode", Kind::Named(MODE)),
            field("sub_mode", Kind::Unsigned),
            field("vendor_specific_status_code", Kind::Unsigned),
        ],
    },
    Type {
        name: "GetNodeInfo.Request",
        full_name: "uavcan.protocol.GetNodeInfo",
        transfer_type: TransferType::Request,
        type_id: 1,
        reader: library::tecelume_decode_get_node_info_request_fields,
        fields: &[],
    },
    Type {
        name: "GetNodeInfo.Response",
        full_name: "uavcan.protocol.GetNodeInfo",
        transfer_type: TransferType::Response,
        type_id: 1,
        reader: library::tecelume_decode_get_node_info_response_fields,
        fields: &[
            field("status.uptime_sec", Kind::Unsigned),
            field("status.health", Kind::Named(HEALTH)),
            field("status.mode", Kind::Named(MODE)),
            field("status.sub_mode", Kind::Unsigned),
            field("status.vendor_specific_status_code", Kind::Unsigned),
            field("software_version.major", Kind::Unsigned),
            field("software_version.minor", Kind::Unsigned),
            field(
                "software_version.optional_field_flags",
                Kind::Flags(OPTIONAL_FIELD_FLAG),
            ),
            field("software_version.vcs_commit", Kind::Hex(8)),
            field("software_version.image_crc", Kind::Hex(16)),
            field("hardware_version.major", Kind::Unsigned),
            field("hardware_version.minor", Kind::Unsigned),
            field("hardware_version.unique_id", Kind::Bytes),
            field("hardware_version.certificate_of_authenticity", Kind::Bytes),
            field("name", Kind::Text),
        ],
    },
    Type {
        name: "Allocation",
        full_name: "uavcan.protocol.dynamic_node_id.Allocation",
        transfer_type: TransferType::Message,
        type_id: 1,
        reader: library::tecelume_decode_allocation_fields,
        fields: &[
            field("node_id", Kind::Unsigned),
            field("first_part_of_unique_id", Kind::Boolean),
            field("unique_id", Kind::Bytes),
        ],
    },
    Type {
        name: "KeyValue",
        full_name: "uavcan.protocol.debug.KeyValue",
        transfer_type: TransferType::Message,
        type_id: 16370,
        reader: library::tecelume_decode_key_value_fields,
        fields: &[field("value", Kind::Float), field("key", Kind::Text)],
    },
    Type {
        name: "LogMessage",
        full_name: "uavcan.protocol.debug.LogMessage",
        transfer_type: TransferType::Message,
        type_id: 16383,
        reader: library::tecelume_decode_log_message_fields,
        fields: &[
            field("level.value", Kind::Named(LEVEL)),
            field("source", Kind::Text),
            field("text", Kind::Text),
        ],
    },
    Type {
        name: "BatteryInfo",
        full_name: "uavcan.equipment.power.BatteryInfo",
        transfer_type: TransferType::Message,
        type_id: 1092,
        reader: library::tecelume_decode_battery_info_fields,
        fields: &[
            field("temperature", Kind::Float),
            field("voltage", Kind::Float),
            field("current", Kind::Float),
            field("average_power_10sec", Kind::Float),
            field("remaining_capacity_wh", Kind::Float),
            field("full_charge_capacity_wh", Kind::Float),
            field("hours_to_full_charge", Kind::Float),
            field("status_flags", Kind::Flags(STATUS_FLAG)),
            field("state_of_health_pct", Kind::Named(STATE_OF_HEALTH)),
            field("state_of_charge_pct", Kind::Unsigned),
            field("state_of_charge_pct_stdev", Kind::Unsigned),
            field("battery_id", Kind::Unsigned),
            field("model_instance_id", Kind::Unsigned),
            field("model_name", Kind::Text),
        ],
    },
    Type {
        name: "RawCommand",
        full_name: "uavcan.equipment.esc.RawCommand",
        transfer_type: TransferType::Message,
        type_id: 1030,
        reader: library::tecelume_decode_raw_command_fields,
        fields: &[field("cmd", Kind::Commands)],
    },
    Type {
        name: "GetSet.Request",
        full_name: "uavcan.protocol.param.GetSet",
        transfer_type: TransferType::Request,
        type_id: 11,
        reader: library::tecelume_decode_get_set_request_fields,
        fields: &[
            field("index", Kind::Unsigned),
            field("value", Kind::Value),
            field("name", Kind::Text),
        ],
    },
    Type {
        name: "GetSet.Response",
        full_name: "uavcan.protocol.param.GetSet",
        transfer_type: TransferType::Response,
        type_id: 11,
        reader: library::tecelume_decode_get_set_response_fields,
        fields: &[
            field("value", Kind::Value),
            field("default_value", Kind::Value),
            field("max_value", Kind::NumericValue),
            field("min_value", Kind::NumericValue),
            field("name", Kind::Text),
        ],
    },
    Type {
        name: "ExecuteOpcode.Request",
        full_name: "uavcan.protocol.param.ExecuteOpcode",
        transfer_type: TransferType::Request,
        type_id: 10,
        reader: library::tecelume_decode_execute_opcode_request_fields,
        fields: &[
            field("opcode", Kind::Named(OPCODE)),
            field("argument", Kind::Signed),
        ],
    },
    Type {
        name: "ExecuteOpcode.Response",
        full_name: "uavcan.protocol.param.ExecuteOpcode",
        transfer_type: TransferType::Response,
        type_id: 10,
        reader: library::tecelume_decode_execute_opcode_response_fields,
        fields: &[field("argument", Kind::Signed), field("ok", Kind::Boolean)],
    },
];

#[cfg(test)]
mod tests {
    use super::*;
    use crate::test::Random;
    use reference::codec::{self, Value as Told};
    use reference::messages::{decode, MessageType};
    use std::collections::BTreeMap;

    fn of_reference(name: &str) -> MessageType {
        let mut all = MessageType::ALL.into_iter();
        all.find(|one| codec::type_name(*one) == name)
            .expect("the second implementation has it")
    }

    /// A value of this program as the second implementation has it.
    fn told_as(value: &Value) -> Told {
        match *value {
            Value::Unsigned(number) | Value::Hex(number, _) | Value::Flags(number, _) => {
                Told::Number(number.into())
            }
            Value::Signed(number) => Told::Number(number.into()),
            Value::Boolean(is) => Told::Number(is.into()),
            Value::Float(value) => Told::Number(value.to_bits().into()),
            Value::Bytes(bytes) | Value::Text(bytes) => Told::List(bytes.to_vec()),
            Value::Commands(words) => {
                Told::Numbers(words.iter().map(|word| (*word as i64).into()).collect())
            }
            Value::Named(_) | Value::Empty => unreachable!("these are looked at apart"),
        }
    }

    /// Payloads that are often of the type: random bytes of lengths around its own, with texts of letters.
    fn payload(of: &Type, random: &mut Random) -> Vec<u8> {
        let longest = match of.name {
            "NodeStatus" | "ExecuteOpcode.Request" | "ExecuteOpcode.Response" => 8,
            "GetNodeInfo.Request" => 1,
            "Allocation" => 18,
            "GetNodeInfo.Response" => 120,
            _ => 64,
        };
        let mut bytes = random.bytes(longest as usize);
        if random.below(2) == 0 {
            bytes.iter_mut().for_each(|byte| *byte = b'a' + *byte % 26);
        }
        if of.name == "GetNodeInfo.Response" {
            bytes[40] = random.below(20) as u8;
        }
        if of.name.starts_with("GetSet") {
            bytes.iter_mut().step_by(2).for_each(|byte| *byte %= 8);
        }
        if of.name == "ExecuteOpcode.Response" && random.below(2) == 0 {
            bytes[6] &= 0x80;
        }
        bytes.truncate(random.below(longest + 1) as usize);
        bytes
    }

    /// Names, order and values of all fields, and every refusal, are those of the second implementation.
    #[test]
    fn as_the_reference_reads() {
        let mut random = Random(3);
        let mut seen: BTreeMap<(&str, u32), u64> = BTreeMap::new();
        for of in TYPES {
            for _ in 0..20_000 {
                let payload = payload(of, &mut random);
                let expected = decode(of_reference(of.name), &payload);
                let read = of.read(&payload);
                let number = read.as_ref().map_or_else(|number| *number, |_| 0);
                *seen.entry((of.name, number)).or_default() += 1;
                match (read, expected) {
                    (Err(number), Err(refusal)) => {
                        assert_eq!(number, refusal.number(), "{payload:02X?}")
                    }
                    (Ok(message), Ok(expected)) => same(&message, codec::fields(&expected)),
                    _ => panic!(
                        "{} {payload:02X?}: one reads it, the other does not",
                        of.name
                    ),
                }
            }
            assert!(
                seen.get(&(of.name, 0)).is_some_and(|times| *times > 300),
                "{}: {seen:?}",
                of.name
            );
        }
        for (name, number) in [
            ("NodeStatus", 15),
            ("NodeStatus", 16),
            ("GetNodeInfo.Response", 17),
            ("RawCommand", 25),
            ("GetSet.Response", 27),
        ] {
            assert!(
                seen.get(&(name, number)).is_some_and(|times| *times > 100),
                "{name} {number}: {seen:?}"
            );
        }
    }

    fn same(message: &Message, expected: codec::Fields) {
        let mut expected = codec::counting(expected).into_iter();
        let mut next = || expected.next().expect("as many fields");
        message.each(|name, case, value| {
            let mut whole = name.to_string();
            // of a union the reference tells the tag, and then the field of its case
            if !case.is_empty() {
                let tag = codec::CASES.iter().position(|known| *known == case);
                let number = Told::Number(tag.expect("a case") as i128);
                assert_eq!(next(), (format!("{name}.tag"), number));
                whole = format!("{name}.{case}");
            }
            match value {
                Value::Empty => (),
                Value::Named(of_number) => {
                    let (field, number) = next();
                    assert_eq!(field, name);
                    assert_eq!(name_in(message.of, name, number), of_number.as_bytes());
                }
                value => assert_eq!(next(), (whole, told_as(&value))),
            }
        });
        assert_eq!(expected.next(), None);
    }

    /// What a field's number is called.
    fn name_in(of: &Type, name: &str, number: Told) -> Vec<u8> {
        let field = of.fields.iter().find(|field| field.name == name);
        match (field.expect("a field").kind, number) {
            (Kind::Named(names), Told::Number(number)) => told(number as u64, names),
            _ => panic!("{name} is no number with a name"),
        }
    }

    /// The names of values are the constants of the public definitions, under their prefix, and no others.
    #[test]
    fn names_of_values() {
        let folder = concat!(env!("CARGO_MANIFEST_DIR"), "/../tests/definitions/uavcan/");
        for (file, prefix, names) in [
            ("protocol/341.NodeStatus", "HEALTH_", HEALTH),
            ("protocol/341.NodeStatus", "MODE_", MODE),
            ("protocol/debug/LogLevel", "", LEVEL),
            (
                "protocol/SoftwareVersion",
                "OPTIONAL_FIELD_FLAG_",
                OPTIONAL_FIELD_FLAG,
            ),
            ("protocol/param/10.ExecuteOpcode", "OPCODE_", OPCODE),
            (
                "equipment/power/1092.BatteryInfo",
                "STATE_OF_HEALTH_",
                STATE_OF_HEALTH,
            ),
            (
                "equipment/power/1092.BatteryInfo",
                "STATUS_FLAG_",
                STATUS_FLAG,
            ),
        ] {
            let text = std::fs::read_to_string(format!("{folder}{file}.uavcan")).unwrap();
            let constants: Vec<(u64, String)> = text
                .lines()
                .filter_map(|line| {
                    let mut words = line.split_whitespace().skip(1);
                    let name = words.next()?.strip_prefix(prefix)?;
                    (words.next()? == "=").then_some(())?;
                    Some((words.next()?.parse().ok()?, name.to_string()))
                })
                .collect();
            let here: Vec<(u64, String)> = names
                .iter()
                .map(|(number, name)| (*number, name.to_string()))
                .collect();
            assert_eq!(here, constants, "{file} {prefix}");
        }
    }

    /// `codec` has the same fields: those that the second implementation writes of a message of which none is given.
    #[test]
    fn fields_of_codec() {
        for of in TYPES {
            let here: Vec<(String, bool)> = of
                .given()
                .into_iter()
                .map(|(name, given)| (name, matches!(given, Given::Bytes | Given::Text)))
                .collect();
            let there: Vec<(String, bool)> = codec::absent(of_reference(of.name))
                .into_iter()
                .map(|(name, value)| (name, matches!(value, Told::List(_))))
                .collect();
            assert_eq!(here, there, "{}", of.name);
        }
    }

    #[test]
    fn values() {
        let told = |value: Value| {
            let mut out = Vec::new();
            value.told(&mut out);
            out.push(b' ');
            value.json(&mut out);
            String::from_utf8(out).unwrap()
        };
        assert_eq!(told(Value::Hex(255, 8)), "0x000000FF \"0x000000FF\"");
        assert_eq!(told(Value::Float(f32::NAN)), "NaN \"NaN\"");
        assert_eq!(told(Value::Float(-0.5)), "-0.5 -0.5");
        assert_eq!(told(named(0, HEALTH)), "OK \"OK\"");
        assert_eq!(told(named(5, MODE)), "5 5");
        assert_eq!(told(Value::Flags(0, STATUS_FLAG)), "0 []");
        assert_eq!(
            told(Value::Flags(9, STATUS_FLAG)),
            "IN_USE|TEMP_HOT [\"IN_USE\",\"TEMP_HOT\"]"
        );
        assert_eq!(
            told(Value::Flags(0x41, OPTIONAL_FIELD_FLAG)),
            "VCS_COMMIT|0x40 [\"VCS_COMMIT\",\"0x40\"]"
        );
        assert_eq!(told(Value::Bytes(&[])), "- \"\"");
        assert_eq!(told(Value::Bytes(&[1, 0xAB])), "01AB \"01AB\"");
        assert_eq!(told(Value::Text(b"a\"<")), "\"a\\\"<\" \"a\\\"\\u003C\"");
        assert_eq!(told(Value::Commands(&[])), "- []");
        assert_eq!(told(Value::Commands(&[1, u64::MAX])), "1,-1 [1,-1]");
        assert_eq!(told(Value::Boolean(true)), "true true");
    }
}
