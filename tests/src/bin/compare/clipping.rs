//! What writing makes of the fields of a message (RULES 9.7, 9.14 and 10), by their names and in
//! tables of its own, so that it can be counted and asserted beside the reference: which numbers
//! clip, to which end, which case of a union counts, and what is refused by 27 and by 17.

use crate::random::Random;
use reference::codec::{case_of, counting, Fields, Value, CASES, FLOATS};
use reference::messages::MessageType;

/// The numbers of messages that were written.
const LOW: &str = "number clipped to its lowest";
const HIGH: &str = "number clipped to its highest";
const LOWEST: &str = "number at its lowest";
const HIGHEST: &str = "number at its highest";
/// Why others were refused.
const LONG: &str = "17 for a list too long";
const LENGTH: &str = "17 for a unique ID of other than 16 bytes";
const NAME: &str = "17 for a name that is none";
const FLOAT: &str = "17 for a float beyond 32 bits";
/// What was seen of tags and of cases that they do not name.
const TAG: &str = "27 for a tag";
const TAG_FIRST: &str = "27 beside what answers 17";
const NOT_LOOKED_AT: &str = "written beside another case that would answer 17";

/// A number of 30 digits.
pub const HUGE: i128 = 10i128.pow(29);
/// The signed numbers: commands of a RawCommand, integers and arguments of parameters.
pub const COMMAND: (i128, i128) = (-8192, 8191);
pub const INTEGER: (i128, i128) = (-(1 << 63), (1 << 63) - 1);
pub const ARGUMENT: (i128, i128) = (-(1 << 47), (1 << 47) - 1);

/// Numbers by name, without the part before that NodeStatus has in the response.
const BITS: [(&str, u32); 24] = [
    ("uptime_sec", 32),
    ("health", 2),
    ("mode", 3),
    ("vendor_specific_status_code", 16),
    ("node_id", 7),
    ("first_part_of_unique_id", 1),
    ("level.value", 3),
    ("software_version.major", 8),
    ("software_version.minor", 8),
    ("software_version.optional_field_flags", 8),
    ("software_version.vcs_commit", 32),
    ("software_version.image_crc", 64),
    ("hardware_version.major", 8),
    ("hardware_version.minor", 8),
    ("status_flags", 11),
    ("state_of_health_pct", 7),
    ("state_of_charge_pct", 7),
    ("state_of_charge_pct_stdev", 7),
    ("battery_id", 8),
    ("model_instance_id", 32),
    ("index", 13),
    ("boolean_value", 8),
    ("opcode", 8),
    ("ok", 1),
];

const UNIQUE_ID: &str = "hardware_version.unique_id";
/// The most items of each list; of a parameter's name more than of a node's.
const LONGEST_PARAMETER: usize = 92;
const MOST: [(&str, usize); 10] = [
    ("unique_id", 16),
    ("key", 58),
    ("source", 31),
    ("text", 90),
    (UNIQUE_ID, 16),
    ("hardware_version.certificate_of_authenticity", 255),
    ("name", 80),
    ("model_name", 31),
    ("cmd", 20),
    ("string_value", 128),
];

/// How many cases each union has, by its tag.
const UNIONS: [(&str, usize); 4] = [
    ("value.tag", 5),
    ("default_value.tag", 5),
    ("max_value.tag", 3),
    ("min_value.tag", 3),
];
/// Each case of each union, in that order.
const CHOSEN: [&[&str]; 4] = [
    &[
        "value empty",
        "value integer",
        "value real",
        "value boolean",
        "value text",
    ],
    &[
        "default empty",
        "default integer",
        "default real",
        "default boolean",
        "default text",
    ],
    &["maximum empty", "maximum integer", "maximum real"],
    &["minimum empty", "minimum integer", "minimum real"],
];

/// The lowest and the highest number of a field. None for one that does not clip.
pub fn range(name: &str) -> Option<(i128, i128)> {
    let name = field_name(name);
    match name {
        "cmd" => return Some(COMMAND),
        "integer_value" => return Some(INTEGER),
        "argument" => return Some(ARGUMENT),
        _ => (),
    }
    let (_, bits) = BITS.iter().find(|(field, _)| *field == name)?;
    Some((0, (1 << bits) - 1))
}

/// Without the union that a field is a case of, or the part that NodeStatus has in the response.
fn field_name(name: &str) -> &str {
    match case_of(name) {
        Some((_, tag)) => CASES[tag],
        None => name.strip_prefix("status.").unwrap_or(name),
    }
}

fn has_union(message_type: MessageType) -> bool {
    matches!(
        message_type,
        MessageType::GetSetRequest | MessageType::GetSetResponse
    )
}

pub fn most(message_type: MessageType, name: &str) -> usize {
    if name == "name" && has_union(message_type) {
        return LONGEST_PARAMETER;
    }
    let name = field_name(name);
    let (_, most) = MOST.iter().find(|(list, _)| *list == name).expect("a list");
    *most
}

/// How many cases a union has, by the name of its tag.
pub fn cases_of(tag: &str) -> Option<usize> {
    let (_, cases) = UNIONS.iter().find(|(union, _)| *union == tag)?;
    Some(*cases)
}

pub fn is_float(name: &str) -> bool {
    ["value", "real_value"].contains(&field_name(name)) || FLOATS.contains(&name)
}

/// Numbers at and around both ends of a range, of 64 bits with and without a sign, and far outside.
pub fn edges((low, high): (i128, i128)) -> [i128; 11] {
    const SIGNED: i128 = 1 << 63;
    const UNSIGNED: i128 = 1 << 64;
    [
        low - 1,
        low,
        high,
        high + 1,
        -SIGNED,
        SIGNED - 1,
        SIGNED,
        UNSIGNED - 1,
        UNSIGNED,
        -HUGE,
        HUGE,
    ]
}

/// A number of a range, one of its ends, or one outside: beside it, at any distance, or of 30 digits.
pub fn around(random: &mut Random, (low, high): (i128, i128)) -> i128 {
    let distance = 1 + i128::from(random.next() >> random.below(64));
    match random.below(14) {
        0 => low,
        1 => high,
        2 => low - 1,
        3 => high + 1,
        4 => low - distance,
        5 => high + distance,
        6 => -HUGE - distance,
        7 => HUGE + distance,
        _ => low + i128::from(random.next()) % (high - low + 1),
    }
}

/// Changes every number that clips, by its range.
pub fn change_numbers(fields: &mut Fields, change: impl Fn(i128, (i128, i128)) -> i128) {
    for (name, value) in fields {
        let Some(range) = range(name) else {
            continue;
        };
        match value {
            Value::Number(number) => *number = change(*number, range),
            Value::Numbers(numbers) => {
                numbers
                    .iter_mut()
                    .for_each(|number| *number = change(*number, range));
            }
            Value::List(_) => (),
        }
    }
}

/// What has to be seen of a type's messages in writing.
pub fn cases(message_type: MessageType) -> Vec<&'static str> {
    let numbers = [LOW, HIGH, LOWEST, HIGHEST];
    let refused: &[&str] = match message_type {
        MessageType::NodeStatus | MessageType::OpcodeRequest | MessageType::OpcodeResponse => &[],
        MessageType::GetSetRequest | MessageType::GetSetResponse => {
            &[LONG, FLOAT, TAG, TAG_FIRST, NOT_LOOKED_AT]
        }
        MessageType::KeyValue => return vec![LONG, FLOAT],
        MessageType::NodeInfoRequest => return vec![],
        MessageType::NodeInfoResponse => &[LONG, LENGTH, NAME],
        MessageType::BatteryInfo => &[LONG, FLOAT],
        MessageType::Allocation | MessageType::LogMessage | MessageType::RawCommand => &[LONG],
    };
    [&numbers, refused, &chosen_cases(message_type)].concat()
}

/// The cases of a type's unions.
pub fn chosen_cases(message_type: MessageType) -> Vec<&'static str> {
    match message_type {
        MessageType::GetSetRequest => CHOSEN[0].to_vec(),
        MessageType::GetSetResponse => CHOSEN.concat(),
        _ => vec![],
    }
}

/// The cases that tags name.
pub fn chosen<'a>(tags: impl Iterator<Item = (&'a str, i128)>) -> Vec<&'static str> {
    let case = |(name, tag): (&str, i128)| {
        let union = UNIONS.iter().position(|(union, _)| *union == name)?;
        CHOSEN[union].get(usize::try_from(tag).ok()?).copied()
    };
    tags.filter_map(case).collect()
}

/// The numbers of fields, by their names.
fn single_numbers(fields: &Fields) -> impl Iterator<Item = (&str, i128)> {
    fields.iter().filter_map(|(name, value)| match value {
        Value::Number(number) => Some((name.as_str(), *number)),
        _ => None,
    })
}

/// Whether some tag is one that no case has, which answers 27.
fn has_unknown_tag(fields: &Fields) -> bool {
    single_numbers(fields).any(|(name, number)| {
        cases_of(name).is_some_and(|cases| !(0..cases as i128).contains(&number))
    })
}

/// What becomes of the numbers of a message that is written, and which cases are.
pub fn clips(message_type: MessageType, fields: &Fields) -> Vec<&'static str> {
    let mut seen = chosen(single_numbers(fields));
    if causes(message_type, fields.clone()).next().is_some() {
        seen.push(NOT_LOOKED_AT);
    }
    for (name, value) in counting(fields.clone()) {
        let (Some((low, high)), Some(numbers)) = (range(&name), numbers(&value)) else {
            continue;
        };
        seen.extend(numbers.iter().filter_map(|&number| match number {
            _ if number < low => Some(LOW),
            _ if number > high => Some(HIGH),
            _ if number == low => Some(LOWEST),
            _ if number == high => Some(HIGHEST),
            _ => None,
        }));
    }
    seen
}

fn numbers(value: &Value) -> Option<&[i128]> {
    match value {
        Value::Number(number) => Some(std::slice::from_ref(number)),
        Value::Numbers(numbers) => Some(numbers),
        Value::List(_) => None,
    }
}

/// The number that refuses a message with these fields, all of its type's, for what they are, and
/// why.
pub fn refused(message_type: MessageType, fields: &Fields) -> Option<(u32, Vec<&'static str>)> {
    let mut causes: Vec<&str> = causes(message_type, counting(fields.clone())).collect();
    if has_unknown_tag(fields) {
        causes = if causes.is_empty() {
            vec![TAG]
        } else {
            vec![TAG, TAG_FIRST]
        };
        return Some((27, causes));
    }
    (!causes.is_empty()).then_some((17, causes))
}

/// What each of these fields is refused for by 17.
fn causes(message_type: MessageType, fields: Fields) -> impl Iterator<Item = &'static str> {
    let causes = fields.into_iter();
    causes.filter_map(move |(name, value)| cause(message_type, &name, &value))
}

fn cause(message_type: MessageType, name: &str, value: &Value) -> Option<&'static str> {
    let pattern = 0..1 << 32;
    match value {
        Value::Number(number) => (is_float(name) && !pattern.contains(number)).then_some(FLOAT),
        Value::Numbers(numbers) => (numbers.len() > most(message_type, name)).then_some(LONG),
        Value::List(bytes) if name == UNIQUE_ID => (bytes.len() != 16).then_some(LENGTH),
        Value::List(bytes) if bytes.len() > most(message_type, name) => Some(LONG),
        Value::List(bytes) if name == "name" && !has_union(message_type) => {
            let letters = b"abcdefghijklmnopqrstuvwxyz0123456789.-_";
            let allowed = bytes.iter().all(|byte| letters.contains(byte));
            (bytes.is_empty() || !allowed).then_some(NAME)
        }
        Value::List(_) => None,
    }
}
