//! Messages as rows of numbers of 64 bits, as C has them (RULES 13.5).

use crate::bits::{signed, Refusal};
use crate::messages::{
    self, Allocation, BatteryInfo, GetSetRequest, GetSetResponse, HardwareVersion, KeyValue,
    LogMessage, Message, MessageType, NodeInfo, NodeStatus, OpcodeRequest, OpcodeResponse,
    Parameter, RawCommand, SoftwareVersion, MOST_COMMANDS,
};

/// How many numbers the row of a type has.
pub fn numbers(message_type: MessageType) -> usize {
    match message_type {
        MessageType::NodeStatus => 5,
        MessageType::NodeInfoRequest => 0,
        MessageType::NodeInfoResponse => 18,
        MessageType::Allocation => 4,
        MessageType::KeyValue => 3,
        MessageType::LogMessage => 5,
        MessageType::BatteryInfo => 15,
        MessageType::RawCommand => 1 + MOST_COMMANDS,
        MessageType::GetSetRequest => 7,
        MessageType::GetSetResponse => 14,
        MessageType::OpcodeRequest | MessageType::OpcodeResponse => 2,
    }
}

/// How many lists of bytes a type has.
pub fn lists(message_type: MessageType) -> usize {
    match message_type {
        MessageType::Allocation | MessageType::KeyValue | MessageType::BatteryInfo => 1,
        MessageType::LogMessage | MessageType::GetSetRequest => 2,
        MessageType::NodeInfoResponse | MessageType::GetSetResponse => 3,
        _ => 0,
    }
}

/// Reads a payload into a row of so many places: its numbers, or why not.
pub fn decode(
    message_type: MessageType,
    payload: &[u8],
    places: usize,
) -> Result<Vec<u64>, Refusal> {
    let row = row(&messages::decode(message_type, payload)?, payload);
    if places < row.len() {
        return Err(Refusal::OutputTooSmall);
    }
    Ok(row)
}

/// Writes the message of a row and its lists to the front of the output and gives its length.
pub fn encode(
    message_type: MessageType,
    row: &[u64],
    lists: &[&[u8]],
    out: &mut [u8],
) -> Result<usize, Refusal> {
    if row.len() < numbers(message_type) {
        return Err(Refusal::PayloadEnds);
    }
    messages::encode(&message(message_type, row, lists)?, out)
}

// ---- reading

/// The numbers of a message that was read from this payload.
pub fn row(message: &Message, payload: &[u8]) -> Vec<u64> {
    let mut row = Row {
        numbers: Vec::new(),
        payload,
    };
    match message {
        Message::NodeStatus(one) => row.status(one),
        Message::NodeInfoRequest => (),
        Message::NodeInfoResponse(one) => row.info(one),
        Message::Allocation(one) => {
            row.plain(&[one.node_id, one.first_part]);
            row.list(one.unique_id);
        }
        Message::KeyValue(one) => {
            row.plain(&[one.value.into()]);
            row.list(one.key);
        }
        Message::LogMessage(one) => {
            row.plain(&[one.level]);
            row.list(one.source);
            row.list(one.text);
        }
        Message::BatteryInfo(one) => row.battery(one),
        Message::RawCommand(one) => {
            row.plain(&[one.count as i128]);
            row.plain(&one.places);
        }
        Message::GetSetRequest(one) => {
            row.plain(&[one.index]);
            row.value(&one.value, 3);
            row.list(one.name);
        }
        Message::GetSetResponse(one) => {
            row.value(&one.value, 2);
            row.value(&one.default, size(&one.value) + 2);
            row.number(&one.highest);
            row.number(&one.lowest);
            row.list(one.name);
        }
        Message::OpcodeRequest(one) => row.plain(&[one.opcode, one.argument]),
        Message::OpcodeResponse(one) => row.plain(&[one.argument, one.ok]),
    }
    row.numbers
}

struct Row<'a> {
    numbers: Vec<u64>,
    payload: &'a [u8],
}

impl Row<'_> {
    /// Numbers as they are; those below zero in two's complement.
    fn plain(&mut self, numbers: &[i128]) {
        self.numbers
            .extend(numbers.iter().map(|&number| number as u64));
    }

    /// A part of the payload: its place and its length.
    fn list(&mut self, list: &[u8]) {
        let place = list.as_ptr() as usize - self.payload.as_ptr() as usize;
        assert!(place + list.len() <= self.payload.len(), "a list elsewhere");
        self.numbers.extend([place as u64, list.len() as u64]);
    }

    fn status(&mut self, one: &NodeStatus) {
        self.plain(&[
            one.uptime,
            one.health,
            one.mode,
            one.sub_mode,
            one.vendor_code,
        ]);
    }

    fn info(&mut self, one: &NodeInfo) {
        let (software, hardware) = (&one.software, &one.hardware);
        self.status(&one.status);
        self.plain(&[software.major, software.minor, software.flags]);
        self.plain(&[software.commit, software.image_crc]);
        self.plain(&[hardware.major, hardware.minor]);
        self.list(hardware.unique_id);
        self.list(hardware.certificate);
        self.list(one.name);
    }

    fn battery(&mut self, one: &BatteryInfo) {
        self.plain(&one.floats.map(i128::from));
        self.plain(&[
            one.status_flags,
            one.health,
            one.charge,
            one.charge_deviation,
        ]);
        self.plain(&[one.battery_id, one.model_instance_id]);
        self.list(one.model_name);
    }

    /// The tag, and the number of the case or 0.
    fn number(&mut self, value: &Parameter) {
        let number = match value.tag {
            1 => value.integer,
            2 => value.real,
            3 => value.boolean,
            _ => 0,
        };
        self.plain(&[value.tag, number]);
    }

    /// With the place of its text, whatever the case is, and its length.
    fn value(&mut self, value: &Parameter, place: usize) {
        self.number(value);
        self.numbers.extend([place as u64, value.text.len() as u64]);
    }
}

/// The bytes of a value in a payload, with that of its padding and tag (RULES 10.11, 10.13).
fn size(value: &Parameter) -> usize {
    1 + match value.tag {
        1 => 8,
        2 => 4,
        3 => 1,
        4 => 1 + value.text.len(),
        _ => 0,
    }
}

// ---- writing

/// The message that a row and its lists give.
fn message<'a>(
    message_type: MessageType,
    row: &[u64],
    lists: &[&'a [u8]],
) -> Result<Message<'a>, Refusal> {
    let count = |at: usize| i128::from(row[at]);
    let argument = |at: usize| signed(row[at].into(), 64);
    Ok(match message_type {
        MessageType::NodeStatus => Message::NodeStatus(status(row)),
        MessageType::NodeInfoRequest => Message::NodeInfoRequest,
        MessageType::NodeInfoResponse => Message::NodeInfoResponse(info(row, lists)),
        MessageType::Allocation => Message::Allocation(Allocation {
            node_id: count(0),
            first_part: count(1),
            unique_id: lists[0],
        }),
        MessageType::KeyValue => Message::KeyValue(KeyValue {
            value: float(row[0])?,
            key: lists[0],
        }),
        MessageType::LogMessage => Message::LogMessage(LogMessage {
            level: count(0),
            source: lists[0],
            text: lists[1],
        }),
        MessageType::BatteryInfo => Message::BatteryInfo(battery(row, lists)?),
        MessageType::RawCommand => {
            let places = std::array::from_fn(|place| argument(1 + place));
            let count = usize::try_from(row[0]).unwrap_or(usize::MAX);
            Message::RawCommand(RawCommand { count, places })
        }
        MessageType::GetSetRequest => Message::GetSetRequest(GetSetRequest {
            index: count(0),
            value: parameter(&row[1..], lists[0]),
            name: lists[1],
        }),
        MessageType::GetSetResponse => Message::GetSetResponse(GetSetResponse {
            value: parameter(row, lists[0]),
            default: parameter(&row[4..], lists[1]),
            highest: parameter(&row[8..], &[]),
            lowest: parameter(&row[10..], &[]),
            name: lists[2],
        }),
        MessageType::OpcodeRequest => Message::OpcodeRequest(OpcodeRequest {
            opcode: count(0),
            argument: argument(1),
        }),
        MessageType::OpcodeResponse => Message::OpcodeResponse(OpcodeResponse {
            argument: argument(0),
            ok: count(1),
        }),
    })
}

fn float(number: u64) -> Result<u32, Refusal> {
    u32::try_from(number).map_err(|_| Refusal::NotAllowed)
}

fn status(row: &[u64]) -> NodeStatus {
    NodeStatus {
        uptime: row[0].into(),
        health: row[1].into(),
        mode: row[2].into(),
        sub_mode: row[3].into(),
        vendor_code: row[4].into(),
    }
}

fn info<'a>(row: &[u64], lists: &[&'a [u8]]) -> NodeInfo<'a> {
    NodeInfo {
        status: status(row),
        software: SoftwareVersion {
            major: row[5].into(),
            minor: row[6].into(),
            flags: row[7].into(),
            commit: row[8].into(),
            image_crc: row[9].into(),
        },
        hardware: HardwareVersion {
            major: row[10].into(),
            minor: row[11].into(),
            unique_id: lists[0],
            certificate: lists[1],
        },
        name: lists[2],
    }
}

fn battery<'a>(row: &[u64], lists: &[&'a [u8]]) -> Result<BatteryInfo<'a>, Refusal> {
    let mut floats = [0; 7];
    for (place, &number) in floats.iter_mut().zip(row) {
        *place = float(number)?;
    }
    Ok(BatteryInfo {
        floats,
        status_flags: row[7].into(),
        health: row[8].into(),
        charge: row[9].into(),
        charge_deviation: row[10].into(),
        battery_id: row[11].into(),
        model_instance_id: row[12].into(),
        model_name: lists[0],
    })
}

/// The number is that of the case that the tag names; a real of more than 32 bits is refused then.
fn parameter<'a>(row: &[u64], text: &'a [u8]) -> Parameter<'a> {
    Parameter {
        tag: row[0].into(),
        integer: signed(row[1].into(), 64),
        real: row[1].into(),
        boolean: row[1].into(),
        text,
    }
}
