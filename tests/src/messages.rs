//! The message types, both ways (RULES 9 and 10).
//!
//! A number may be outside of its field's range; writing takes the nearest inside.

use crate::binary16::{narrow, widen};
use crate::bits::{signed, Reader, Refusal, Writer};

#[derive(Clone, Debug, PartialEq, Eq)]
pub struct NodeStatus {
    pub uptime: i128,
    pub health: i128,
    pub mode: i128,
    pub sub_mode: i128,
    pub vendor_code: i128,
}

#[derive(Clone, Debug, PartialEq, Eq)]
pub struct Allocation<'a> {
    pub node_id: i128,
    pub first_part: i128,
    pub unique_id: &'a [u8],
}

#[derive(Clone, Debug, PartialEq, Eq)]
pub struct KeyValue<'a> {
    /// The float32 as its bits: no pattern is changed on the way.
    pub value: u32,
    pub key: &'a [u8],
}

#[derive(Clone, Debug, PartialEq, Eq)]
pub struct LogMessage<'a> {
    pub level: i128,
    pub source: &'a [u8],
    pub text: &'a [u8],
}

#[derive(Clone, Debug, PartialEq, Eq)]
pub struct SoftwareVersion {
    pub major: i128,
    pub minor: i128,
    pub flags: i128,
    pub commit: i128,
    pub image_crc: i128,
}

#[derive(Clone, Debug, PartialEq, Eq)]
pub struct HardwareVersion<'a> {
    pub major: i128,
    pub minor: i128,
    pub unique_id: &'a [u8],
    pub certificate: &'a [u8],
}

#[derive(Clone, Debug, PartialEq, Eq)]
pub struct NodeInfo<'a> {
    pub status: NodeStatus,
    pub software: SoftwareVersion,
    pub hardware: HardwareVersion<'a>,
    pub name: &'a [u8],
}

#[derive(Clone, Debug, PartialEq, Eq)]
pub struct BatteryInfo<'a> {
    /// Temperature, voltage, current, average power, remaining and full capacity, hours to full
    /// charge: each as the bits of a binary32.
    pub floats: [u32; 7],
    pub status_flags: i128,
    pub health: i128,
    pub charge: i128,
    pub charge_deviation: i128,
    pub battery_id: i128,
    pub model_instance_id: i128,
    pub model_name: &'a [u8],
}

/// The most commands of a RawCommand.
pub const MOST_COMMANDS: usize = 20;

#[derive(Clone, Debug, PartialEq, Eq)]
pub struct RawCommand {
    /// How many of the places are used, from the first on.
    pub count: usize,
    pub places: [i128; MOST_COMMANDS],
}

/// The cases of a parameter's value, and how many of them one that is a number has.
pub const VALUE_CASES: usize = 5;
pub const NUMERIC_CASES: usize = 3;

/// The value of a parameter, with room for every case. The tag says which counts; after reading the
/// others are zero or empty.
#[derive(Clone, Debug, Default, PartialEq, Eq)]
pub struct Parameter<'a> {
    pub tag: i128,
    pub integer: i128,
    /// The float32 as the number that its bits make. One that 32 bits do not make is refused.
    pub real: i128,
    pub boolean: i128,
    pub text: &'a [u8],
}

#[derive(Clone, Debug, PartialEq, Eq)]
pub struct GetSetRequest<'a> {
    pub index: i128,
    pub value: Parameter<'a>,
    pub name: &'a [u8],
}

#[derive(Clone, Debug, PartialEq, Eq)]
pub struct GetSetResponse<'a> {
    pub value: Parameter<'a>,
    pub default: Parameter<'a>,
    /// Both of the first three cases only.
    pub highest: Parameter<'a>,
    pub lowest: Parameter<'a>,
    pub name: &'a [u8],
}

#[derive(Clone, Debug, PartialEq, Eq)]
pub struct OpcodeRequest {
    pub opcode: i128,
    pub argument: i128,
}

#[derive(Clone, Debug, PartialEq, Eq)]
pub struct OpcodeResponse {
    pub argument: i128,
    pub ok: i128,
}

#[derive(Clone, Debug, PartialEq, Eq)]
pub enum Message<'a> {
    NodeStatus(NodeStatus),
    Allocation(Allocation<'a>),
    KeyValue(KeyValue<'a>),
    LogMessage(LogMessage<'a>),
    NodeInfoRequest,
    NodeInfoResponse(NodeInfo<'a>),
    BatteryInfo(BatteryInfo<'a>),
    RawCommand(RawCommand),
    GetSetRequest(GetSetRequest<'a>),
    GetSetResponse(GetSetResponse<'a>),
    OpcodeRequest(OpcodeRequest),
    OpcodeResponse(OpcodeResponse),
}

#[derive(Clone, Copy, Debug, PartialEq, Eq)]
pub enum MessageType {
    NodeStatus,
    Allocation,
    KeyValue,
    LogMessage,
    NodeInfoRequest,
    NodeInfoResponse,
    BatteryInfo,
    RawCommand,
    GetSetRequest,
    GetSetResponse,
    OpcodeRequest,
    OpcodeResponse,
}

impl MessageType {
    pub const ALL: [MessageType; 12] = [
        MessageType::NodeStatus,
        MessageType::Allocation,
        MessageType::KeyValue,
        MessageType::LogMessage,
        MessageType::NodeInfoRequest,
        MessageType::NodeInfoResponse,
        MessageType::BatteryInfo,
        MessageType::RawCommand,
        MessageType::GetSetRequest,
        MessageType::GetSetResponse,
        MessageType::OpcodeRequest,
        MessageType::OpcodeResponse,
    ];
}

impl Message<'_> {
    pub fn message_type(&self) -> MessageType {
        match self {
            Message::NodeStatus(_) => MessageType::NodeStatus,
            Message::Allocation(_) => MessageType::Allocation,
            Message::KeyValue(_) => MessageType::KeyValue,
            Message::LogMessage(_) => MessageType::LogMessage,
            Message::NodeInfoRequest => MessageType::NodeInfoRequest,
            Message::NodeInfoResponse(_) => MessageType::NodeInfoResponse,
            Message::BatteryInfo(_) => MessageType::BatteryInfo,
            Message::RawCommand(_) => MessageType::RawCommand,
            Message::GetSetRequest(_) => MessageType::GetSetRequest,
            Message::GetSetResponse(_) => MessageType::GetSetResponse,
            Message::OpcodeRequest(_) => MessageType::OpcodeRequest,
            Message::OpcodeResponse(_) => MessageType::OpcodeResponse,
        }
    }
}

/// Reads a payload field by field; the first failing field decides the refusal.
pub fn decode(message_type: MessageType, payload: &[u8]) -> Result<Message<'_>, Refusal> {
    let reader = &mut Reader::new(payload);
    let message = match message_type {
        MessageType::NodeStatus => Message::NodeStatus(NodeStatus::read(reader)?),
        MessageType::Allocation => Message::Allocation(Allocation::read(reader)?),
        MessageType::KeyValue => Message::KeyValue(KeyValue::read(reader)?),
        MessageType::LogMessage => Message::LogMessage(LogMessage::read(reader)?),
        MessageType::NodeInfoRequest => Message::NodeInfoRequest,
        MessageType::NodeInfoResponse => Message::NodeInfoResponse(NodeInfo::read(reader)?),
        MessageType::BatteryInfo => Message::BatteryInfo(BatteryInfo::read(reader)?),
        MessageType::RawCommand => Message::RawCommand(RawCommand::read(reader)?),
        MessageType::GetSetRequest => Message::GetSetRequest(GetSetRequest::read(reader)?),
        MessageType::GetSetResponse => Message::GetSetResponse(GetSetResponse::read(reader)?),
        MessageType::OpcodeRequest => Message::OpcodeRequest(OpcodeRequest::read(reader)?),
        MessageType::OpcodeResponse => Message::OpcodeResponse(OpcodeResponse::read(reader)?),
    };
    reader.end()?;
    Ok(message)
}

/// Writes a message to the front of the output and gives its length.
pub fn encode(message: &Message, out: &mut [u8]) -> Result<usize, Refusal> {
    let mut writer = Writer::default();
    match message {
        Message::NodeStatus(one) => one.write(&mut writer),
        Message::Allocation(one) => one.write(&mut writer),
        Message::KeyValue(one) => one.write(&mut writer),
        Message::LogMessage(one) => one.write(&mut writer),
        Message::NodeInfoRequest => (),
        Message::NodeInfoResponse(one) => one.write(&mut writer),
        Message::BatteryInfo(one) => one.write(&mut writer),
        Message::RawCommand(one) => one.write(&mut writer),
        Message::GetSetRequest(one) => one.write(&mut writer),
        Message::GetSetResponse(one) => one.write(&mut writer),
        Message::OpcodeRequest(one) => one.write(&mut writer),
        Message::OpcodeResponse(one) => one.write(&mut writer),
    }
    writer.finish(out)
}

impl NodeStatus {
    fn read(reader: &mut Reader) -> Result<NodeStatus, Refusal> {
        let (uptime, health, mode) = (reader.number(32)?, reader.number(2)?, reader.number(3)?);
        reader.number(3)?;
        Ok(NodeStatus {
            uptime,
            health,
            mode,
            sub_mode: 0,
            vendor_code: reader.number(16)?,
        })
    }

    fn write(&self, writer: &mut Writer) {
        writer.number(self.uptime, 32);
        writer.number(self.health, 2);
        writer.number(self.mode, 3);
        writer.number(0, 3);
        writer.number(self.vendor_code, 16);
    }
}

impl<'a> Allocation<'a> {
    fn read(reader: &mut Reader<'a>) -> Result<Allocation<'a>, Refusal> {
        Ok(Allocation {
            node_id: reader.number(7)?,
            first_part: reader.number(1)?,
            unique_id: reader.last_list(16)?,
        })
    }

    fn write(&self, writer: &mut Writer) {
        writer.number(self.node_id, 7);
        writer.number(self.first_part, 1);
        writer.last_list(self.unique_id, 16);
    }
}

impl<'a> KeyValue<'a> {
    fn read(reader: &mut Reader<'a>) -> Result<KeyValue<'a>, Refusal> {
        Ok(KeyValue {
            value: reader.number(32)? as u32,
            key: reader.last_list(58)?,
        })
    }

    fn write(&self, writer: &mut Writer) {
        writer.number(self.value.into(), 32);
        writer.last_list(self.key, 58);
    }
}

impl<'a> LogMessage<'a> {
    fn read(reader: &mut Reader<'a>) -> Result<LogMessage<'a>, Refusal> {
        Ok(LogMessage {
            level: reader.number(3)?,
            source: reader.list(31)?,
            text: reader.last_list(90)?,
        })
    }

    fn write(&self, writer: &mut Writer) {
        writer.number(self.level, 3);
        writer.list(self.source, 31);
        writer.last_list(self.text, 90);
    }
}

impl SoftwareVersion {
    fn read(reader: &mut Reader) -> Result<SoftwareVersion, Refusal> {
        Ok(SoftwareVersion {
            major: reader.number(8)?,
            minor: reader.number(8)?,
            flags: reader.number(8)?,
            commit: reader.number(32)?,
            image_crc: reader.number(64)?,
        })
    }

    fn write(&self, writer: &mut Writer) {
        writer.number(self.major, 8);
        writer.number(self.minor, 8);
        writer.number(self.flags, 8);
        writer.number(self.commit, 32);
        writer.number(self.image_crc, 64);
    }
}

impl<'a> HardwareVersion<'a> {
    fn read(reader: &mut Reader<'a>) -> Result<HardwareVersion<'a>, Refusal> {
        Ok(HardwareVersion {
            major: reader.number(8)?,
            minor: reader.number(8)?,
            unique_id: reader.bytes(16)?,
            certificate: reader.list(255)?,
        })
    }

    fn write(&self, writer: &mut Writer) {
        writer.number(self.major, 8);
        writer.number(self.minor, 8);
        writer.require(self.unique_id.len() == 16);
        writer.bytes(self.unique_id);
        writer.list(self.certificate, 255);
    }
}

impl<'a> NodeInfo<'a> {
    fn read(reader: &mut Reader<'a>) -> Result<NodeInfo<'a>, Refusal> {
        let info = NodeInfo {
            status: NodeStatus::read(reader)?,
            software: SoftwareVersion::read(reader)?,
            hardware: HardwareVersion::read(reader)?,
            name: reader.last_list(80)?,
        };
        if !is_name(info.name) {
            return Err(Refusal::NotAllowed);
        }
        Ok(info)
    }

    fn write(&self, writer: &mut Writer) {
        self.status.write(writer);
        self.software.write(writer);
        self.hardware.write(writer);
        writer.require(is_name(self.name));
        writer.last_list(self.name, 80);
    }
}

impl<'a> BatteryInfo<'a> {
    fn read(reader: &mut Reader<'a>) -> Result<BatteryInfo<'a>, Refusal> {
        let mut floats = [0; 7];
        for float in &mut floats {
            *float = widen(reader.number(16)? as u16);
        }
        Ok(BatteryInfo {
            floats,
            status_flags: reader.number(11)?,
            health: reader.number(7)?,
            charge: reader.number(7)?,
            charge_deviation: reader.number(7)?,
            battery_id: reader.number(8)?,
            model_instance_id: reader.number(32)?,
            model_name: reader.last_list(31)?,
        })
    }

    fn write(&self, writer: &mut Writer) {
        for float in self.floats {
            writer.number(narrow(float).into(), 16);
        }
        writer.number(self.status_flags, 11);
        writer.number(self.health, 7);
        writer.number(self.charge, 7);
        writer.number(self.charge_deviation, 7);
        writer.number(self.battery_id, 8);
        writer.number(self.model_instance_id, 32);
        writer.last_list(self.model_name, 31);
    }
}

impl RawCommand {
    fn read(reader: &mut Reader) -> Result<RawCommand, Refusal> {
        let patterns = reader.last_numbers(14, MOST_COMMANDS)?;
        let mut places = [0; MOST_COMMANDS];
        for (place, &pattern) in places.iter_mut().zip(&patterns) {
            *place = signed(pattern, 14);
        }
        Ok(RawCommand {
            count: patterns.len(),
            places,
        })
    }

    fn write(&self, writer: &mut Writer) {
        writer.require(self.count <= MOST_COMMANDS);
        for &number in self.places.iter().take(self.count) {
            writer.signed(number, 14);
        }
    }
}

impl<'a> Parameter<'a> {
    /// A value of the first so many cases.
    fn read(reader: &mut Reader<'a>, cases: usize) -> Result<Parameter<'a>, Refusal> {
        let tag = reader.tag(cases)?;
        let mut value = Parameter {
            tag,
            ..Parameter::default()
        };
        match tag {
            1 => value.integer = signed(reader.number(64)?, 64),
            2 => value.real = reader.number(32)?,
            3 => value.boolean = reader.number(8)?,
            4 => value.text = reader.list(128)?,
            _ => (),
        }
        Ok(value)
    }

    /// Only the case that the tag names is looked at.
    fn write(&self, writer: &mut Writer, cases: usize) {
        writer.tag(self.tag, cases);
        match self.tag {
            1 => writer.signed(self.integer, 64),
            2 => {
                writer.require((0..1 << 32).contains(&self.real));
                writer.number(self.real, 32);
            }
            3 => writer.number(self.boolean, 8),
            4 => writer.list(self.text, 128),
            _ => (),
        }
    }
}

/// The most bytes of a parameter's name. They may be any.
const LONGEST_NAME: usize = 92;

impl<'a> GetSetRequest<'a> {
    fn read(reader: &mut Reader<'a>) -> Result<GetSetRequest<'a>, Refusal> {
        Ok(GetSetRequest {
            index: reader.number(13)?,
            value: Parameter::read(reader, VALUE_CASES)?,
            name: reader.last_list(LONGEST_NAME)?,
        })
    }

    fn write(&self, writer: &mut Writer) {
        writer.number(self.index, 13);
        self.value.write(writer, VALUE_CASES);
        writer.last_list(self.name, LONGEST_NAME);
    }
}

impl<'a> GetSetResponse<'a> {
    fn read(reader: &mut Reader<'a>) -> Result<GetSetResponse<'a>, Refusal> {
        let mut padded = |padding, cases| {
            reader.number(padding)?;
            Parameter::read(reader, cases)
        };
        Ok(GetSetResponse {
            value: padded(5, VALUE_CASES)?,
            default: padded(5, VALUE_CASES)?,
            highest: padded(6, NUMERIC_CASES)?,
            lowest: padded(6, NUMERIC_CASES)?,
            name: reader.last_list(LONGEST_NAME)?,
        })
    }

    fn write(&self, writer: &mut Writer) {
        let mut padded = |padding, value: &Parameter, cases| {
            writer.number(0, padding);
            value.write(writer, cases);
        };
        padded(5, &self.value, VALUE_CASES);
        padded(5, &self.default, VALUE_CASES);
        padded(6, &self.highest, NUMERIC_CASES);
        padded(6, &self.lowest, NUMERIC_CASES);
        writer.last_list(self.name, LONGEST_NAME);
    }
}

impl OpcodeRequest {
    fn read(reader: &mut Reader) -> Result<OpcodeRequest, Refusal> {
        Ok(OpcodeRequest {
            opcode: reader.number(8)?,
            argument: signed(reader.number(48)?, 48),
        })
    }

    fn write(&self, writer: &mut Writer) {
        writer.number(self.opcode, 8);
        writer.signed(self.argument, 48);
    }
}

impl OpcodeResponse {
    fn read(reader: &mut Reader) -> Result<OpcodeResponse, Refusal> {
        Ok(OpcodeResponse {
            argument: signed(reader.number(48)?, 48),
            ok: reader.number(1)?,
        })
    }

    fn write(&self, writer: &mut Writer) {
        writer.signed(self.argument, 48);
        writer.number(self.ok, 1);
    }
}

/// Not empty, and only a-z, 0-9, dot, dash and underscore.
fn is_name(name: &[u8]) -> bool {
    let allowed = |byte: &u8| matches!(byte, b'a'..=b'z' | b'0'..=b'9' | b'.' | b'-' | b'_');
    !name.is_empty() && name.iter().all(allowed)
}
