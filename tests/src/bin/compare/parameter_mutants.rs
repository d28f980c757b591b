//! Wrong variants of reading and writing parameters: of unions, their tags and padding, and of what
//! follows the last field.

use reference::bits::{Reader, Refusal, Writer};
use reference::codec::{Decode, Encode};
use reference::messages::{
    decode, encode, GetSetRequest, GetSetResponse, Message, MessageType, Parameter, NUMERIC_CASES,
    VALUE_CASES,
};

pub const READING: [(&str, Decode); 12] = [
    ("codec-unknown-tag-read-as-empty", |one, payload| {
        read(one, payload, Misreading::UnknownIsEmpty)
    }),
    ("codec-tag-takes-a-padding-bit", |one, payload| {
        read(one, payload, Misreading::TagBitTooMany)
    }),
    ("codec-number-of-five-cases", |one, payload| {
        read(one, payload, Misreading::NumberOfFiveCases)
    }),
    ("codec-text-is-the-rest", |one, payload| {
        read(one, payload, Misreading::TextIsTheRest)
    }),
    ("codec-text-16-before-15", |one, payload| {
        read(one, payload, Misreading::TooLongFirst)
    }),
    ("codec-padding-field-looked-at", |one, payload| {
        read(one, payload, Misreading::PaddingLookedAt)
    }),
    ("codec-25-not-looked-at", left_not_looked_at),
    ("codec-left-over-25-before-16", left_first),
    ("codec-boolean-read-as-0-or-1", boolean_read_as_bit),
    ("codec-nan-quieted", nan_quieted),
    ("codec-argument-without-sign", argument_without_sign),
    ("codec-parameter-has-node-name", node_name_wanted),
];

pub const WRITING: [(&str, Encode); 12] = [
    ("codec-tag-bit-too-many", |message, out| {
        write(message, out, Miswriting::TagBitTooMany)
    }),
    ("codec-text-without-length", |message, out| {
        write(message, out, Miswriting::TextWithoutLength)
    }),
    ("codec-padding-field-not-zero", |message, out| {
        write(message, out, Miswriting::PaddingNotZero)
    }),
    ("codec-27-after-17", tag_after_17),
    ("codec-27-after-8", tag_after_8),
    ("codec-27-in-order-of-fields", tag_in_order),
    (
        "codec-unknown-tag-written-as-empty",
        unknown_written_as_empty,
    ),
    ("codec-tag-clipped", tag_clipped),
    ("codec-other-case-checked", other_case_checked),
    ("codec-other-real-checked", other_real_checked),
    ("codec-real-clipped", real_clipped),
    ("codec-boolean-written-as-0-or-1", boolean_written_as_bit),
];

#[derive(Clone, Copy, PartialEq, Eq)]
enum Misreading {
    UnknownIsEmpty,
    TagBitTooMany,
    NumberOfFiveCases,
    TextIsTheRest,
    TooLongFirst,
    PaddingLookedAt,
}

/// Reads GetSet with an error.
fn read(
    message_type: MessageType,
    payload: &[u8],
    error: Misreading,
) -> Result<Message<'_>, Refusal> {
    let reader = &mut Reader::new(payload);
    let message = match message_type {
        MessageType::GetSetRequest => Message::GetSetRequest(GetSetRequest {
            index: reader.number(13)?,
            value: read_value(reader, (0, VALUE_CASES), error)?,
            name: reader.last_list(92)?,
        }),
        MessageType::GetSetResponse => Message::GetSetResponse(GetSetResponse {
            value: read_value(reader, (5, VALUE_CASES), error)?,
            default: read_value(reader, (5, VALUE_CASES), error)?,
            highest: read_value(reader, (6, NUMERIC_CASES), error)?,
            lowest: read_value(reader, (6, NUMERIC_CASES), error)?,
            name: reader.last_list(92)?,
        }),
        _ => return decode(message_type, payload),
    };
    Ok(message)
}

/// Of so many bits of padding and so many cases.
fn read_value<'a>(
    reader: &mut Reader<'a>,
    (padding, cases): (u32, usize),
    error: Misreading,
) -> Result<Parameter<'a>, Refusal> {
    let more = u32::from(error == Misreading::TagBitTooMany && padding > 0);
    let before = reader.number(padding - more)?;
    if error == Misreading::PaddingLookedAt && before != 0 {
        return Err(Refusal::PaddingNotZero);
    }
    let mut tag = reader.number(more + if cases == VALUE_CASES { 3 } else { 2 })?;
    let known = if error == Misreading::NumberOfFiveCases {
        VALUE_CASES
    } else {
        cases
    };
    if tag >= known as i128 {
        if error != Misreading::UnknownIsEmpty {
            return Err(Refusal::UnknownTag);
        }
        tag = 0;
    }
    let mut value = Parameter {
        tag,
        ..Parameter::default()
    };
    match tag {
        1 => value.integer = (reader.number(64)? as u64 as i64).into(),
        2 => value.real = reader.number(32)?,
        3 => value.boolean = reader.number(8)?,
        4 => value.text = read_text(reader, error)?,
        _ => (),
    }
    Ok(value)
}

fn read_text<'a>(reader: &mut Reader<'a>, error: Misreading) -> Result<&'a [u8], Refusal> {
    match error {
        Misreading::TextIsTheRest => reader.last_list(128),
        Misreading::TooLongFirst => {
            let length = reader.number(8)? as usize;
            if length > 128 {
                return Err(Refusal::TooMany);
            }
            reader.bytes(length)
        }
        _ => reader.list(128),
    }
}

/// Forgets the bits after the last field of ExecuteOpcode's response.
fn left_not_looked_at(message_type: MessageType, payload: &[u8]) -> Result<Message<'_>, Refusal> {
    let read = decode(message_type, payload);
    if message_type != MessageType::OpcodeResponse || read != Err(Refusal::PaddingNotZero) {
        return read;
    }
    let mut cleared = payload.to_vec();
    cleared[6] &= 0x80;
    match decode(message_type, &cleared)? {
        Message::OpcodeResponse(one) => Ok(Message::OpcodeResponse(one)),
        _ => read,
    }
}

/// Looks at the bits left over before their number.
fn left_first(message_type: MessageType, payload: &[u8]) -> Result<Message<'_>, Refusal> {
    let read = decode(message_type, payload);
    let some_bit = payload.get(6).is_some_and(|byte| byte & 0x7F != 0);
    if message_type == MessageType::OpcodeResponse && some_bit {
        return Err(Refusal::PaddingNotZero);
    }
    read
}

/// Changes each value of a message.
fn change_values(message: &mut Message, change: impl Fn(&mut Parameter, usize)) {
    match message {
        Message::GetSetRequest(one) => change(&mut one.value, VALUE_CASES),
        Message::GetSetResponse(one) => {
            change(&mut one.value, VALUE_CASES);
            change(&mut one.default, VALUE_CASES);
            change(&mut one.highest, NUMERIC_CASES);
            change(&mut one.lowest, NUMERIC_CASES);
        }
        _ => (),
    }
}

fn read_changed(
    message_type: MessageType,
    payload: &[u8],
    change: impl Fn(&mut Parameter, usize),
) -> Result<Message<'_>, Refusal> {
    let mut message = decode(message_type, payload)?;
    change_values(&mut message, change);
    Ok(message)
}

fn boolean_read_as_bit(message_type: MessageType, payload: &[u8]) -> Result<Message<'_>, Refusal> {
    read_changed(message_type, payload, |value, _| {
        value.boolean = value.boolean.min(1);
    })
}

/// Sets the highest bit of a NaN's fraction.
fn nan_quieted(message_type: MessageType, payload: &[u8]) -> Result<Message<'_>, Refusal> {
    read_changed(message_type, payload, |value, _| {
        if value.real & 0x7FFF_FFFF > 0x7F80_0000 {
            value.real |= 0x0040_0000;
        }
    })
}

fn argument_without_sign(
    message_type: MessageType,
    payload: &[u8],
) -> Result<Message<'_>, Refusal> {
    let mut message = decode(message_type, payload)?;
    match &mut message {
        Message::OpcodeRequest(one) => one.argument = one.argument.rem_euclid(1 << 48),
        Message::OpcodeResponse(one) => one.argument = one.argument.rem_euclid(1 << 48),
        _ => (),
    }
    Ok(message)
}

/// Refuses names that no node may have.
fn node_name_wanted(message_type: MessageType, payload: &[u8]) -> Result<Message<'_>, Refusal> {
    let message = decode(message_type, payload)?;
    let name = match &message {
        Message::GetSetRequest(one) => one.name,
        Message::GetSetResponse(one) => one.name,
        _ => return Ok(message),
    };
    let allowed = |byte: &u8| matches!(byte, b'a'..=b'z' | b'0'..=b'9' | b'.' | b'-' | b'_');
    if name.is_empty() || !name.iter().all(allowed) {
        return Err(Refusal::NotAllowed);
    }
    Ok(message)
}

#[derive(Clone, Copy, PartialEq, Eq)]
enum Miswriting {
    TagBitTooMany,
    TextWithoutLength,
    PaddingNotZero,
}

/// Writes GetSet with an error in its bits; what is refused is as it should be.
fn write(message: &Message, out: &mut [u8], error: Miswriting) -> Result<usize, Refusal> {
    let mut writer = Writer::default();
    let name = match message {
        Message::GetSetRequest(one) => {
            writer.number(one.index, 13);
            write_value(&mut writer, &one.value, (0, VALUE_CASES), error);
            one.name
        }
        Message::GetSetResponse(one) => {
            write_value(&mut writer, &one.value, (5, VALUE_CASES), error);
            write_value(&mut writer, &one.default, (5, VALUE_CASES), error);
            write_value(&mut writer, &one.highest, (6, NUMERIC_CASES), error);
            write_value(&mut writer, &one.lowest, (6, NUMERIC_CASES), error);
            one.name
        }
        _ => return encode(message, out),
    };
    writer.last_list(name, 92);
    writer.finish(out)
}

fn write_value(
    writer: &mut Writer,
    value: &Parameter,
    (padding, cases): (u32, usize),
    error: Miswriting,
) {
    let bits = if error == Miswriting::PaddingNotZero {
        -1
    } else {
        0
    };
    writer.truncated(bits, padding);
    if error == Miswriting::TagBitTooMany {
        writer.truncated(0, 1);
    }
    writer.tag(value.tag, cases);
    match value.tag {
        1 => writer.signed(value.integer, 64),
        2 => {
            writer.require((0..1 << 32).contains(&value.real));
            writer.number(value.real, 32);
        }
        3 => writer.number(value.boolean, 8),
        4 if error == Miswriting::TextWithoutLength => writer.last_list(value.text, 128),
        4 => writer.list(value.text, 128),
        _ => (),
    }
}

fn is_unknown(value: &Parameter, cases: usize) -> bool {
    !(0..cases as i128).contains(&value.tag)
}

/// Writes the message with its values changed.
fn write_changed(
    message: &Message,
    out: &mut [u8],
    change: impl Fn(&mut Parameter, usize),
) -> Result<usize, Refusal> {
    let mut changed = message.clone();
    change_values(&mut changed, change);
    encode(&changed, out)
}

/// What is answered for a message whose unknown tags are those of empty values.
fn answer_if_known(message: &Message, room: usize) -> Result<usize, Refusal> {
    write_changed(message, &mut vec![0; room], |value, cases| {
        if is_unknown(value, cases) {
            value.tag = 0;
        }
    })
}

/// Answers another refusal in place of 27.
fn tag_after(message: &Message, out: &mut [u8], before: Refusal) -> Result<usize, Refusal> {
    let written = encode(message, out);
    if written == Err(Refusal::UnknownTag) && answer_if_known(message, out.len()) == Err(before) {
        return Err(before);
    }
    written
}

fn tag_after_17(message: &Message, out: &mut [u8]) -> Result<usize, Refusal> {
    tag_after(message, out, Refusal::NotAllowed)
}

fn tag_after_8(message: &Message, out: &mut [u8]) -> Result<usize, Refusal> {
    tag_after(message, out, Refusal::OutputTooSmall)
}

/// Looks at a text before the tags that follow it.
fn tag_in_order(message: &Message, out: &mut [u8]) -> Result<usize, Refusal> {
    match message {
        Message::GetSetResponse(one) if one.value.tag == 4 && one.value.text.len() > 128 => {
            Err(Refusal::NotAllowed)
        }
        _ => encode(message, out),
    }
}

fn unknown_written_as_empty(message: &Message, out: &mut [u8]) -> Result<usize, Refusal> {
    write_changed(message, out, |value, cases| {
        if is_unknown(value, cases) {
            value.tag = 0;
        }
    })
}

fn tag_clipped(message: &Message, out: &mut [u8]) -> Result<usize, Refusal> {
    write_changed(message, out, |value, cases| {
        value.tag = value.tag.clamp(0, cases as i128 - 1);
    })
}

/// Refuses a message for a value, after 27.
fn refuse_for(
    message: &Message,
    out: &mut [u8],
    refuses: impl Fn(&Parameter) -> bool,
) -> Result<usize, Refusal> {
    let values = match message {
        Message::GetSetRequest(one) => vec![&one.value],
        Message::GetSetResponse(one) => vec![&one.value, &one.default, &one.highest, &one.lowest],
        _ => vec![],
    };
    let written = encode(message, &mut []);
    if written != Err(Refusal::UnknownTag) && values.into_iter().any(refuses) {
        return Err(Refusal::NotAllowed);
    }
    encode(message, out)
}

fn other_case_checked(message: &Message, out: &mut [u8]) -> Result<usize, Refusal> {
    refuse_for(message, out, |value| value.text.len() > 128)
}

fn other_real_checked(message: &Message, out: &mut [u8]) -> Result<usize, Refusal> {
    refuse_for(message, out, |value| !(0..1 << 32).contains(&value.real))
}

fn real_clipped(message: &Message, out: &mut [u8]) -> Result<usize, Refusal> {
    write_changed(message, out, |value, _| {
        value.real = value.real.clamp(0, (1 << 32) - 1);
    })
}

fn boolean_written_as_bit(message: &Message, out: &mut [u8]) -> Result<usize, Refusal> {
    write_changed(message, out, |value, _| {
        value.boolean = value.boolean.min(1)
    })
}
