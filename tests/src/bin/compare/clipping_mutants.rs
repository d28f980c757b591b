//! Wrong variants of writing: of what becomes of a number outside of its field, and of what is still
//! refused.

use crate::clipping::{change_numbers, most};
use reference::bits::Refusal;
use reference::codec::{fields, Encode, Fields, Given, Value};
use reference::messages::{encode, Message};

pub const ALL: [(&str, Encode); 8] = [
    ("codec-number-refused", number_refused),
    ("codec-clipped-to-power-of-2", clipped_to_power),
    ("codec-low-bits", low_bits),
    ("codec-below-to-highest", below_to_highest),
    ("codec-cut-to-64-bits", cut_to_64_bits),
    ("codec-image-crc-signed", image_crc_signed),
    ("codec-list-cut", list_cut),
    ("codec-name-not-checked", name_not_checked),
];

/// Writes other fields in place of the message's.
fn write_changed(
    message: &Message,
    out: &mut [u8],
    change: impl Fn(&mut Fields),
) -> Result<usize, Refusal> {
    let mut changed = fields(message);
    change(&mut changed);
    let changed = Given::new(changed);
    let message = changed.message(message.message_type());
    encode(&message.expect("floats are not changed"), out)
}

/// Refuses what does not fit.
fn number_refused(message: &Message, out: &mut [u8]) -> Result<usize, Refusal> {
    let given = fields(message);
    let mut clipped = given.clone();
    change_numbers(&mut clipped, |number, (low, high)| number.clamp(low, high));
    if clipped != given {
        return Err(Refusal::NotAllowed);
    }
    encode(message, out)
}

/// What does not fit becomes one more than the highest number, whose bits are those of the lowest.
fn clipped_to_power(message: &Message, out: &mut [u8]) -> Result<usize, Refusal> {
    write_changed(message, out, |fields| {
        change_numbers(
            fields,
            |number, (low, high)| {
                if number > high {
                    low
                } else {
                    number
                }
            },
        );
    })
}

fn low_bits(message: &Message, out: &mut [u8]) -> Result<usize, Refusal> {
    write_changed(message, out, |fields| {
        change_numbers(fields, |number, (low, high)| {
            low + (number - low).rem_euclid(high - low + 1)
        });
    })
}

fn below_to_highest(message: &Message, out: &mut [u8]) -> Result<usize, Refusal> {
    write_changed(message, out, |fields| {
        change_numbers(
            fields,
            |number, (low, high)| {
                if number < low {
                    high
                } else {
                    number
                }
            },
        );
    })
}

/// Forgets the digits beyond 64 bits, and clips after that.
fn cut_to_64_bits(message: &Message, out: &mut [u8]) -> Result<usize, Refusal> {
    write_changed(message, out, |fields| {
        change_numbers(fields, |number, _| {
            number.signum() * i128::from(number.unsigned_abs() as u64)
        });
    })
}

/// Takes the image CRC, as all other numbers, for one of 64 bits with a sign.
fn image_crc_signed(message: &Message, out: &mut [u8]) -> Result<usize, Refusal> {
    write_changed(message, out, |fields| {
        change_numbers(fields, |number, _| {
            number.clamp(i64::MIN.into(), i64::MAX.into())
        });
    })
}

/// Writes as much of a list as there may be.
fn list_cut(message: &Message, out: &mut [u8]) -> Result<usize, Refusal> {
    let most = |name: &str| most(message.message_type(), name);
    write_changed(message, out, |fields| {
        for (name, value) in fields {
            match value {
                Value::List(bytes) => bytes.truncate(most(name)),
                Value::Numbers(numbers) => numbers.truncate(most(name)),
                Value::Number(_) => (),
            }
        }
    })
}

/// Writes a name whatever its bytes are.
fn name_not_checked(message: &Message, out: &mut [u8]) -> Result<usize, Refusal> {
    let Message::NodeInfoResponse(info) = message else {
        return encode(message, out);
    };
    let mut named = info.clone();
    let letters = vec![b'a'; info.name.len()];
    named.name = &letters;
    let length = encode(&Message::NodeInfoResponse(named), out)?;
    out[length - info.name.len()..length].copy_from_slice(info.name);
    Ok(length)
}
