//! Wrong variants of the two calls: the errors that tempt. The comparison must notice each.

use crate::{Side, REFERENCE};
use reference::binary16::widen;
use reference::bits::Refusal;
use reference::messages::MessageType;
use reference::rows::{decode, encode, numbers};

type Read = fn(MessageType, &[u8], usize) -> Result<Vec<u64>, Refusal>;
type Write = fn(MessageType, &[u64], &[&[u8]], &mut [u8]) -> Result<usize, Refusal>;

pub fn all() -> Vec<(&'static str, Side)> {
    let reading: [(_, Read); 11] = [
        ("places-from-1", |t, p, n| {
            each_place(t, p, n, |place, _| place + 1)
        }),
        ("empty-list-at-0", |t, p, n| {
            each_place(t, p, n, |place, length| if length == 0 { 0 } else { place })
        }),
        ("place-of-the-length-field", place_of_the_length_field),
        ("sub-mode-told", sub_mode_told),
        ("below-zero-in-32-bits", below_zero_in_32_bits),
        ("nan-kept", nan_kept),
        ("versions-exchanged", versions_exchanged),
        ("no-text-at-0", no_text_at_0),
        ("tag-left-out", tag_left_out),
        ("8-before-all", eight_before_all),
        ("row-too-short-accepted", |t, p, _| decode(t, p, usize::MAX)),
    ];
    let writing: [(_, Write); 14] = [
        ("15-after-all", fifteen_after_all),
        ("row-filled-up-with-zeros", row_filled_up),
        ("large-is-below-zero", large_is_below_zero),
        ("cut-to-32-bits", cut_to_32_bits),
        ("argument-without-sign", argument_without_sign),
        ("float-cut", float_cut),
        ("no-float-before-27", no_float_before_27),
        ("other-case-checked", other_case_checked),
        ("sub-mode-written", sub_mode_written),
        ("count-clipped", count_clipped),
        ("list-as-long-as-the-row-says", list_as_long_as_the_row_says),
        ("lists-exchanged", lists_exchanged),
        (
            "versions-exchanged-in-writing",
            versions_exchanged_in_writing,
        ),
        ("image-crc-clipped", image_crc_clipped),
    ];
    let reading = reading.map(|(name, decode)| {
        (
            name,
            Side {
                decode,
                ..REFERENCE
            },
        )
    });
    let writing = writing.map(|(name, encode)| {
        (
            name,
            Side {
                encode,
                ..REFERENCE
            },
        )
    });
    reading.into_iter().chain(writing).collect()
}

/// Where a row has the places of lists; the lengths come after them.
fn places(message_type: MessageType) -> &'static [usize] {
    match message_type {
        MessageType::NodeInfoResponse => &[12, 14, 16],
        MessageType::Allocation => &[2],
        MessageType::KeyValue => &[1],
        MessageType::LogMessage => &[1, 3],
        MessageType::BatteryInfo => &[13],
        MessageType::GetSetRequest => &[3, 5],
        MessageType::GetSetResponse => &[2, 6, 12],
        _ => &[],
    }
}

/// Where it has tags, each with the number of its case after it.
fn tags(message_type: MessageType) -> &'static [usize] {
    match message_type {
        MessageType::GetSetRequest => &[1],
        MessageType::GetSetResponse => &[0, 4, 8, 10],
        _ => &[],
    }
}

/// Where it has signed numbers.
fn signed(message_type: MessageType) -> std::ops::Range<usize> {
    match message_type {
        MessageType::RawCommand => 1..21,
        MessageType::OpcodeRequest => 1..2,
        MessageType::OpcodeResponse => 0..1,
        _ => 0..0,
    }
}

fn each_place(
    t: MessageType,
    p: &[u8],
    n: usize,
    wrong: fn(u64, u64) -> u64,
) -> Result<Vec<u64>, Refusal> {
    let mut row = decode(t, p, n)?;
    for &at in places(t) {
        row[at] = wrong(row[at], row[at + 1]);
    }
    Ok(row)
}

fn place_of_the_length_field(t: MessageType, p: &[u8], n: usize) -> Result<Vec<u64>, Refusal> {
    let mut row = decode(t, p, n)?;
    match t {
        MessageType::LogMessage => row[1] -= 1,
        MessageType::NodeInfoResponse => row[14] -= 1,
        _ => (),
    }
    Ok(row)
}

fn sub_mode_told(t: MessageType, p: &[u8], n: usize) -> Result<Vec<u64>, Refusal> {
    let mut row = decode(t, p, n)?;
    if matches!(t, MessageType::NodeStatus | MessageType::NodeInfoResponse) {
        row[3] = u64::from(p[4] & 7);
    }
    Ok(row)
}

fn below_zero_in_32_bits(t: MessageType, p: &[u8], n: usize) -> Result<Vec<u64>, Refusal> {
    let mut row = decode(t, p, n)?;
    for at in signed(t) {
        row[at] &= 0xFFFF_FFFF;
    }
    Ok(row)
}

/// The digits of a NaN of 16 bits at the top of those of 32.
fn nan_kept(t: MessageType, p: &[u8], n: usize) -> Result<Vec<u64>, Refusal> {
    let mut row = decode(t, p, n)?;
    if t == MessageType::BatteryInfo {
        for (number, half) in row.iter_mut().zip(p[..14].chunks(2)) {
            let half = u16::from_le_bytes([half[0], half[1]]);
            if widen(half) == 0x7FC0_0000 {
                *number =
                    u64::from(half & 0x8000) << 16 | 0x7F80_0000 | u64::from(half & 0x3FF) << 13;
            }
        }
    }
    Ok(row)
}

fn versions_exchanged(t: MessageType, p: &[u8], n: usize) -> Result<Vec<u64>, Refusal> {
    let mut row = decode(t, p, n)?;
    if t == MessageType::NodeInfoResponse {
        row.swap(5, 10);
    }
    Ok(row)
}

fn no_text_at_0(t: MessageType, p: &[u8], n: usize) -> Result<Vec<u64>, Refusal> {
    let mut row = decode(t, p, n)?;
    for &at in tags(t) {
        if row[at] < 4 && places(t).contains(&(at + 2)) {
            row[at + 2] = 0;
        }
    }
    Ok(row)
}

/// A text's number is 0: here, its tag is.
fn tag_left_out(t: MessageType, p: &[u8], n: usize) -> Result<Vec<u64>, Refusal> {
    let mut row = decode(t, p, n)?;
    for &at in tags(t) {
        row[at] %= 4;
    }
    Ok(row)
}

fn eight_before_all(t: MessageType, p: &[u8], n: usize) -> Result<Vec<u64>, Refusal> {
    if n < numbers(t) {
        return Err(Refusal::OutputTooSmall);
    }
    decode(t, p, n)
}

fn filled(t: MessageType, row: &[u64]) -> Vec<u64> {
    let mut filled = row.to_vec();
    filled.resize(row.len().max(numbers(t)), 0);
    filled
}

fn fifteen_after_all(
    t: MessageType,
    row: &[u64],
    lists: &[&[u8]],
    out: &mut [u8],
) -> Result<usize, Refusal> {
    if row.len() < numbers(t) {
        encode(t, &filled(t, row), lists, &mut out.to_vec())?;
    }
    encode(t, row, lists, out)
}

fn row_filled_up(
    t: MessageType,
    row: &[u64],
    lists: &[&[u8]],
    out: &mut [u8],
) -> Result<usize, Refusal> {
    encode(t, &filled(t, row), lists, out)
}

/// With the row changed before it is written.
fn with(
    t: MessageType,
    row: &[u64],
    lists: &[&[u8]],
    out: &mut [u8],
    wrong: impl Fn(&mut [u64]),
) -> Result<usize, Refusal> {
    let mut row = row.to_vec();
    if row.len() >= numbers(t) {
        wrong(&mut row);
    }
    encode(t, &row, lists, out)
}

fn large_is_below_zero(
    t: MessageType,
    row: &[u64],
    lists: &[&[u8]],
    out: &mut [u8],
) -> Result<usize, Refusal> {
    with(t, row, lists, out, |row| {
        if t == MessageType::NodeStatus && row[0] >= 1 << 63 {
            row[0] = 0;
        }
    })
}

fn cut_to_32_bits(
    t: MessageType,
    row: &[u64],
    lists: &[&[u8]],
    out: &mut [u8],
) -> Result<usize, Refusal> {
    with(t, row, lists, out, |row| {
        if t == MessageType::Allocation {
            row[0] &= 0xFFFF_FFFF;
        }
    })
}

fn argument_without_sign(
    t: MessageType,
    row: &[u64],
    lists: &[&[u8]],
    out: &mut [u8],
) -> Result<usize, Refusal> {
    with(t, row, lists, out, |row| {
        for at in signed(t) {
            row[at] = row[at].min((1 << 63) - 1);
        }
    })
}

fn float_cut(
    t: MessageType,
    row: &[u64],
    lists: &[&[u8]],
    out: &mut [u8],
) -> Result<usize, Refusal> {
    with(t, row, lists, out, |row| match t {
        MessageType::KeyValue => row[0] &= 0xFFFF_FFFF,
        MessageType::BatteryInfo => row[6] &= 0xFFFF_FFFF,
        _ => (),
    })
}

fn no_float(t: MessageType, row: &[u64], any_case: bool) -> bool {
    row.len() >= numbers(t)
        && tags(t)
            .iter()
            .any(|&at| (row[at] == 2 || any_case) && row[at + 1] >> 32 != 0)
}

fn no_float_before_27(
    t: MessageType,
    row: &[u64],
    lists: &[&[u8]],
    out: &mut [u8],
) -> Result<usize, Refusal> {
    if no_float(t, row, false) {
        return Err(Refusal::NotAllowed);
    }
    encode(t, row, lists, out)
}

fn other_case_checked(
    t: MessageType,
    row: &[u64],
    lists: &[&[u8]],
    out: &mut [u8],
) -> Result<usize, Refusal> {
    let length = encode(t, row, lists, out)?;
    let empty = |&&at: &&usize| row[at] == 0 || row[at] == 4;
    if tags(t)
        .iter()
        .filter(empty)
        .any(|&at| row[at + 1] >> 32 != 0)
    {
        return Err(Refusal::NotAllowed);
    }
    Ok(length)
}

fn sub_mode_written(
    t: MessageType,
    row: &[u64],
    lists: &[&[u8]],
    out: &mut [u8],
) -> Result<usize, Refusal> {
    let length = encode(t, row, lists, out)?;
    if matches!(t, MessageType::NodeStatus | MessageType::NodeInfoResponse) {
        out[4] |= row[3].min(7) as u8;
    }
    Ok(length)
}

fn count_clipped(
    t: MessageType,
    row: &[u64],
    lists: &[&[u8]],
    out: &mut [u8],
) -> Result<usize, Refusal> {
    with(t, row, lists, out, |row| {
        if t == MessageType::RawCommand {
            row[0] = row[0].min(20);
        }
    })
}

fn list_as_long_as_the_row_says(
    t: MessageType,
    row: &[u64],
    lists: &[&[u8]],
    out: &mut [u8],
) -> Result<usize, Refusal> {
    if t == MessageType::KeyValue && row.len() >= numbers(t) {
        let length = lists[0].len().min(row[2].min(1 << 16) as usize);
        return encode(t, row, &[&lists[0][..length]], out);
    }
    encode(t, row, lists, out)
}

fn lists_exchanged(
    t: MessageType,
    row: &[u64],
    lists: &[&[u8]],
    out: &mut [u8],
) -> Result<usize, Refusal> {
    let mut lists = lists.to_vec();
    if lists.len() == 3 {
        lists.swap(0, 1);
    }
    encode(t, row, &lists, out)
}

fn versions_exchanged_in_writing(
    t: MessageType,
    row: &[u64],
    lists: &[&[u8]],
    out: &mut [u8],
) -> Result<usize, Refusal> {
    with(t, row, lists, out, |row| {
        if t == MessageType::NodeInfoResponse {
            row.swap(6, 11);
        }
    })
}

fn image_crc_clipped(
    t: MessageType,
    row: &[u64],
    lists: &[&[u8]],
    out: &mut [u8],
) -> Result<usize, Refusal> {
    with(t, row, lists, out, |row| {
        if t == MessageType::NodeInfoResponse {
            row[9] = row[9].min((1 << 63) - 1);
        }
    })
}
