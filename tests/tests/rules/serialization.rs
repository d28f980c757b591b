//! Messages (RULES 9 and 10): bit order, floats of 16 bits, the types both ways, and their refusals.

use crate::allocation_log::{ALLOCATION_LOG, UNIQUE_ID};
use reference::binary16::{narrow, widen};
use reference::bits::{signed, Reader, Refusal, Writer};
use reference::messages::{
    decode, encode, Allocation, BatteryInfo, HardwareVersion, KeyValue, LogMessage, Message,
    MessageType, NodeInfo, NodeStatus, RawCommand, SoftwareVersion, MOST_COMMANDS,
};

/// Numbers as their low bits.
fn written(fields: &[(i128, u32)]) -> Vec<u8> {
    let mut writer = Writer::default();
    for &(value, bits) in fields {
        writer.truncated(value, bits);
    }
    writer.into_bytes()
}

fn encoded(message: &Message) -> Result<Vec<u8>, Refusal> {
    let mut out = [0xEE; 600];
    let length = encode(message, &mut out)?;
    assert!(out[length..].iter().all(|&byte| byte == 0xEE));
    Ok(out[..length].to_vec())
}

/// The number that refuses a payload.
fn refusal(message_type: MessageType, payload: &[u8]) -> u32 {
    decode(message_type, payload)
        .expect_err("a refusal")
        .number()
}

#[test]
fn bit_order() {
    assert_eq!(written(&[(0xEDA, 12), (5, 4)]), [0xDA, 0xE5]);
    let example = [(0xBEDA, 12), (-1, 3), (-5, 4), (-1, 2), (0x88, 4)];
    assert_eq!(written(&example), [0xDA, 0xEF, 0x7C, 0x00]);
    assert_eq!(written(&[(1, 2), (7, 8)]), [0b0100_0001, 0b1100_0000]);
}

fn status() -> NodeStatus {
    NodeStatus {
        uptime: 0x0403_0201,
        health: 2,
        mode: 5,
        sub_mode: 0,
        vendor_code: 0xBEEF,
    }
}

fn info() -> NodeInfo<'static> {
    NodeInfo {
        status: status(),
        software: SoftwareVersion {
            major: 1,
            minor: 2,
            flags: 3,
            commit: 0x1122_3344,
            image_crc: 0x0102_0304_0506_0708,
        },
        hardware: HardwareVersion {
            major: 4,
            minor: 5,
            unique_id: &UNIQUE_ID,
            certificate: &[0xC1, 0xC2],
        },
        name: b"com.maker.gimbal-2_a",
    }
}

#[test]
fn node_status() {
    let bytes = [1, 2, 3, 4, 0b1010_1000, 0xEF, 0xBE];
    let message = Message::NodeStatus(status());
    assert_eq!(encoded(&message).unwrap(), bytes);
    assert_eq!(decode(MessageType::NodeStatus, &bytes), Ok(message));
    let with_sub_mode = [1, 2, 3, 4, 0b1010_1111, 0xEF, 0xBE];
    let read = decode(MessageType::NodeStatus, &with_sub_mode);
    assert_eq!(read, Ok(Message::NodeStatus(status())));
    for sub_mode in [-1, 7, 8, i128::MIN, i128::MAX] {
        let given = NodeStatus {
            sub_mode,
            ..status()
        };
        assert_eq!(encoded(&Message::NodeStatus(given)).unwrap(), bytes);
    }
    for length in 0..7 {
        assert_eq!(refusal(MessageType::NodeStatus, &bytes[..length]), 15);
    }
    assert_eq!(refusal(MessageType::NodeStatus, &[0; 8]), 16);
}

/// Both cast modes (RULES 9.14) by the values of RULES 15.2.
#[test]
fn cast_modes() {
    let by = |write: fn(&mut Writer, i128, u32), value, bits| {
        let mut writer = Writer::default();
        write(&mut writer, value, bits);
        writer.into_bytes()
    };
    let high = (1 << 56) + 5;
    assert_eq!(by(Writer::truncated, high, 56), [5, 0, 0, 0, 0, 0, 0]);
    assert_eq!(by(Writer::truncated, -1, 56), [255; 7]);
    assert_eq!(by(Writer::number, high, 56), [255; 7]);
    assert_eq!(by(Writer::number, -1, 56), [0; 7]);
    assert_eq!(by(Writer::signed, 200, 8), [127]);
    assert_eq!(by(Writer::signed, -200, 8), [128]);
    assert_eq!(by(Writer::truncated, 200, 8), [200]);
    assert_eq!(signed(200, 8), -56);
    assert_eq!(by(Writer::truncated, -200, 8), [56]);
}

/// Over every width: a number inside stays in both modes, one outside takes the nearest end in the
/// one and its low bits in the other.
#[test]
fn casts_of_every_width() {
    for bits in 1..=64 {
        let (size, half) = (1i128 << bits, 1i128 << (bits - 1));
        let mut numbers = vec![0, 1, half - 1, half, size - 1, size, size + 1, i128::MAX];
        numbers.extend(numbers.clone().iter().map(|number| -number));
        numbers.push(i128::MIN);
        for value in numbers {
            let mut writer = Writer::default();
            writer.number(value, bits);
            writer.signed(value, bits);
            writer.truncated(value, bits);
            let bytes = writer.into_bytes();
            let mut reader = Reader::new(&bytes);
            let nearest = value.max(0).min(size - 1);
            assert_eq!(reader.number(bits), Ok(nearest), "{value} in {bits}");
            let nearest = value.max(-half).min(half - 1);
            let read = reader.number(bits).map(|pattern| signed(pattern, bits));
            assert_eq!(read, Ok(nearest), "signed {value} in {bits}");
            assert_eq!(reader.number(bits), Ok(value.rem_euclid(size)));
        }
    }
}

/// Numbers outside of their fields, by the values of RULES 15.2.
#[test]
fn clipped_messages() {
    let status = Message::NodeStatus(NodeStatus {
        uptime: 1 << 32,
        health: 5,
        mode: -1,
        sub_mode: 0,
        vendor_code: 65_536,
    });
    let bytes = b"\xFF\xFF\xFF\xFF\xC0\xFF\xFF";
    assert_eq!(encoded(&status).unwrap(), bytes);
    for (node_id, first_part, byte) in [(200, -1, 0xFE), (128, 2, 0xFF), (-1, 2, 0x01)] {
        let message = Message::Allocation(Allocation {
            node_id,
            first_part,
            unique_id: &[],
        });
        assert_eq!(encoded(&message).unwrap(), [byte]);
    }
    for (level, first) in [(8, 0xE2), (-1, 0x02), (i128::MAX, 0xE2)] {
        let message = Message::LogMessage(LogMessage {
            level,
            source: b"ab",
            text: b"hot",
        });
        let bytes = [&[first], &b"abhot"[..]].concat();
        assert_eq!(encoded(&message).unwrap(), bytes);
    }
}

/// Each field by itself, with its bits; the sub-mode, as one of no bits, is always 0.
#[test]
fn numbers_of_node_info() {
    type Give = fn(&mut NodeInfo, i128);
    let fields: [(Give, u32); 12] = [
        (|one, number| one.status.uptime = number, 32),
        (|one, number| one.status.health = number, 2),
        (|one, number| one.status.mode = number, 3),
        (|one, number| one.status.sub_mode = number, 0),
        (|one, number| one.status.vendor_code = number, 16),
        (|one, number| one.software.major = number, 8),
        (|one, number| one.software.minor = number, 8),
        (|one, number| one.software.flags = number, 8),
        (|one, number| one.software.commit = number, 32),
        (|one, number| one.software.image_crc = number, 64),
        (|one, number| one.hardware.major = number, 8),
        (|one, number| one.hardware.minor = number, 8),
    ];
    for (give, bits) in fields {
        let top = (1i128 << bits) - 1;
        let half = top - top / 2;
        let inside = [(0, 0), (half, half), (top, top)];
        let outside = [(-1, 0), (i128::MIN, 0), (top + 1, top), (i128::MAX, top)];
        for (number, nearest) in inside.into_iter().chain(outside) {
            let (mut given, mut read) = (info(), info());
            give(&mut given, number);
            give(&mut read, nearest);
            let bytes = encoded(&Message::NodeInfoResponse(given)).unwrap();
            let actual = decode(MessageType::NodeInfoResponse, &bytes);
            assert_eq!(actual, Ok(Message::NodeInfoResponse(read)));
        }
    }
}

#[test]
fn allocation() {
    let payload = [&[0xFA], &UNIQUE_ID[..]].concat();
    let message = Message::Allocation(Allocation {
        node_id: 125,
        first_part: 0,
        unique_id: &UNIQUE_ID,
    });
    assert_eq!(encoded(&message).unwrap(), payload);
    assert_eq!(decode(MessageType::Allocation, &payload), Ok(message));
    let (_, _, first) = ALLOCATION_LOG[0];
    match decode(MessageType::Allocation, &first[..7]) {
        Ok(Message::Allocation(one)) => {
            assert_eq!((one.node_id, one.first_part), (0, 1));
            assert_eq!(one.unique_id, &UNIQUE_ID[..6]);
        }
        other => panic!("{other:?}"),
    }
    assert_eq!(refusal(MessageType::Allocation, &[]), 15);
    assert!(decode(MessageType::Allocation, &[0; 17]).is_ok());
    assert_eq!(refusal(MessageType::Allocation, &[0; 18]), 16);
    let long = Message::Allocation(Allocation {
        node_id: 0,
        first_part: 0,
        unique_id: &[0; 17],
    });
    assert_eq!(encoded(&long), Err(Refusal::NotAllowed));
}

#[test]
fn key_value() {
    let message = Message::KeyValue(KeyValue {
        value: 0x7FA0_0001,
        key: b"ab",
    });
    let bytes = [0x01, 0x00, 0xA0, 0x7F, b'a', b'b'];
    assert_eq!(encoded(&message).unwrap(), bytes);
    assert_eq!(decode(MessageType::KeyValue, &bytes), Ok(message));
    assert_eq!(refusal(MessageType::KeyValue, &[0; 3]), 15);
    assert!(decode(MessageType::KeyValue, &[0; 62]).is_ok());
    assert_eq!(refusal(MessageType::KeyValue, &[0; 63]), 16);
    let long = Message::KeyValue(KeyValue {
        value: 0,
        key: &[0; 59],
    });
    assert_eq!(encoded(&long), Err(Refusal::NotAllowed));
}

#[test]
fn log_message() {
    let message = Message::LogMessage(LogMessage {
        level: 5,
        source: b"src",
        text: b"text",
    });
    let bytes = b"\xA3srctext";
    assert_eq!(encoded(&message).unwrap(), bytes);
    assert_eq!(decode(MessageType::LogMessage, bytes), Ok(message));
    assert_eq!(refusal(MessageType::LogMessage, &[]), 15);
    assert_eq!(refusal(MessageType::LogMessage, b"\x03sr"), 15);
    assert!(decode(MessageType::LogMessage, &[0; 91]).is_ok());
    assert_eq!(refusal(MessageType::LogMessage, &[0; 92]), 16);
    for (source, text) in [(32, 0), (0, 91)] {
        let message = Message::LogMessage(LogMessage {
            level: 9,
            source: &[0; 99][..source],
            text: &[0; 99][..text],
        });
        assert_eq!(encoded(&message), Err(Refusal::NotAllowed));
    }
}

/// The patterns of RULES 15.2.
#[test]
fn floats_of_16_bits() {
    let coming = [
        (0x3C00, 0x3F80_0000),
        (0x0001, 0x3380_0000),
        (0x03FF, 0x387F_C000),
        (0x7BFF, 0x477F_E000),
        (0x8000, 0x8000_0000),
        (0xFC00, 0xFF80_0000),
        (0xFFFF, 0x7FC0_0000),
    ];
    for (half, single) in coming {
        assert_eq!(widen(half), single, "{half:#x}");
    }
    let going = [
        (0x3F80_1000, 0x3C00),
        (0x3F80_3000, 0x3C02),
        (0x3300_0000, 0x0000),
        (0x3300_0001, 0x0001),
        (0x387F_E000, 0x0400),
        (0x477F_EFFF, 0x7BFF),
        (0x477F_F000, 0x7BFF),
        (0x8000_0001, 0x8000),
        (0xFF7F_FFFF, 0xFBFF),
        (0xFF80_0000, 0xFC00),
        (0xFF80_0001, 0x7E00),
    ];
    for (single, half) in going {
        assert_eq!(narrow(single), half, "{single:#x}");
    }
}

/// Compared as an f64, which holds every value of both formats.
#[test]
fn every_binary16_has_its_value() {
    for half in 0..=u16::MAX {
        let (single, code) = (f32::from_bits(widen(half)), half & 0x7FFF);
        if code > 0x7C00 {
            assert_eq!((widen(half), narrow(widen(half))), (0x7FC0_0000, 0x7E00));
            continue;
        }
        assert_eq!(narrow(widen(half)), half);
        assert_eq!(single.is_sign_negative(), half > 0x7FFF);
        if code < 0x7C00 {
            let (exponent, digits) = (i32::from(code >> 10), f64::from(code & 0x3FF));
            let leading = if exponent == 0 { 0.0 } else { 1024.0 };
            let value = (leading + digits) * 2f64.powi(exponent.max(1) - 25);
            assert_eq!(f64::from(single.abs()), value);
        }
    }
}

fn battery() -> BatteryInfo<'static> {
    BatteryInfo {
        floats: [300.0, 22.203125, -1.5, 33.3125, 40.0, 100.0, f32::NAN].map(f32::to_bits),
        status_flags: 3,
        health: 127,
        charge: 40,
        charge_deviation: 2,
        battery_id: 1,
        model_instance_id: 0x1234_5678,
        model_name: b"LiPo",
    }
}

#[test]
fn battery_info() {
    let bytes = b"\xB0\x5C\x8D\x4D\x00\xBE\x2A\x50\x00\x51\x40\x56\x00\x7E\
        \x03\x1F\xD4\x02\x01\x78\x56\x34\x12LiPo";
    let message = Message::BatteryInfo(battery());
    assert_eq!(encoded(&message).unwrap(), bytes);
    assert_eq!(decode(MessageType::BatteryInfo, bytes), Ok(message));
    for end in 0..23 {
        assert_eq!(refusal(MessageType::BatteryInfo, &bytes[..end]), 15);
    }
    assert!(decode(MessageType::BatteryInfo, &[0; 54]).is_ok());
    assert_eq!(refusal(MessageType::BatteryInfo, &[0; 55]), 16);
    let long = Message::BatteryInfo(BatteryInfo {
        status_flags: 2048,
        model_name: &[0; 32],
        ..battery()
    });
    assert_eq!(encoded(&long), Err(Refusal::NotAllowed));
}

#[test]
fn numbers_of_battery_info() {
    let given = |numbers: [i128; 6]| {
        let [status_flags, health, charge, charge_deviation, battery_id, model_instance_id] =
            numbers;
        Message::BatteryInfo(BatteryInfo {
            floats: [0; 7],
            status_flags,
            health,
            charge,
            charge_deviation,
            battery_id,
            model_instance_id,
            model_name: b"",
        })
    };
    let sample = given([4095, 200, -1, 128, 300, 1 << 32]);
    let bytes = [&[0; 14], &b"\xFF\xFF\xC0\x7F\xFF\xFF\xFF\xFF\xFF"[..]].concat();
    assert_eq!(encoded(&sample).unwrap(), bytes);
    let highest = [2047, 127, 127, 127, 255, u32::MAX.into()];
    let clipped = [
        ([2048, 128, 128, 128, 256, 1 << 32], highest),
        ([i128::MAX; 6], highest),
        ([-1; 6], [0; 6]),
        ([i128::MIN; 6], [0; 6]),
    ];
    for (numbers, nearest) in clipped {
        let bytes = encoded(&given(numbers)).unwrap();
        let read = decode(MessageType::BatteryInfo, &bytes);
        assert_eq!(read, Ok(given(nearest)));
    }
}

/// These numbers, and in the places past them the last argument.
fn commands(numbers: &[i128], past: i128) -> Message<'static> {
    let mut places = [past; MOST_COMMANDS];
    places[..numbers.len()].copy_from_slice(numbers);
    Message::RawCommand(RawCommand {
        count: numbers.len(),
        places,
    })
}

#[test]
fn raw_command() {
    let bytes = b"\x00\x83\xFD\xFF\xFF\xC0\x40";
    let numbers = [-8192, 8191, -1, 1];
    assert_eq!(encoded(&commands(&numbers, 7)).unwrap(), bytes);
    let read = decode(MessageType::RawCommand, bytes);
    assert_eq!(read, Ok(commands(&numbers, 0)));
    let outside = [-8193, 8192, i64::MIN.into(), i64::MAX.into()];
    let nearest = encoded(&commands(&[-8192, 8191, -8192, 8191], 0));
    assert_eq!(encoded(&commands(&outside, 0)), nearest);
    let too_many = Message::RawCommand(RawCommand {
        count: 21,
        places: [8192; MOST_COMMANDS],
    });
    assert_eq!(encoded(&too_many), Err(Refusal::NotAllowed));
}

/// Only the lengths of 0 to 20 numbers are read, and only with padding that is zero.
#[test]
fn lengths_and_padding_of_raw_command() {
    let lengths: Vec<usize> = (0..=20)
        .map(|count: usize| (14 * count).div_ceil(8))
        .collect();
    for length in 0..=40 {
        let zeros = vec![0; length];
        let Some(count) = lengths.iter().position(|&one| one == length) else {
            assert_eq!(refusal(MessageType::RawCommand, &zeros), 16);
            assert_eq!(refusal(MessageType::RawCommand, &vec![255; length]), 16);
            continue;
        };
        let read = decode(MessageType::RawCommand, &zeros);
        assert_eq!(read, Ok(commands(&vec![0; count], 0)));
        for bit in 0..8 * length - 14 * count {
            let mut bytes = zeros.clone();
            bytes[length - 1] |= 1 << bit;
            assert_eq!(refusal(MessageType::RawCommand, &bytes), 25);
        }
    }
}

/// RULES 9.4 over every width and start: what is written is read, whatever the padding's length.
#[test]
fn lists_at_the_end_of_every_width() {
    for (start, bits) in (0..8).flat_map(|start| (8..=64).map(move |bits| (start, bits))) {
        for count in 0..10 {
            let mut writer = Writer::default();
            writer.number(0, start);
            let items: Vec<i128> = (0..count).map(|item| (1 << bits) - 1 - item).collect();
            for &item in &items {
                writer.number(item, bits);
            }
            let bytes = writer.into_bytes();
            let mut reader = Reader::new(&bytes);
            assert_eq!(reader.number(start), Ok(0));
            assert_eq!(reader.last_numbers(bits, 10), Ok(items));
            assert_eq!(reader.end(), Ok(()));
        }
    }
}

#[test]
fn node_info_request_is_empty() {
    assert_eq!(encode(&Message::NodeInfoRequest, &mut []), Ok(0));
    let read = decode(MessageType::NodeInfoRequest, &[]);
    assert_eq!(read, Ok(Message::NodeInfoRequest));
    assert_eq!(refusal(MessageType::NodeInfoRequest, &[0]), 16);
}

fn info_bytes() -> Vec<u8> {
    let mut bytes = vec![1, 2, 3, 4, 0b1010_1000, 0xEF, 0xBE];
    bytes.extend([1, 2, 3, 0x44, 0x33, 0x22, 0x11, 8, 7, 6, 5, 4, 3, 2, 1]);
    bytes.extend([4, 5]);
    bytes.extend(UNIQUE_ID);
    bytes.extend([2, 0xC1, 0xC2]);
    bytes.extend(b"com.maker.gimbal-2_a");
    bytes
}

#[test]
fn node_info_response() {
    let message = Message::NodeInfoResponse(info());
    assert_eq!(encoded(&message).unwrap(), info_bytes());
    let bytes = info_bytes();
    assert_eq!(decode(MessageType::NodeInfoResponse, &bytes), Ok(message));
}

#[test]
fn node_name_is_the_rest_of_the_payload() {
    let bytes = info_bytes();
    let fixed = bytes.len() - info().name.len();
    for length in 0..fixed {
        assert_eq!(refusal(MessageType::NodeInfoResponse, &bytes[..length]), 15);
    }
    assert_eq!(refusal(MessageType::NodeInfoResponse, &bytes[..fixed]), 17);
    let with_name = |name: &[u8]| [&bytes[..fixed], name].concat();
    let longest = with_name(&[b'z'; 80]);
    match decode(MessageType::NodeInfoResponse, &longest) {
        Ok(Message::NodeInfoResponse(info)) => assert_eq!(info.name, [b'z'; 80]),
        other => panic!("{other:?}"),
    }
    let too_long = with_name(&[b'Z'; 81]);
    assert_eq!(refusal(MessageType::NodeInfoResponse, &too_long), 16);
    for bad in [b'A', b' ', b'/', b'`', b'{', b':', 0, 0xE1] {
        let name = with_name(&[b'a', bad]);
        assert_eq!(refusal(MessageType::NodeInfoResponse, &name), 17);
    }
}

#[test]
fn node_info_lists_to_be_written() {
    let hardware = |unique_id, certificate| HardwareVersion {
        unique_id,
        certificate,
        ..info().hardware
    };
    let refused = [
        NodeInfo {
            name: b"",
            ..info()
        },
        NodeInfo {
            name: b"Name",
            ..info()
        },
        NodeInfo {
            name: &[b'a'; 81],
            ..info()
        },
        NodeInfo {
            hardware: hardware(&[0; 15], &[]),
            ..info()
        },
        NodeInfo {
            hardware: hardware(&[0; 17], &[]),
            ..info()
        },
        NodeInfo {
            hardware: hardware(&[0; 16], &[0; 256]),
            ..info()
        },
    ];
    for info in refused {
        let message = Message::NodeInfoResponse(info);
        assert_eq!(encode(&message, &mut []), Err(Refusal::NotAllowed));
    }
    let longest = Message::NodeInfoResponse(NodeInfo {
        hardware: hardware(&[0; 16], &[9; 255]),
        name: &[b'a'; 80],
        ..info()
    });
    assert_eq!(encoded(&longest).unwrap().len(), 7 + 15 + 18 + 256 + 80);
}

#[test]
fn room_of_exactly_the_length_suffices() {
    let message = Message::NodeInfoResponse(info());
    let length = info_bytes().len();
    let mut out = vec![0xEE; length];
    assert_eq!(
        encode(&message, &mut out[..length - 1]),
        Err(Refusal::OutputTooSmall)
    );
    assert_eq!(out, vec![0xEE; length]);
    assert_eq!(encode(&message, &mut out), Ok(length));
}
