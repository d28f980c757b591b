//! Parameters (RULES 9.15 and 10.11 to 10.15): unions, GetSet and ExecuteOpcode, both ways.

use reference::bits::{Reader, Refusal, Writer};
use reference::messages::{
    decode, encode, GetSetRequest, GetSetResponse, Message, MessageType, OpcodeRequest,
    OpcodeResponse, Parameter,
};

fn encoded(message: &Message) -> Result<Vec<u8>, Refusal> {
    let mut out = [0xEE; 600];
    let length = encode(message, &mut out)?;
    assert!(out[length..].iter().all(|&byte| byte == 0xEE));
    Ok(out[..length].to_vec())
}

/// The number that reading answers.
fn reading(message_type: MessageType, payload: &[u8]) -> u32 {
    decode(message_type, payload).map_or_else(|refusal| refusal.number(), |_| 0)
}

/// The number that writing into so much room answers, with the room untouched if it is a refusal.
fn writing(message: &Message, room: usize) -> u32 {
    let mut out = vec![0xEE; room];
    let result = encode(message, &mut out);
    assert!(result.is_ok() || out.iter().all(|&byte| byte == 0xEE));
    result.map_or_else(|refusal| refusal.number(), |_| 0)
}

/// Written as these bytes, and read from them.
fn both_ways(message: &Message, bytes: &[u8]) {
    assert_eq!(encoded(message).unwrap(), bytes);
    assert_eq!(decode(message.message_type(), bytes), Ok(message.clone()));
}

fn empty() -> Parameter<'static> {
    Parameter::default()
}

fn unknown(tag: i128) -> Parameter<'static> {
    Parameter { tag, ..empty() }
}

fn integer(integer: i128) -> Parameter<'static> {
    Parameter {
        tag: 1,
        integer,
        ..empty()
    }
}

fn real(real: i128) -> Parameter<'static> {
    Parameter {
        tag: 2,
        real,
        ..empty()
    }
}

fn boolean(boolean: i128) -> Parameter<'static> {
    Parameter {
        tag: 3,
        boolean,
        ..empty()
    }
}

fn text(text: &[u8]) -> Parameter<'_> {
    Parameter {
        tag: 4,
        text,
        ..empty()
    }
}

fn request<'a>(index: i128, value: Parameter<'a>, name: &'a [u8]) -> Message<'a> {
    Message::GetSetRequest(GetSetRequest { index, value, name })
}

fn response<'a>(values: [Parameter<'a>; 4], name: &'a [u8]) -> Message<'a> {
    let [value, default, highest, lowest] = values;
    Message::GetSetResponse(GetSetResponse {
        value,
        default,
        highest,
        lowest,
        name,
    })
}

fn asked(opcode: i128, argument: i128) -> Message<'static> {
    Message::OpcodeRequest(OpcodeRequest { opcode, argument })
}

fn answered(argument: i128, ok: i128) -> Message<'static> {
    Message::OpcodeResponse(OpcodeResponse { argument, ok })
}

const REQUEST: MessageType = MessageType::GetSetRequest;
const RESPONSE: MessageType = MessageType::GetSetResponse;
const TEN: i128 = 0x4120_0000;

/// The fewest bits that number all cases, and 27 for the rest of what these bits hold.
#[test]
fn tags_of_every_number_of_cases() {
    for (cases, bits) in [
        (2, 1),
        (3, 2),
        (4, 2),
        (5, 3),
        (8, 3),
        (9, 4),
        (16, 4),
        (17, 5),
    ] {
        for tag in 0..1i128 << bits {
            let mut writer = Writer::default();
            writer.truncated(tag, bits);
            writer.truncated(-1, 8 - bits);
            let bytes = writer.into_bytes();
            let mut reader = Reader::new(&bytes);
            let known = tag < cases as i128;
            let read = reader.tag(cases);
            assert_eq!(
                read,
                if known {
                    Ok(tag)
                } else {
                    Err(Refusal::UnknownTag)
                }
            );
            assert_eq!(reader.number(8 - bits), Ok((1 << (8 - bits)) - 1));
        }
        assert_eq!(Reader::new(&[]).tag(cases), Err(Refusal::PayloadEnds));
        for tag in [-1, cases as i128, i128::MIN, i128::MAX] {
            let mut writer = Writer::default();
            writer.tag(tag, cases);
            assert_eq!(writer.finish(&mut []), Err(Refusal::UnknownTag));
        }
        let mut writer = Writer::default();
        writer.tag(cases as i128 - 1, cases);
        writer.truncated(-1, 8 - bits);
        let first = (cases as u8 - 1) << (8 - bits) | 0xFF >> bits;
        assert_eq!(writer.into_bytes(), [first]);
    }
}

/// The values of RULES 15.2.
#[test]
fn get_set_request() {
    both_ways(&request(5, empty(), b"gain"), b"\x05\x00gain");
    let minus_two = b"\x00\x01\xFE\xFF\xFF\xFF\xFF\xFF\xFF\xFFab";
    both_ways(&request(0, integer(-2), b"ab"), minus_two);
    both_ways(&request(8191, text(b"on"), b"ab"), b"\xFF\xFC\x02onab");
    both_ways(
        &request(0, real(0x7F80_0001), b""),
        &[0, 2, 1, 0, 0x80, 0x7F],
    );
    both_ways(&request(256, boolean(2), b"x"), b"\x00\x0B\x02x");
    both_ways(&request(0, text(b""), b""), &[0, 4, 0]);
}

/// The values of RULES 15.2. Padding is ignored, and goes out as zero.
#[test]
fn get_set_response() {
    let values = [integer(5), boolean(1), real(TEN), empty()];
    let message = response(values, b"ab");
    let bytes = b"\x01\x05\0\0\0\0\0\0\0\x03\x01\x02\0\0\x20\x41\0ab";
    both_ways(&message, bytes);
    let padded = b"\xF9\x05\0\0\0\0\0\0\0\xFB\x01\xFE\0\0\x20\x41\xFCab";
    assert_eq!(decode(RESPONSE, padded), Ok(message));
    let texts = [text(b"on"), text(b""), integer(i64::MIN.into()), real(0)];
    let bytes = b"\x04\x02on\x04\x00\x01\0\0\0\0\0\0\0\x80\x02\0\0\0\0";
    both_ways(&response(texts, b""), bytes);
    both_ways(&response([(); 4].map(|()| empty()), b""), &[0; 4]);
}

/// The longest of each.
#[test]
fn lengths() {
    let (long, name) = ([b'b'; 128], [b'a'; 92]);
    let longest = request(0, text(&long), &name);
    assert_eq!(encoded(&longest).unwrap().len(), 223);
    assert_eq!([222, 223].map(|room| writing(&longest, room)), [8, 0]);
    let values = [text(&long), text(&long), integer(-1), integer(1)];
    let longest = response(values, &name);
    assert_eq!(encoded(&longest).unwrap().len(), 370);
    assert_eq!([369, 370].map(|room| writing(&longest, room)), [8, 0]);
    let shortest = response([(); 4].map(|()| empty()), b"");
    assert_eq!([3, 4].map(|room| writing(&shortest, room)), [8, 0]);
}

/// An unknown tag in reading: 27 at that field, whatever follows; a cut before it is 15.
#[test]
fn unknown_tags_read() {
    for tag in 5..8 {
        assert_eq!(reading(REQUEST, &[0xFF, 0xF8 | tag]), 27);
        let mut long = vec![0; 400];
        long[1] = tag;
        assert_eq!(reading(REQUEST, &long), 27);
        assert_eq!(reading(RESPONSE, &[tag]), 27);
        assert_eq!(reading(RESPONSE, &[0xF8 | tag, 0, 0, 0]), 27);
        assert_eq!(reading(RESPONSE, &[0, tag]), 27);
        assert_eq!(reading(RESPONSE, &[4, 0, tag]), 27);
    }
    assert_eq!(reading(RESPONSE, &[0, 0, 3]), 27);
    assert_eq!(reading(RESPONSE, &[0, 0, 0xFF]), 27);
    assert_eq!(reading(RESPONSE, &[0, 0, 0, 3, 1]), 27);
    assert_eq!(reading(RESPONSE, &[1, 0, 0, 7]), 15);
    let mut text = vec![b'b'; 131];
    text[..2].copy_from_slice(&[4, 129]);
    text.push(7);
    assert_eq!(reading(RESPONSE, &text), 16);
}

/// A payload that ends inside a field, padding and length field too.
#[test]
fn cuts() {
    let long = [b'b'; 128];
    let values = [empty(), integer(-1), real(TEN), boolean(255), text(&long)];
    for value in values {
        let bytes = encoded(&request(1, value.clone(), b"")).unwrap();
        for end in 0..bytes.len() {
            assert_eq!(reading(REQUEST, &bytes[..end]), 15, "{value:?} to {end}");
        }
        for limit in [empty(), integer(1), real(1)] {
            let values = [value.clone(), value.clone(), limit.clone(), limit];
            let bytes = encoded(&response(values, b"")).unwrap();
            for end in 0..bytes.len() {
                assert_eq!(reading(RESPONSE, &bytes[..end]), 15, "{bytes:?} to {end}");
            }
        }
    }
}

/// A text: 15 covers its length field and its bytes, before 16.
#[test]
fn texts_read() {
    let of_length = |length: u8, there: usize| {
        let mut payload = vec![b'b'; 3 + there];
        payload[..3].copy_from_slice(&[0, 4, length]);
        reading(REQUEST, &payload)
    };
    assert_eq!(of_length(200, 150), 15);
    assert_eq!(of_length(200, 199), 15);
    assert_eq!(of_length(200, 200), 16);
    assert_eq!(of_length(129, 128), 15);
    assert_eq!(of_length(129, 129), 16);
    assert_eq!(of_length(128, 128), 0);
    assert_eq!(of_length(128, 220), 0);
    assert_eq!(of_length(128, 221), 16);
    assert_eq!(of_length(255, 255), 16);
}

/// Any bytes make a name, none too; 93 do not.
#[test]
fn names() {
    for name in [&b""[..], b"A b\0\xFF", &[0xFF; 92]] {
        let message = request(0, empty(), name);
        let bytes = encoded(&message).unwrap();
        assert_eq!(decode(REQUEST, &bytes), Ok(message));
        let message = response([(); 4].map(|()| empty()), name);
        let bytes = encoded(&message).unwrap();
        assert_eq!(decode(RESPONSE, &bytes), Ok(message));
    }
    assert_eq!(reading(REQUEST, &[0; 2 + 93]), 16);
    assert_eq!(reading(RESPONSE, &[0; 4 + 93]), 16);
    let name = [b'a'; 93];
    assert_eq!(writing(&request(0, empty(), &name), 0), 17);
    let message = response([(); 4].map(|()| empty()), &name);
    assert_eq!(writing(&message, 0), 17);
}

/// An unknown tag in writing: 27 over all tags, before every 17 and before 8, and never clipped.
#[test]
fn unknown_tags_written() {
    let (long, name) = ([b'b'; 129], [b'a'; 93]);
    for tag in [-1, 5, 6, 7, 8, 256, 1 << 32, 1 << 64, i128::MIN, i128::MAX] {
        for (room, name) in [(600, &b"a"[..]), (600, &name), (0, &name)] {
            assert_eq!(writing(&request(0, unknown(tag), name), room), 27);
            for at in 0..4 {
                let mut values = [text(&long), text(&long), real(-1), empty()];
                values[at] = unknown(tag);
                assert_eq!(writing(&response(values, name), room), 27, "{tag} at {at}");
            }
        }
    }
    for tag in [3, 4] {
        for at in 2..4 {
            let mut values = [(); 4].map(|()| empty());
            values[at] = unknown(tag);
            assert_eq!(writing(&response(values, b""), 600), 27);
        }
    }
}

/// 17 for a text too long and for a real beyond 32 bits, if the tag names it; then 8.
#[test]
fn only_the_chosen_case_is_checked() {
    let long = [b'b'; 129];
    assert_eq!(writing(&request(0, text(&long), b""), 0), 17);
    for bits in [-1, 1 << 32, i128::MIN, i128::MAX] {
        assert_eq!(writing(&request(0, real(bits), b""), 0), 17);
        let values = [empty(), empty(), empty(), real(bits)];
        assert_eq!(writing(&response(values, b""), 0), 17);
    }
    let bytes: [&[u8]; 4] = [&[0, 0], &[0, 1, 7, 0, 0, 0, 0, 0, 0, 0], &[], &[0, 3, 9]];
    for tag in [0, 1, 3] {
        let value = Parameter {
            tag,
            integer: 7,
            real: -1,
            boolean: 9,
            text: &long,
        };
        let written = encoded(&request(0, value, b"")).unwrap();
        assert_eq!(written, bytes[tag as usize]);
    }
    let value = Parameter {
        tag: 2,
        text: &long,
        ..empty()
    };
    let written = encoded(&request(0, value, b"")).unwrap();
    assert_eq!(written, [0, 2, 0, 0, 0, 0]);
}

/// Numbers outside of their fields are clipped; a boolean has 8 bits, and a real is kept as it is.
#[test]
fn numbers_of_parameters() {
    let value = |value| encoded(&request(0, value, b"")).unwrap()[2..].to_vec();
    let booleans = [-1, 0, 1, 2, 255, 256, 300, i128::MAX].map(|number| value(boolean(number)));
    assert_eq!(
        booleans,
        [0, 0, 1, 2, 255, 255, 255, 255].map(|byte| vec![byte])
    );
    for number in [1 << 63, i128::MAX, i64::MAX.into()] {
        assert_eq!(value(integer(number)), i64::MAX.to_le_bytes());
    }
    for number in [-(1 << 63) - 1, i128::MIN, i64::MIN.into()] {
        assert_eq!(value(integer(number)), i64::MIN.to_le_bytes());
    }
    for bits in [0, 0x7F80_0001, 0xFFFF_FFFF, 0x8000_0000, 0x7FC0_0000u32] {
        assert_eq!(value(real(bits.into())), bits.to_le_bytes());
    }
    let index = |index| encoded(&request(index, empty(), b"")).unwrap();
    assert_eq!([8191, 8192, i128::MAX].map(index), [[0xFF, 0xF8]; 3]);
    assert_eq!([0, -1, i128::MIN].map(index), [[0, 0]; 3]);
}

/// The values of RULES 15.2, and the ends of 48 bits.
#[test]
fn execute_opcode_request() {
    both_ways(&asked(1, -1), b"\x01\xFF\xFF\xFF\xFF\xFF\xFF");
    both_ways(&asked(255, (1 << 47) - 1), b"\xFF\xFF\xFF\xFF\xFF\xFF\x7F");
    both_ways(&asked(0, -(1 << 47)), b"\0\0\0\0\0\0\x80");
    let clipped = encoded(&asked(256, 1 << 47)).unwrap();
    assert_eq!(clipped, b"\xFF\xFF\xFF\xFF\xFF\xFF\x7F");
    let clipped = encoded(&asked(-1, -(1 << 47) - 1)).unwrap();
    assert_eq!(clipped, b"\0\0\0\0\0\0\x80");
    for length in 0..7 {
        assert_eq!(reading(MessageType::OpcodeRequest, &vec![0; length]), 15);
        assert_eq!(writing(&asked(0, 0), length), 8);
    }
    assert_eq!(reading(MessageType::OpcodeRequest, &[0; 8]), 16);
}

/// The values of RULES 15.2. The seven bits left are zero, else 25; eight bytes are 16, whatever
/// they hold.
#[test]
fn execute_opcode_response() {
    const OPCODE: MessageType = MessageType::OpcodeResponse;
    both_ways(&answered(-2, 1), b"\xFE\xFF\xFF\xFF\xFF\xFF\x80");
    both_ways(&answered(5, 0), b"\x05\0\0\0\0\0\0");
    for last in 0..=255 {
        let expected = if last & 0x7F == 0 { 0 } else { 25 };
        assert_eq!(reading(OPCODE, &[0, 0, 0, 0, 0, 0, last]), expected);
        assert_eq!(reading(OPCODE, &[0, 0, 0, 0, 0, 0, last, last]), 16);
    }
    for ok in [1, 2, i128::MAX] {
        assert_eq!(encoded(&answered(0, ok)).unwrap(), [0, 0, 0, 0, 0, 0, 0x80]);
    }
    for ok in [0, -1, i128::MIN] {
        assert_eq!(encoded(&answered(0, ok)).unwrap(), [0; 7]);
    }
    let clipped = encoded(&answered(i128::MIN, 1)).unwrap();
    assert_eq!(clipped, [0, 0, 0, 0, 0, 0x80, 0x80]);
    for length in 0..7 {
        assert_eq!(reading(OPCODE, &vec![0xFF; length]), 15);
        assert_eq!(writing(&answered(0, 0), length), 8);
    }
}
