//! Reception (RULES 2 to 4): the frame's fields, published examples, and the edges of each rule.

use crate::allocation_log::{ALLOCATION_LOG, UNIQUE_ID};
use reference::definitions;
use reference::frame::{forward_distance, priority_of, Stream, TransferType};
use reference::receive::{Answer, Frame, Receiver, Subscription};
use reference::send::split;
use reference::session::{SWITCH_DELAY, TIMEOUT};

const SIGNATURE: u64 = 0x1122_3344_5566_7788;
const TYPE: u16 = 500;

/// The stream of node 9's messages of `TYPE`.
const STREAM: Stream = Stream {
    transfer_type: TransferType::Message,
    type_id: TYPE,
    source: 9,
    destination: 0,
};

fn subscription(service: bool, type_id: u16) -> Subscription {
    Subscription {
        service,
        type_id,
        signature: SIGNATURE,
    }
}

/// Node 5, subscribed to message `TYPE`, message 2 and service 7.
fn receiver() -> Receiver {
    let list = vec![
        subscription(false, TYPE),
        subscription(false, 2),
        subscription(true, 7),
    ];
    Receiver::setup(5, list).unwrap()
}

fn receive(receiver: &mut Receiver, id: u32, data: &[u8], time: u64) -> Answer {
    receive_by(receiver, 0, id, data, time)
}

fn receive_by(receiver: &mut Receiver, interface: u32, id: u32, data: &[u8], time: u64) -> Answer {
    let frame = Frame {
        id,
        data,
        interface,
        time,
    };
    receiver.receive(&frame, 512)
}

/// The number answered to a frame of `STREAM`.
fn number(receiver: &mut Receiver, data: &[u8], time: u64) -> u32 {
    receive(receiver, STREAM.id(16, 0), data, time).number()
}

/// The same by an interface.
fn number_by(receiver: &mut Receiver, interface: u32, data: &[u8], time: u64) -> u32 {
    receive_by(receiver, interface, STREAM.id(16, 0), data, time).number()
}

fn from_source(source: u8) -> u32 {
    Stream { source, ..STREAM }.id(16, 0)
}

fn payload_of(answer: Answer) -> Vec<u8> {
    match answer {
        Answer::HandedOut(transfer) => transfer.payload,
        other => panic!("nothing handed out: {other:?}"),
    }
}

/// The session in a place: transfer ID expected, bytes in hand, toggle and time.
fn session(receiver: &Receiver, place: usize) -> (u8, usize, bool, u64) {
    let session = receiver.places[place].as_ref().expect("a session");
    let count = session.gathered.len();
    (session.expected_id, count, session.toggle, session.time)
}

#[test]
fn forward_distances() {
    let samples = [
        (0, 0, 0),
        (0, 1, 1),
        (0, 5, 5),
        (0, 7, 7),
        (7, 7, 0),
        (31, 30, 31),
        (31, 0, 1),
    ];
    for (a, b, distance) in samples {
        assert_eq!(forward_distance(a, b), distance, "{a} to {b}");
    }
}

#[test]
fn fields_of_ids() {
    let id = 0x1E00_0101;
    let allocation = Stream {
        transfer_type: TransferType::Message,
        type_id: 1,
        source: 1,
        destination: 0,
    };
    assert_eq!(Stream::of_id(id), allocation);
    assert_eq!(priority_of(id), 30);
    let anonymous = Stream::of_id(0x1001_5500);
    assert_eq!((anonymous.type_id, anonymous.source), (1, 0));
    let request = Stream {
        transfer_type: TransferType::Request,
        type_id: 30,
        source: 1,
        destination: 3,
    };
    assert_eq!(Stream::of_id(0x1E1E_8381), request);
    assert_eq!(request.id(30, 9999), 0x1E1E_8381);
    let response = Stream::of_id(0x1E1E_0183);
    assert_eq!(response.transfer_type, TransferType::Response);
    assert_eq!((response.source, response.destination), (3, 1));
}

#[test]
fn allocation_log_is_received() {
    let list = vec![Subscription {
        service: false,
        type_id: definitions::ALLOCATION,
        signature: definitions::allocation(),
    }];
    let mut receiver = Receiver::setup(1, list).unwrap();
    let mut payloads = Vec::new();
    let numbers: Vec<u32> = ALLOCATION_LOG
        .iter()
        .map(|&(time, id, data)| {
            let answer = receive(&mut receiver, id, data, time * 1000);
            let number = answer.number();
            if number == 1 {
                payloads.push(payload_of(answer));
            }
            number
        })
        .collect();
    assert_eq!(numbers, [1, 1, 1, 0, 0, 1, 1, 0, 0, 1]);
    assert_eq!(payloads[3], [&[0], &UNIQUE_ID[..12]].concat());
    assert_eq!(payloads[5], [&[0xFA], &UNIQUE_ID[..]].concat());
}

#[test]
fn setup_refuses_what_13_names() {
    assert!(Receiver::setup(127, vec![]).is_some());
    assert!(Receiver::setup(128, vec![]).is_none());
    let many = |count| (0..count).map(|type_id| subscription(false, type_id));
    assert!(Receiver::setup(0, many(64).collect()).is_some());
    assert!(Receiver::setup(0, many(65).collect()).is_none());
    let twice = vec![subscription(true, 7), subscription(true, 7)];
    assert!(Receiver::setup(0, twice).is_none());
    let both_kinds = vec![subscription(true, 7), subscription(false, 7)];
    assert!(Receiver::setup(0, both_kinds).is_some());
    assert!(Subscription::of_numbers(0, 65535, 0).is_some());
    assert!(Subscription::of_numbers(0, 65536, 0).is_none());
    assert!(Subscription::of_numbers(1, 255, 0).is_some());
    assert!(Subscription::of_numbers(1, 256, 0).is_none());
    assert!(Subscription::of_numbers(2, 0, 0).is_none());
}

#[test]
fn frame_checks_in_order() {
    let fresh = receiver();
    let service = |source, destination| {
        let transfer_type = TransferType::Request;
        Stream {
            transfer_type,
            type_id: 7,
            source,
            destination,
        }
        .id(0, 0)
    };
    let full = [1, 2, 3, 4, 5, 6, 7, 0x80];
    let cases: [(u32, &[u8], usize, u32); 20] = [
        (1 << 29, &[], 0, 2),
        (u32::MAX, &[0xC0], 512, 2),
        (service(0, 5), &[], 0, 3),
        (STREAM.id(0, 0), &[0xC0; 9], 512, 3),
        (service(0, 5), &[0x00], 0, 4),
        (service(9, 0), &[0x00], 0, 4),
        (STREAM.id(0, 0), &[1, 0xE0], 512, 5),
        (STREAM.id(0, 0), &[1, 2, 3, 4, 5, 6, 7, 0xA0], 512, 5),
        (0x100, &full, 512, 5),
        (0x100, &[1, 0x40], 512, 5),
        (STREAM.id(0, 0), &[1, 2, 3, 4, 5, 6, 0x80], 512, 5),
        (STREAM.id(0, 0), &[0x40], 512, 5),
        (service(9, 6), &[0x40], 0, 5),
        (service(9, 6), &[0xC0], 0, 6),
        (from_source(9) + 256, &[0xC0], 0, 7),
        (0x100, &[0xC0], 512, 7),
        (STREAM.id(0, 0), &[0x00; 8], 511, 8),
        (0x200, &[0xC0], 511, 8),
        (0x200, &[0xC0], 512, 1),
        (service(9, 5), &[0xC0], 512, 1),
    ];
    for (index, (id, data, room, expected)) in cases.into_iter().enumerate() {
        for interface in [0, 1, 2, 3, 256, u32::MAX] {
            let frame = Frame {
                id,
                data,
                interface,
                time: 0,
            };
            let expected = match expected {
                2 | 3 => expected,
                _ if interface > 2 => 19,
                _ => expected,
            };
            let mut receiver = fresh.clone();
            let answer = receiver.receive(&frame, room);
            assert_eq!(answer.number(), expected, "case {index} by {interface}");
            if expected > 1 {
                assert_eq!(receiver, fresh, "case {index} by {interface}");
            }
        }
    }
}

#[test]
fn unnamed_receiver_hears_no_service() {
    let mut receiver = Receiver::setup(0, vec![subscription(true, 7)]).unwrap();
    assert_eq!(receive(&mut receiver, 0x0007_8589, &[0xC0], 0).number(), 6);
    assert_eq!(receive(&mut receiver, 0x0007_8089, &[0xC0], 0).number(), 4);
}

#[test]
fn anonymous_frames_need_no_session() {
    let mut receiver = receiver();
    let before = receiver.clone();
    for interface in [0, 0, 2, 1] {
        match receive_by(&mut receiver, interface, 0x1FFF_FE00, &[8, 9, 0xC3], 0) {
            Answer::HandedOut(transfer) => {
                assert_eq!(transfer.payload, [8, 9]);
                assert_eq!(transfer.stream.type_id, 2);
                assert_eq!((transfer.priority, transfer.transfer_id), (31, 3));
            }
            other => panic!("{other:?}"),
        }
    }
    assert_eq!(receiver, before);
}

#[test]
fn no_session_is_made_without_a_start() {
    let mut receiver = receiver();
    assert_eq!(number(&mut receiver, &[1, 0x40], 0), 30);
    assert!(receiver.places.iter().all(Option::is_none));
}

#[test]
fn repeats_are_passed_over() {
    let mut receiver = receiver();
    let payload: Vec<u8> = (0..20).collect();
    let frames = split(&payload, SIGNATURE, 4);
    let mut answers = Vec::new();
    for data in frames.iter().flat_map(|data| [data, data]) {
        answers.push(number(&mut receiver, data, 100));
    }
    assert_eq!(answers, [0, 33, 0, 31, 0, 31, 1, 30]);
    assert_eq!(session(&receiver, 0), (5, 0, false, 100));
}

/// On a session that expects transfer 4 by interface 0, with seven bytes in hand and toggle 1, and with
/// nothing in hand. To most of these frames several reasons apply; the first answers.
#[test]
fn passed_over_for_the_first_reason_and_nothing_changes() {
    let in_hand = begun();
    let mut idle = receiver();
    assert_eq!(number(&mut idle, &[0xC3], 1000), 1);
    let cases = [
        (&in_hand, 1, 0x83, 34),
        (&in_hand, 1, 0x84, 34),
        (&in_hand, 2, 0x24, 34),
        (&in_hand, 2, 0x03, 34),
        (&in_hand, 0, 0x83, 32),
        (&in_hand, 0, 0x84, 33),
        (&in_hand, 0, 0x03, 32),
        (&in_hand, 0, 0x23, 32),
        (&in_hand, 0, 0x25, 32),
        (&in_hand, 0, 0x04, 31),
        (&idle, 1, 0x83, 34),
        (&idle, 1, 0x84, 34),
        (&idle, 2, 0x04, 34),
        (&idle, 2, 0x23, 34),
        (&idle, 0, 0x83, 32),
        (&idle, 0, 0x04, 30),
        (&idle, 0, 0x24, 30),
        (&idle, 0, 0x05, 30),
        (&idle, 0, 0x23, 30),
    ];
    for (before, interface, tail, reason) in cases {
        let mut receiver = before.clone();
        let data = [1, 2, 3, 4, 5, 6, 7, tail];
        let number = number_by(&mut receiver, interface, &data, 1500);
        assert_eq!(number, reason, "{tail:02X} by {interface}");
        assert_eq!(&receiver, before, "{tail:02X} by {interface}");
    }
}

/// Whatever toggle is in hand, and single frames too.
#[test]
fn every_start_of_the_transfer_in_hand_is_a_repeat() {
    let mut receiver = begun();
    for next in split(&[7; 30], SIGNATURE, 4)[1..4].iter() {
        assert_eq!(
            number(&mut receiver, &[1, 2, 3, 4, 5, 6, 7, 0x84], 1500),
            33
        );
        assert_eq!(number(&mut receiver, &[1, 0xC4], 1500), 33);
        assert_eq!(number(&mut receiver, next, 1500), 0);
    }
}

#[test]
fn no_start_with_nothing_in_hand_is_passed_over() {
    let mut receiver = receiver();
    assert_eq!(number(&mut receiver, &[0xC4], 0), 1);
    assert_eq!(number(&mut receiver, &[1, 0x45], 0), 30);
    assert_eq!(session(&receiver, 0), (5, 0, false, 0));
}

#[test]
fn start_restarts_above_distance_one() {
    for transfer_id in 0..32 {
        let mut receiver = receiver();
        assert_eq!(number(&mut receiver, &split(&[7; 20], 0, 4)[0], 100), 0);
        let data = &split(&[8; 20], 0, transfer_id)[0];
        let expected = match transfer_id {
            3 => 32,
            4 => 33,
            _ => 0,
        };
        assert_eq!(number(&mut receiver, data, 200), expected, "{transfer_id}");
        let after = match transfer_id {
            3 | 4 => (4, 7, true, 100),
            _ => (transfer_id, 7, true, 200),
        };
        assert_eq!(session(&receiver, 0), after, "{transfer_id}");
    }
}

#[test]
fn age_is_measured_from_the_start_and_two_seconds_are_not_old() {
    let frames = split(&[7; 30], SIGNATURE, 4);
    for (late, expected) in [(TIMEOUT, 0), (TIMEOUT + 1, 30)] {
        let mut receiver = receiver();
        assert_eq!(number(&mut receiver, &frames[0], 1000), 0);
        assert_eq!(number(&mut receiver, &frames[1], 1_500_000), 0);
        assert_eq!(number(&mut receiver, &frames[2], 1000 + late), expected);
        let after = match expected {
            0 => (4, 21, true, 1000),
            _ => (5, 0, false, 1000),
        };
        assert_eq!(session(&receiver, 0), after);
    }
}

#[test]
fn old_session_stays_old_until_a_start_is_taken() {
    let mut receiver = receiver();
    assert_eq!(number(&mut receiver, &[0xC4], 0), 1);
    let late = TIMEOUT + 1;
    assert_eq!(number(&mut receiver, &[1, 0x5F], late), 30);
    assert_eq!(session(&receiver, 0), (0, 0, false, 0));
    assert_eq!(number(&mut receiver, &[1, 0x42], late), 30);
    assert_eq!(session(&receiver, 0), (3, 0, false, 0));
    assert_eq!(number(&mut receiver, &[0xC2], late), 1);
    assert_eq!(session(&receiver, 0), (3, 0, false, late));
}

/// The interface that the session in a place follows.
fn follows(receiver: &Receiver, place: usize) -> u8 {
    receiver.places[place].as_ref().expect("a session").follows
}

/// A receiver that follows interface 0 in a transfer with ID 4, begun at time 1000.
fn begun() -> Receiver {
    let mut receiver = receiver();
    assert_eq!(
        number(&mut receiver, &split(&[7; 30], SIGNATURE, 4)[0], 1000),
        0
    );
    receiver
}

#[test]
fn copies_by_another_interface_are_passed_over() {
    let mut receiver = receiver();
    let frames = split(&[7; 20], SIGNATURE, 4);
    let mut answers = Vec::new();
    for data in &frames {
        for interface in [1, 0, 2] {
            answers.push(number_by(&mut receiver, interface, data, 50));
        }
    }
    assert_eq!(answers, [0, 34, 34, 0, 34, 34, 0, 34, 34, 1, 34, 34]);
    assert_eq!(
        (session(&receiver, 0), follows(&receiver, 0)),
        ((5, 0, false, 50), 1)
    );
}

#[test]
fn start_by_another_interface_switches_after_the_delay_if_not_far_ahead() {
    for transfer_id in 0..32 {
        for (age, allowed) in [(0, false), (SWITCH_DELAY, false), (SWITCH_DELAY + 1, true)] {
            let mut receiver = begun();
            let before = receiver.clone();
            let data = &split(&[8; 20], SIGNATURE, transfer_id)[0];
            let number = number_by(&mut receiver, 2, data, 1000 + age);
            if allowed && (4..20).contains(&transfer_id) {
                assert_eq!(number, 0, "{transfer_id} at {age}");
                let after = (transfer_id, 7, true, 1000 + age);
                assert_eq!((session(&receiver, 0), follows(&receiver, 0)), (after, 2));
            } else {
                assert_eq!(number, 34, "{transfer_id} at {age}");
                assert_eq!(receiver, before, "{transfer_id} at {age}");
            }
        }
    }
}

#[test]
fn other_frames_by_another_interface_are_passed_over_until_it_is_old() {
    let next = &split(&[7; 30], SIGNATURE, 4)[1];
    for age in [0, SWITCH_DELAY, SWITCH_DELAY + 1, TIMEOUT] {
        let mut receiver = begun();
        let before = receiver.clone();
        assert_eq!(number_by(&mut receiver, 1, next, 1000 + age), 34);
        assert_eq!(receiver, before);
        assert_eq!(number(&mut receiver, next, 1000 + age), 0);
    }
}

#[test]
fn old_session_follows_the_next_frame() {
    let late = 1001 + TIMEOUT;
    let mut receiver = begun();
    let frames = split(&[7; 30], SIGNATURE, 30);
    assert_eq!(number_by(&mut receiver, 2, &frames[1], late), 30);
    assert_eq!(
        (session(&receiver, 0), follows(&receiver, 0)),
        ((31, 0, false, 1000), 2)
    );
    assert_eq!(number_by(&mut receiver, 1, &frames[0], late), 0);
    assert_eq!(
        (session(&receiver, 0), follows(&receiver, 0)),
        ((30, 7, true, late), 1)
    );
}

#[test]
fn repeated_start_on_one_cable_begins_anew_after_the_delay() {
    let frames = split(&[7; 30], SIGNATURE, 4);
    for (age, expected) in [(SWITCH_DELAY, 33), (SWITCH_DELAY + 1, 0)] {
        let mut receiver = begun();
        assert_eq!(number(&mut receiver, &frames[1], 2000), 0);
        assert_eq!(number(&mut receiver, &frames[0], 1000 + age), expected);
        let after = match expected {
            0 => (4, 7, true, 1000 + age),
            _ => (4, 14, false, 1000),
        };
        assert_eq!(session(&receiver, 0), after);
    }
    let mut receiver = begun();
    let single = split(&[9; 3], SIGNATURE, 4);
    let late = 1001 + SWITCH_DELAY;
    assert_eq!(number(&mut receiver, &single[0], late), 1);
    assert_eq!(session(&receiver, 0), (5, 0, false, late));
}

#[test]
fn start_before_the_expected_one_never_restarts_within_two_seconds() {
    for age in [0, SWITCH_DELAY + 1, TIMEOUT] {
        for interface in 0..3 {
            let mut receiver = begun();
            let before = receiver.clone();
            let data = &split(&[8; 20], SIGNATURE, 3)[0];
            let number = number_by(&mut receiver, interface, data, 1000 + age);
            assert_eq!(number, if interface == 0 { 32 } else { 34 });
            assert_eq!(receiver, before);
        }
    }
}

#[test]
fn earlier_time_is_age_zero_and_is_kept() {
    let mut receiver = receiver();
    assert_eq!(number(&mut receiver, &[0xC4], 9_000_000), 1);
    assert_eq!(number(&mut receiver, &[0xC4], 0), 32);
    assert_eq!(number(&mut receiver, &[0xC5], 1), 1);
    assert_eq!(session(&receiver, 0), (6, 0, false, 1));
}

/// A receiver whose 32 places hold sessions of sources 1 to 32, all started at time 10.
fn full() -> Receiver {
    let mut receiver = receiver();
    for source in 1..=32 {
        let answer = receive(&mut receiver, from_source(source), &[0xC0], 10);
        assert_eq!(answer.number(), 1);
    }
    receiver
}

#[test]
fn full_table_refuses_until_a_session_is_old() {
    let mut receiver = full();
    let before = receiver.clone();
    let at = 10 + TIMEOUT;
    assert_eq!(
        receive(&mut receiver, from_source(40), &[0xC0], at).number(),
        9
    );
    assert_eq!(receiver, before);
    let late = at + 1;
    assert_eq!(
        receive(&mut receiver, from_source(40), &[0xC9], late).number(),
        1
    );
    assert_eq!(session(&receiver, 0), (10, 0, false, late));
    assert_eq!(receiver.places[1..], before.places[1..]);
}

#[test]
fn empty_place_goes_before_an_old_session() {
    let mut receiver = full();
    receiver.places[20] = None;
    let answer = receive(&mut receiver, from_source(40), &[0xC0], 10 + 2 * TIMEOUT);
    assert_eq!(answer.number(), 1);
    assert_eq!(
        receiver.places[20].as_ref().map(|one| one.stream.source),
        Some(40)
    );
}

/// The answers to a transfer's frames, and the payload if one was handed out.
fn run_transfer(payload: &[u8]) -> (Vec<u32>, Option<Vec<u8>>) {
    let mut receiver = receiver();
    let mut numbers = Vec::new();
    let mut handed_out = None;
    for data in split(payload, SIGNATURE, 31) {
        let answer = receive(&mut receiver, STREAM.id(3, 0), &data, 50);
        numbers.push(answer.number());
        if let Answer::HandedOut(transfer) = answer {
            handed_out = Some(transfer.payload);
        }
    }
    assert_eq!(session(&receiver, 0), (0, 0, false, 50));
    (numbers, handed_out)
}

#[test]
fn every_length_up_to_512_goes_through() {
    for length in 0..=512 {
        let payload: Vec<u8> = (0..length).map(|index| (index * 7 % 251) as u8).collect();
        let (numbers, handed_out) = run_transfer(&payload);
        assert_eq!(handed_out.as_deref(), Some(payload.as_slice()));
        let (last, before) = numbers.split_last().unwrap();
        assert_eq!(*last, 1);
        assert!(before.iter().all(|&number| number == 0));
    }
}

#[test]
fn longer_ones_answer_11_once() {
    for length in [513, 514, 515, 518, 600] {
        let (numbers, handed_out) = run_transfer(&vec![9; length]);
        assert_eq!(handed_out, None);
        assert_eq!(numbers[..73], [0; 73], "{length}");
        assert_eq!(numbers[73], 11, "{length}");
        assert!(numbers[74..].iter().all(|&number| number == 30));
    }
}

#[test]
fn damaged_payload_or_signature_answers_12() {
    let mut receiver = receiver();
    let mut frames = split(&[7; 8], SIGNATURE, 31);
    frames[1][0] ^= 1;
    assert_eq!(number(&mut receiver, &frames[0], 0), 0);
    assert_eq!(number(&mut receiver, &frames[1], 0), 12);
    assert_eq!(session(&receiver, 0), (0, 0, false, 0));
    let frames = split(&[7; 8], SIGNATURE + 1, 0);
    assert_eq!(number(&mut receiver, &frames[0], 0), 0);
    assert_eq!(number(&mut receiver, &frames[1], 0), 12);
}

/// RULES 14.19: a transfer altered across its first two frames, and the frames as sent by another
/// interface. The numbers answered, and the payload handed out.
fn altered_transfer(pattern: [u8; 3]) -> (Vec<u32>, Option<Vec<u8>>) {
    let sent = split(b"\x00\x00\x34\x42pan_angle", SIGNATURE, 5);
    let mut frames = sent.clone();
    for (byte, altered) in (4..).zip(pattern) {
        frames[(byte + 2) / 7][(byte + 2) % 7] ^= altered;
    }
    let mut receiver = receiver();
    let [a, b, c] = [&frames[0], &frames[1], &frames[2]];
    let list = [
        (0, a),
        (1, &sent[0]),
        (0, a),
        (0, b),
        (1, &sent[2]),
        (0, b),
        (0, c),
        (0, c),
        (1, &sent[0]),
    ];
    let answers = list
        .map(|(interface, data)| receive_by(&mut receiver, interface, STREAM.id(16, 0), data, 0));
    let numbers = answers.iter().map(Answer::number).collect();
    let handed = answers.into_iter().find(|answer| answer.number() == 1);
    (numbers, handed.map(payload_of))
}

#[test]
fn burst_of_16_bits_ends_with_12_and_one_of_17_may_not() {
    let (numbers, handed) = altered_transfer([0xFF, 0xFF, 0]);
    assert_eq!(numbers, [0, 34, 33, 0, 34, 31, 12, 30, 34]);
    assert_eq!(handed, None);
    let (numbers, handed) = altered_transfer([0x01, 0x10, 0x21]);
    assert_eq!(numbers, [0, 34, 33, 0, 34, 31, 1, 30, 34]);
    assert_eq!(handed.unwrap()[4..7], [0x71, 0x71, 0x4F]);
}

#[test]
fn two_frames_may_carry_what_one_could() {
    let mut receiver = receiver();
    let mut bytes = reference::crc::transfer_checksum(SIGNATURE, &[1, 2, 3, 4, 5, 6])
        .to_le_bytes()
        .to_vec();
    bytes.extend([1, 2, 3, 4, 5, 0x80]);
    assert_eq!(number(&mut receiver, &bytes, 0), 0);
    let answer = receive(&mut receiver, STREAM.id(2, 0), &[6, 0x60], 0);
    match answer {
        Answer::HandedOut(transfer) => {
            assert_eq!(transfer.payload, [1, 2, 3, 4, 5, 6]);
            assert_eq!(transfer.priority, 2);
        }
        other => panic!("{other:?}"),
    }
}

#[test]
fn request_and_response_are_streams_apart() {
    let mut receiver = receiver();
    assert_eq!(receive(&mut receiver, 0x0007_8589, &[0xC0], 0).number(), 1);
    assert_eq!(receive(&mut receiver, 0x0007_0589, &[0xC0], 0).number(), 1);
    assert_eq!(receive(&mut receiver, 0x0007_0589, &[0xC0], 0).number(), 32);
    assert_eq!(receiver.places.iter().flatten().count(), 2);
}
