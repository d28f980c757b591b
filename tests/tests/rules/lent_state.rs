//! The receiver as lent bytes: layout, faults, and what each call writes.

use reference::entry::{receive, setup};
use reference::frame::{Stream, TransferType};
use reference::receive::{Frame, Receiver, Subscription};
use reference::send::split;
use reference::session::{Session, MOST_GATHERED};
use reference::state::{self, read, write, SIZE};

fn record(kind: u8, type_id: u32, signature: u64) -> Vec<u8> {
    [
        &[kind],
        type_id.to_le_bytes().as_slice(),
        &signature.to_le_bytes(),
    ]
    .concat()
}

/// Node 5 with message 500 and service 7, a message session in place 1 and a service session in
/// place 31.
fn sample() -> Receiver {
    let subscriptions = vec![
        Subscription {
            service: false,
            type_id: 500,
            signature: 0x0102_0304_0506_0708,
        },
        Subscription {
            service: true,
            type_id: 7,
            signature: u64::MAX,
        },
    ];
    let mut receiver = Receiver::setup(5, subscriptions).unwrap();
    receiver.places[1] = Some(Session {
        stream: Stream {
            transfer_type: TransferType::Message,
            type_id: 500,
            source: 9,
            destination: 0,
        },
        expected_id: 30,
        gathered: vec![0xAB; 7],
        blocks: vec![5],
        toggle: true,
        time: 0x1234,
        follows: 0,
    });
    receiver.places[31] = Some(Session {
        stream: Stream {
            transfer_type: TransferType::Response,
            type_id: 7,
            source: 127,
            destination: 5,
        },
        expected_id: 31,
        gathered: vec![0xCD; MOST_GATHERED],
        blocks: vec![63, 0, 62, 1, 61, 2, 60, 3, 59],
        toggle: false,
        time: u64::MAX,
        follows: 2,
    });
    receiver
}

fn sample_bytes() -> Vec<u8> {
    let mut bytes = vec![0; SIZE];
    write(&sample(), &mut bytes);
    bytes
}

#[test]
fn layout() {
    let bytes = sample_bytes();
    assert_eq!(bytes[..8], [5, 2, 0, 0, 0, 0, 0, 0]);
    assert_eq!(
        bytes[8..24],
        [8, 7, 6, 5, 4, 3, 2, 1, 255, 255, 255, 255, 255, 255, 255, 255]
    );
    assert_eq!(bytes[528..536], [0x34, 0x12, 0, 0, 0, 0, 0, 0]);
    assert_eq!(bytes[776..784], [0xD0, 255, 255, 255, 255, 255, 255, 0x07]);
    assert_eq!(bytes[784..792], [0xF4, 1, 0, 0, 7, 0, 1, 0]);
    let message = (500 * 128 + 9) * 128_u32;
    assert_eq!(bytes[1044..1048], message.to_le_bytes());
    let response = ((2 * 65536 + 7) * 128 + 127) * 128 + 5_u32;
    assert_eq!(bytes[1164..1168], response.to_le_bytes());
    assert_eq!(bytes[1172..1176], [7, 0, 30, 1]);
    assert_eq!(bytes[1292..1296], [2, 2, 31, 4]);
    assert_eq!(bytes[1305..1307], [5, 0]);
    assert_eq!(bytes[1575..1584], [63, 0, 62, 1, 61, 2, 60, 3, 59]);
    assert_eq!(
        bytes[1584 + 320..1584 + 328],
        [171, 171, 171, 171, 171, 171, 171, 0]
    );
    assert_eq!(bytes[SIZE - 64..], [0xCD; 64]);
    assert_eq!(bytes[1584..1584 + 256], [0xCD; 256]);
    assert_eq!(bytes[1584 + 59 * 64..][..3], [0xCD, 0xCD, 0]);
}

#[test]
fn reading_gives_back_what_was_written_over_anything() {
    for filling in [0, 0x5A, 0xFF] {
        let mut bytes = vec![filling; SIZE + 3];
        write(&sample(), &mut bytes);
        assert_eq!(read(&bytes), Some(sample()));
        assert_eq!(bytes[2..8], [filling; 6]);
        assert_eq!(bytes[SIZE..], [filling; 3]);
    }
}

#[test]
fn faults_of_20() {
    let key = |transfer_type: u32, type_id: u32, source: u32, destination: u32| {
        (((transfer_type << 16 | type_id) << 7 | source) << 7 | destination).to_le_bytes()
    };
    let first_stream = state::STREAM_KEYS + 4;
    let control = state::CONTROLS + 4;
    let (list, last_list) = (state::BLOCK_LISTS + 9, state::BLOCK_LISTS + 9 * 31);
    let faults: [(usize, &[u8]); 32] = [
        (state::OWN, &[128]),
        (state::COUNT, &[65]),
        (state::SUBSCRIPTION_KEYS, &[0, 0, 2, 0]),
        (state::SUBSCRIPTION_KEYS, &[0, 1, 1, 0]),
        (state::SUBSCRIPTION_KEYS, &[0, 0, 0, 1]),
        (state::SUBSCRIPTION_KEYS, &[7, 0, 1, 0]),
        (first_stream, &key(3, 7, 9, 5)),
        (first_stream, &key(0, 500, 0, 0)),
        (first_stream, &key(1, 7, 0, 5)),
        (first_stream, &key(0, 500, 9, 1)),
        (first_stream, &key(1, 7, 9, 0)),
        (first_stream, &key(1, 256, 9, 5)),
        (first_stream, &key(2, 7, 127, 5)),
        (control, &[3, 2]),
        (control + 2, &[32]),
        (control + 3, &[6]),
        (control + 3, &[7]),
        (control, &[0, 0]),
        (control, &[0, 0, 30, 5]),
        (control + 3, &[255]),
        // in another place's list, in its own twice, in the list of another and in its own
        (list, &[63]),
        (last_list, &[0]),
        (list, &[59]),
        // free and in a list; in no list, and not free
        (state::FREE, &[0xF0]),
        (list, &[4]),
        (state::FREE, &[0xC0]),
        (state::FREE + 7, &[0x03]),
        // no such block
        (list, &[64]),
        (list, &[5 + 64]),
        (last_list + 8, &[255]),
        // a count that needs more blocks than are in the list, or fewer
        (control, &[65]),
        (control, &[0, 0, 30, 0]),
    ];
    for (index, (at, value)) in faults.into_iter().enumerate() {
        let mut bytes = sample_bytes();
        bytes[at..at + value.len()].copy_from_slice(value);
        assert_eq!(read(&bytes), None, "fault {index}");
    }
    assert_eq!(read(&sample_bytes()[..SIZE - 1]), None);
}

#[test]
fn values_at_the_edge_are_no_fault() {
    let allowed: [(usize, &[u8]); 15] = [
        (state::OWN, &[127]),
        (state::OWN, &[0]),
        (state::SUBSCRIPTION_KEYS, &[255, 0, 1, 0]),
        (state::SUBSCRIPTION_KEYS, &[255, 255, 0, 0]),
        (state::SUBSCRIPTION_KEYS + 8, &[255; 4]),
        (state::CONTROLS, &[255; 4]),
        (state::CONTROLS + 4, &[1, 0, 0, 1]),
        (state::CONTROLS + 4, &[1, 0, 0, 3]),
        (state::CONTROLS + 4, &[1, 0, 0, 5]),
        (state::CONTROLS + 4, &[64, 0, 0, 2]),
        (state::CONTROLS + 4, &[63, 0, 0, 4]),
        // the bytes of a block, and lists past what is needed or of an empty place
        (state::BLOCK_BYTES, &[1; 4096]),
        (state::BLOCK_LISTS, &[255; 9]),
        (state::BLOCK_LISTS + 10, &[255; 8]),
        (state::BLOCK_LISTS + 10, &[5; 8]),
    ];
    for (index, (at, value)) in allowed.into_iter().enumerate() {
        let mut bytes = sample_bytes();
        bytes[at..at + value.len()].copy_from_slice(value);
        assert!(read(&bytes).is_some(), "case {index}");
    }
}

#[test]
fn setup_writes_the_whole_layout_and_nothing_past_it() {
    let list = [record(1, 7, 3), record(0, 7, 4)].concat();
    let mut bytes = vec![0xEE; SIZE + 5];
    assert_eq!(setup(&mut bytes, 127, &list), 0);
    let mut expected = vec![0; SIZE];
    expected[0] = 127;
    expected[1] = 2;
    expected[8] = 3;
    expected[16] = 4;
    expected[776..784].fill(255);
    expected[784..792].copy_from_slice(&[7, 0, 1, 0, 7, 0, 0, 0]);
    assert_eq!(bytes[..SIZE], expected);
    assert_eq!(bytes[SIZE..], [0xEE; 5]);
}

#[test]
fn refused_setup_writes_nothing() {
    let lists = [
        record(2, 7, 3),
        record(0, 65536, 3),
        record(1, 256, 3),
        [record(0, 7, 3), record(0, 7, 4)].concat(),
        record(0, 7, 3)[..12].to_vec(),
        (0..65).flat_map(|index| record(0, index, 0)).collect(),
    ];
    for (index, list) in lists.iter().enumerate() {
        let mut bytes = vec![0xEE; SIZE];
        assert_eq!(setup(&mut bytes, 1, list), 13, "list {index}");
        assert_eq!(setup(&mut bytes[..SIZE - 1], 1, list), 20, "list {index}");
        assert_eq!(bytes, [0xEE; SIZE]);
    }
    let mut bytes = vec![0xEE; SIZE];
    assert_eq!(setup(&mut bytes, 128, &[]), 13);
    assert_eq!(setup(&mut bytes, 256, &[]), 13);
    assert_eq!(bytes, [0xEE; SIZE]);
}

/// Receives and gives the result word with the offsets of the state bytes that changed.
fn changes(bytes: &mut [u8], id: u32, data: &[u8], interface: u32, time: u64) -> (u64, Vec<usize>) {
    let before = bytes.to_vec();
    let frame = Frame {
        id,
        data,
        interface,
        time,
    };
    let word = receive(bytes, &frame, &mut [0; 512]);
    let changed = (0..bytes.len())
        .filter(|&at| bytes[at] != before[at])
        .collect();
    (word, changed)
}

#[test]
fn receive_writes_the_fields_that_change() {
    let mut bytes = sample_bytes();
    let gathered = state::block_at(5) + 7;
    bytes[gathered..][..7].fill(0xEE);
    let id = 0x0001_F409;
    let (word, changed) = changes(&mut bytes, id, &[1, 2, 3, 4, 5, 6, 7, 0x3E], 0, 0x1234);
    assert_eq!(word, 0);
    let control = state::CONTROLS + 4;
    let expected: Vec<usize> = [control, control + 3]
        .into_iter()
        .chain(gathered..gathered + 7)
        .collect();
    assert_eq!(changed, expected);

    let (word, changed) = changes(&mut bytes, id, &[9, 0x5E], 0, 0x1234);
    assert_eq!(word, 12);
    assert_eq!(changed, [state::FREE, control, control + 2]);

    let (word, changed) = changes(&mut bytes, id, &[9, 0x5F], 1, 0x1234);
    assert_eq!((word, changed), (34, vec![]));

    let (word, changed) = changes(&mut bytes, id, &[9, 0x41], 1, 3_000_000);
    assert_eq!(word, 30);
    assert_eq!(changed, [control + 2, control + 3]);
    assert_eq!(bytes[control + 3], 2);
}

#[test]
fn block_is_written_where_one_is_taken() {
    let mut bytes = vec![0x77; SIZE];
    write(&sample(), &mut bytes);
    let id = 0x0001_F40A;
    let (word, changed) = changes(&mut bytes, id, &[1, 2, 3, 4, 5, 6, 7, 0x82], 2, 5);
    assert_eq!(word, 0);
    let block = state::block_at(4);
    let expected: Vec<usize> = (state::TIMES..state::TIMES + 8)
        .chain([state::FREE])
        .chain([state::STREAM_KEYS + 1, state::STREAM_KEYS + 2])
        .chain(state::CONTROLS..state::CONTROLS + 4)
        .chain([state::BLOCK_LISTS])
        .chain(block..block + 7)
        .collect();
    assert_eq!(changed, expected);
    assert_eq!(bytes[state::BLOCK_LISTS..][..2], [4, 0x77]);
    assert_eq!(bytes[state::FREE], 0xC0);
}

#[test]
fn closing_frame_writes_no_block_and_none_is_cleared() {
    let mut receiver = sample();
    let session = receiver.places[1].as_mut().unwrap();
    (session.gathered, session.blocks) = (vec![0xAB; 63], vec![5]);
    let mut bytes = vec![0x77; SIZE];
    write(&receiver, &mut bytes);
    // a second block is asked for and given back
    let (word, changed) = changes(&mut bytes, 0x0001_F409, &[1, 2, 0x7E], 0, 0x1234);
    assert_eq!(word, 12);
    let control = state::CONTROLS + 4;
    assert_eq!(changed, [state::FREE, control, control + 2, control + 3]);
    assert_eq!(bytes[state::FREE], 0xF0);
}

#[test]
fn emptied_session_keeps_all_bytes_but_its_control() {
    let mut receiver = sample();
    let free: Vec<u8> = (6..59).chain([4]).collect();
    for (place, blocks) in (2..31).zip(free.chunks(2)) {
        let mut other = receiver.places[1].clone().unwrap();
        other.stream.source = place as u8 + 20;
        (other.gathered, other.blocks) = (vec![1; 64 * blocks.len()], blocks.to_vec());
        other.time = 5_000_000;
        receiver.places[place] = Some(other);
    }
    let mut bytes = vec![0x77; SIZE];
    write(&receiver, &mut bytes);
    assert_eq!(bytes[state::FREE..][..8], [0; 8]);
    let (word, changed) = changes(
        &mut bytes,
        0x0001_F40A,
        &[1, 2, 3, 4, 5, 6, 7, 0x82],
        2,
        5_000_000,
    );
    assert_eq!(word, 0);
    let (control, block) = (state::CONTROLS, state::block_at(5));
    let expected: Vec<usize> = (state::TIMES..state::TIMES + 8)
        .chain([state::STREAM_KEYS + 1, state::STREAM_KEYS + 2])
        .chain([control, control + 1, control + 2, control + 3])
        .chain([control + 4, control + 6, control + 7])
        .chain([state::BLOCK_LISTS])
        .chain(block..block + 7)
        .collect();
    // place 1 is emptied; its block 5 goes to place 0, and no other is free then
    assert_eq!(changed, expected);
    assert_eq!(bytes[control + 4..control + 8], [0, 0, 31, 0]);
    assert_eq!(bytes[state::FREE..][..8], [0; 8]);
}

#[test]
fn new_session_of_a_single_frame_leaves_blocks_and_lists() {
    let mut bytes = vec![0x77; SIZE];
    write(&sample(), &mut bytes);
    let before = bytes.clone();
    let (word, _) = changes(&mut bytes, 0x0001_F40A, &[1, 0xC2], 2, 5);
    assert_eq!(word & 255, 1);
    let session = read(&bytes).unwrap().places[0].clone().unwrap();
    let values = (session.expected_id, session.time, session.follows);
    assert_eq!(values, (3, 5, 2));
    assert_eq!(bytes[state::BLOCK_LISTS..], before[state::BLOCK_LISTS..]);
    assert_eq!(bytes[state::FREE..][..8], before[state::FREE..][..8]);
}

#[test]
fn result_word_of_a_transfer() {
    let mut bytes = sample_bytes();
    let mut out = [0xEE; 600];
    let payload = [3; 20];
    let mut word = 0;
    for data in split(&payload, u64::MAX, 17) {
        let frame = Frame {
            id: 29 << 24 | 7 << 16 | 1 << 15 | 5 << 8 | 128 | 66,
            data: &data,
            interface: 1,
            time: 0,
        };
        word = receive(&mut bytes, &frame, &mut out);
    }
    let expected = 1 | 20 << 8 | 1 << 18 | 7 << 20 | 66 << 36 | 5 << 43 | 29 << 50 | 17 << 55_u64;
    assert_eq!(word, expected);
    assert_eq!(out[..20], payload);
    assert_eq!(out[20..], [0xEE; 580]);
}

#[test]
fn fault_is_answered_before_all_else() {
    let mut bytes = sample_bytes();
    bytes[0] = 128;
    assert_eq!(changes(&mut bytes, u32::MAX, &[], 3, 0), (20, vec![]));
}

#[test]
fn memory_that_was_never_set_up_is_a_fault() {
    assert_eq!(read(&[0; SIZE]), None);
    assert_eq!(read(&[0xFF; SIZE]), None);
}
