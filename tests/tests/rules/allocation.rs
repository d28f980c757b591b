//! Handing out node IDs (RULES 16): the dialog of the allocation log, the edges of each rule, and
//! the allocator's bytes.

use crate::allocation_log::{ALLOCATION_LOG, UNIQUE_ID};
use reference::allocator::{
    expected_stage, stage, write_entry, Allocator, Answer, Entry, Ignored, Request, ENTRIES, ENTRY,
    ENTRY_COUNT, GATHERED, GATHERED_COUNT, LONGEST_REPLY, MOST_ENTRIES, SIZE, TIMEOUT,
};
use reference::bits::Refusal;
use reference::definitions;
use reference::entry;
use reference::map::Map;
use reference::receive::{self, Frame, Receiver, Subscription, LONGEST_PAYLOAD};
use reference::send::{send, Outgoing, SentFrame, MOST_FRAMES, RECORD};

const ALL_MARKED: [u64; 2] = [u64::MAX; 2];
/// When the three messages of the log came.
const TIMES: [u64; 3] = [1_117_000, 1_406_000, 1_485_000];

/// A message with no marks, to node 1.
fn request(payload: &[u8], time: u64) -> Request<'_> {
    Request {
        own: 1,
        marks: [0; 2],
        source: 0,
        payload,
        time,
    }
}

/// The log's three messages; the last one prefers this ID.
fn messages(preferred: u8) -> [Vec<u8>; 3] {
    [
        [&[1], &UNIQUE_ID[..6]].concat(),
        [&[0], &UNIQUE_ID[6..12]].concat(),
        [&[preferred << 1], &UNIQUE_ID[12..]].concat(),
    ]
}

/// An allocator that took the log's first two messages.
fn before_the_third() -> Allocator {
    let mut allocator = Allocator::default();
    for (message, time) in messages(0).iter().zip(TIMES).take(2) {
        let answer = allocator.allocate(&request(message, time), LONGEST_REPLY);
        assert!(matches!(answer, Answer::Reply(_)));
    }
    assert_eq!(allocator.gathered, UNIQUE_ID[..12]);
    allocator
}

/// The answer to a third message that prefers this ID.
fn third(preferred: u8, change: impl FnOnce(&mut Request)) -> Answer {
    let message = &messages(preferred)[2];
    let mut third = request(message, TIMES[2]);
    change(&mut third);
    before_the_third().allocate(&third, LONGEST_REPLY)
}

fn given(node_id: u8) -> Answer {
    Answer::Reply([&[node_id << 1], &UNIQUE_ID[..]].concat())
}

fn marks(node_ids: impl IntoIterator<Item = u8>) -> [u64; 2] {
    let mut marks = [0; 2];
    for node_id in node_ids {
        marks[usize::from(node_id / 64)] |= 1 << (node_id % 64);
    }
    marks
}

/// A table of this many entries; node IDs go down from 125.
fn table(count: u8) -> Vec<Entry> {
    let entry = |place: u8| Entry {
        unique_id: [place; 16],
        node_id: 125 - place,
    };
    (0..count).map(entry).collect()
}

#[test]
fn dialog_of_the_log() {
    let mut allocator = Allocator::default();
    let replies = [
        [&[0], &UNIQUE_ID[..6]].concat(),
        [&[0], &UNIQUE_ID[..12]].concat(),
        [&[0xFA], &UNIQUE_ID[..]].concat(),
    ];
    for ((message, time), reply) in messages(0).iter().zip(TIMES).zip(replies) {
        let answer = allocator.allocate(&request(message, time), LONGEST_REPLY);
        assert_eq!(answer, Answer::Reply(reply));
    }
    let entry = Entry {
        unique_id: UNIQUE_ID,
        node_id: 125,
    };
    assert_eq!(allocator.gathered, []);
    assert_eq!(allocator.table, [entry]);
}

/// Requests are received, answered and sent: the replies' frames are those of the log.
#[test]
fn frames_in_frames_out() {
    let allocation = Subscription {
        service: false,
        type_id: 1,
        signature: definitions::allocation(),
    };
    let mut receiver = Receiver::setup(1, vec![allocation]).expect("one subscription");
    let (mut allocator, mut map) = (Allocator::default(), Map::default());
    let (requests, replies): (Vec<_>, Vec<_>) =
        ALLOCATION_LOG.iter().partition(|(_, id, _)| id & 127 == 0);
    let mut frames = Vec::new();
    for &(milliseconds, id, data) in requests {
        let time = 1000 * milliseconds;
        let frame = Frame {
            id,
            data,
            interface: 0,
            time,
        };
        let receive::Answer::HandedOut(transfer) = receiver.receive(&frame, LONGEST_PAYLOAD) else {
            panic!("an anonymous frame is handed out");
        };
        let message = request(&transfer.payload, time);
        let Answer::Reply(reply) = allocator.allocate(&message, LONGEST_REPLY) else {
            panic!("a reply to each message");
        };
        let outgoing = Outgoing {
            own: 1,
            transfer_type: 0,
            type_id: 1,
            destination: 0,
            priority: transfer.priority.into(),
            payload: &reply,
            signature: definitions::allocation(),
            time,
            transfer_id: 0,
            discriminator: 0,
        };
        let sent = send(&mut map, &outgoing, RECORD * MOST_FRAMES).expect("sent");
        frames.extend(sent.frames);
    }
    let expected: Vec<SentFrame> = replies
        .iter()
        .map(|&&(_, id, data)| SentFrame {
            id,
            data: data.to_vec(),
        })
        .collect();
    assert_eq!(frames, expected);
}

#[test]
fn timeout_is_above_500_000() {
    let after = |age| third(0, |third| third.time = TIMES[1] + age);
    assert_eq!(after(TIMEOUT), given(125));
    assert_eq!(after(TIMEOUT + 1), Answer::Ignored(Ignored::OtherStage));
    assert_eq!(third(0, |third| third.time = 0), given(125));
}

#[test]
fn late_message_drops_even_if_ignored() {
    let mut allocator = before_the_third();
    let late = TIMES[1] + TIMEOUT + 1;
    let ignored = |allocator: &mut Allocator, source| {
        let mut message = request(&[1], late);
        message.source = source;
        assert!(matches!(
            allocator.allocate(&message, 0),
            Answer::Ignored(_)
        ));
        (allocator.gathered.len(), allocator.time)
    };
    assert_eq!(ignored(&mut allocator, 9), (12, TIMES[1]));
    assert_eq!(ignored(&mut allocator, 128), (12, TIMES[1]));
    assert_eq!(ignored(&mut allocator, 0), (0, TIMES[1]));
}

#[test]
fn preferred_ids() {
    for preferred in [0, 125, 126, 127] {
        assert_eq!(third(preferred, |_| ()), given(125));
    }
    assert_eq!(third(125, |third| third.own = 125), given(124));
    assert_eq!(third(125, |third| third.marks = marks([125])), given(124));
    assert_eq!(third(10, |_| ()), given(10));
    assert_eq!(third(10, |third| third.marks = marks([10])), given(11));
    let above = |third: &mut Request| third.marks = marks(10..=125);
    assert_eq!(third(10, above), given(9));
    let all_but_one = |third: &mut Request| third.marks = marks(2..=125);
    assert_eq!(third(70, all_but_one), Answer::NoneFree);
    let own_elsewhere = |third: &mut Request| {
        all_but_one(third);
        third.own = 127;
    };
    assert_eq!(third(70, own_elsewhere), given(1));
    let without_effect = |third: &mut Request| third.marks = marks([0, 126, 127]);
    assert_eq!(third(0, without_effect), given(125));
}

#[test]
fn none_free_drops_what_was_gathered() {
    let mut allocator = before_the_third();
    let message = &messages(0)[2];
    let mut full = request(message, TIMES[2]);
    full.marks = ALL_MARKED;
    assert_eq!(allocator.allocate(&full, 0), Answer::NoneFree);
    let dropped = Allocator {
        gathered: vec![],
        ..before_the_third()
    };
    assert_eq!(allocator, dropped);
}

#[test]
fn known_unique_id_gets_its_id_again() {
    let mut allocator = before_the_third();
    let mut known = table(124);
    known.push(Entry {
        unique_id: UNIQUE_ID,
        node_id: 1,
    });
    known.sort_by_key(|entry| u128::from_le_bytes(entry.unique_id));
    allocator.table = known.clone();
    let message = &messages(50)[2];
    let mut again = request(message, TIMES[2]);
    again.marks = ALL_MARKED;
    assert_eq!(allocator.allocate(&again, LONGEST_REPLY), given(1));
    assert_eq!(allocator.table, known);
}

#[test]
fn room_is_asked_for_a_reply_alone() {
    let mut allocator = before_the_third();
    let before = allocator.clone();
    let message = &messages(0)[2];
    let last = request(message, TIMES[2]);
    assert_eq!(allocator.allocate(&last, 16), Answer::OutputTooSmall);
    assert_eq!(allocator, before);
    assert_eq!(allocator.allocate(&last, 17), given(125));
    assert_eq!(
        allocator.allocate(&last, 0),
        Answer::Ignored(Ignored::OtherStage)
    );
}

#[test]
fn stages() {
    for length in 0..=16 {
        let first = matches!(length, 4 | 6 | 16).then_some(1);
        let later = match length {
            6 => Some(2),
            4 => Some(3),
            _ => None,
        };
        assert_eq!(stage(length, true), first);
        assert_eq!(stage(length, false), later);
    }
    let expected: Vec<Option<u8>> = (0..16).map(expected_stage).collect();
    assert_eq!(expected[..6], [Some(1), None, None, None, None, None]);
    assert_eq!(expected[6..12], [Some(2); 6]);
    assert_eq!(expected[12..], [Some(3); 4]);
}

#[test]
fn bytes_gathered_that_no_dialog_leaves() {
    let answer = |gathered, message: &[u8]| {
        let mut allocator = Allocator {
            gathered: vec![7; gathered],
            ..Allocator::default()
        };
        let answer = allocator.allocate(&request(message, 0), LONGEST_REPLY);
        (answer.number(), allocator.gathered.len())
    };
    let (second, third) = ([0; 7], [0; 5]);
    assert_eq!(answer(4, &second), (0, 4));
    assert_eq!(answer(9, &second), (0, 15));
    assert_eq!(answer(10, &second), (0, 0));
    assert_eq!(answer(11, &second), (0, 11));
    assert_eq!(answer(12, &third), (0, 0));
    assert_eq!(answer(13, &third), (0, 13));
}

#[test]
fn other_first_parts() {
    let mut allocator = Allocator::default();
    let four = [&[1], &UNIQUE_ID[..4]].concat();
    let reply = [&[0], &UNIQUE_ID[..4]].concat();
    let answer = allocator.allocate(&request(&four, 5), LONGEST_REPLY);
    assert_eq!(answer, Answer::Reply(reply));
    assert_eq!((allocator.gathered.len(), allocator.time), (4, 5));
    let whole = [&[21], &UNIQUE_ID[..]].concat();
    let answer = Allocator::default().allocate(&request(&whole, 5), LONGEST_REPLY);
    assert_eq!(answer, given(10));
}

#[test]
fn order_of_checks() {
    let answer = |own, source, payload: &[u8]| {
        let mut message = request(payload, 0);
        (message.own, message.source) = (own, source);
        Allocator::default().allocate(&message, 0)
    };
    for own in [0, 128, 256 + 1, u32::MAX] {
        assert_eq!(answer(own, 9, &[]), Answer::OwnIdNotAllowed);
    }
    let ends = Answer::NoAllocation(Refusal::PayloadEnds);
    let too_many = Answer::NoAllocation(Refusal::TooMany);
    for source in [0, 9] {
        assert_eq!(answer(127, source, &[]), ends);
        assert_eq!(answer(127, source, &[0; 18]), too_many);
    }
    let named = Answer::Ignored(Ignored::NamedSource);
    assert_eq!(answer(1, u32::MAX, &messages(0)[0]), named);
}

#[test]
fn setup_clears_the_layout() {
    let mut bytes = vec![9; SIZE + 1];
    assert_eq!(entry::allocator_setup(&mut bytes[..SIZE - 1]), 20);
    assert_eq!(bytes, vec![9; SIZE + 1]);
    assert_eq!(entry::allocator_setup(&mut bytes), 0);
    assert_eq!(bytes[..SIZE], vec![0; SIZE]);
    assert_eq!(bytes[SIZE], 9);
    assert_eq!(SIZE, 2151);
}

/// A new entry goes to its place and the others move up; of the gathered bytes only the number is
/// written.
#[test]
fn new_entry_in_lent_bytes() {
    let mut bytes = vec![0xEE; SIZE + 5];
    let before = Allocator {
        table: table(100),
        ..before_the_third()
    };
    before.write(&mut bytes);
    let message = &messages(0)[2];
    let mut expected = bytes.clone();
    let place = usize::from(UNIQUE_ID[15]) + 1;
    expected[..8].copy_from_slice(&TIMES[2].to_le_bytes());
    (expected[GATHERED_COUNT], expected[ENTRY_COUNT]) = (0, 101);
    let at = ENTRIES + ENTRY * place;
    expected.copy_within(at..ENTRIES + ENTRY * 100, at + ENTRY);
    let entry = Entry {
        unique_id: UNIQUE_ID,
        node_id: 25,
    };
    write_entry(&entry, &mut expected, place);
    let mut out = [0; 20];
    let word = entry::allocate(&mut bytes, &request(message, TIMES[2]), &mut out);
    assert_eq!(word, 17 << 8);
    assert_eq!(out[0], 25 << 1);
    assert_eq!(out[17..], [0; 3]);
    assert_eq!(bytes, expected);
    assert_eq!(
        bytes[GATHERED..][..16],
        [&UNIQUE_ID[..12], &[0xEE; 4]].concat()
    );
}

#[test]
fn faults() {
    let mut good = vec![0; SIZE];
    Allocator {
        time: u64::MAX,
        gathered: vec![1; 15],
        table: table(125),
    }
    .write(&mut good);
    let refused = |change: &dyn Fn(&mut Vec<u8>)| {
        let mut bytes = good.clone();
        change(&mut bytes);
        Allocator::read(&bytes).is_none()
    };
    let at = |place: usize| ENTRIES + ENTRY * place;
    assert_eq!(table(125).len(), MOST_ENTRIES);
    assert!(!refused(&|bytes| bytes.push(1)));
    assert!(refused(&|bytes| bytes.truncate(SIZE - 1)));
    assert!(refused(&|bytes| bytes[GATHERED_COUNT] = 16));
    assert!(refused(&|bytes| bytes[ENTRY_COUNT] = 126));
    for node_id in [0, 126, 127, 253] {
        assert!(refused(&|bytes| bytes[at(124) + 16] = node_id));
    }
    assert!(refused(&|bytes| bytes[at(0) + 16] = 1));
    assert!(refused(&|bytes| bytes.copy_within(at(7)..at(7) + 16, at(8))));
    assert!(refused(&|bytes| bytes[at(8) + 15] = 6));
    assert!(!refused(&|bytes| bytes[at(8)] = 255));
    // entries past the count are not looked at
    assert!(!refused(&|bytes| {
        bytes[ENTRY_COUNT] = 124;
        bytes[at(124) + 16] = 0;
    }));
}
