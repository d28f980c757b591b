//! Blocks (RULES 4.12): who takes one and when, when all are given back, and what happens when none is
//! free.

use reference::blocks::needed;
use reference::frame::{Stream, TransferType};
use reference::receive::{Frame, Receiver, Subscription};
use reference::send::split;
use reference::session::{Session, TIMEOUT};
use reference::state::free_blocks;

const SIGNATURE: u64 = 0x1122_3344_5566_7788;
const TYPE: u16 = 500;
/// Frames of a transfer of 512 bytes; the last but one leaves 511 bytes in hand, in 8 blocks.
const WHOLE: usize = 74;
const ALL_BUT_END: usize = WHOLE - 1;

fn stream(source: u8) -> Stream {
    Stream {
        transfer_type: TransferType::Message,
        type_id: TYPE,
        source,
        destination: 0,
    }
}

fn receiver() -> Receiver {
    let subscription = Subscription {
        service: false,
        type_id: TYPE,
        signature: SIGNATURE,
    };
    Receiver::setup(5, vec![subscription]).unwrap()
}

/// The number answered to a frame of a source, by interface 0.
fn receive(receiver: &mut Receiver, source: u8, data: &[u8], time: u64) -> u32 {
    let frame = Frame {
        id: stream(source).id(16, 0),
        data,
        interface: 0,
        time,
    };
    receiver.receive(&frame, 512).number()
}

/// Frame `index` of a transfer of 512 bytes.
fn long(transfer_id: u8, index: usize) -> Vec<u8> {
    split(&[9; 512], SIGNATURE, transfer_id).swap_remove(index)
}

/// Receives the first frames of such a transfer, each of which must be taken.
fn begin(receiver: &mut Receiver, source: u8, frames: usize, time: u64) {
    for index in 0..frames {
        let number = receive(receiver, source, &long(0, index), time);
        assert_eq!(number, 0, "source {source}, frame {index}");
    }
}

/// Receives a transfer of one frame.
fn single(receiver: &mut Receiver, source: u8, transfer_id: u8, time: u64) -> u32 {
    receive(receiver, source, &[0xC0 | transfer_id], time)
}

fn session(receiver: &Receiver, source: u8) -> &Session {
    let place = receiver.place_of(&stream(source)).expect("a session");
    receiver.places[place].as_ref().unwrap()
}

fn free(receiver: &Receiver) -> u32 {
    free_blocks(&receiver.places).count_ones()
}

/// Sources 1 to 8 have 8 blocks each, since `time`, and none is free.
fn filled(time: u64) -> Receiver {
    let mut receiver = receiver();
    for source in 1..=8 {
        begin(&mut receiver, source, ALL_BUT_END, time);
    }
    assert_eq!(free(&receiver), 0);
    receiver
}

/// The session as it is left with nothing in hand, its place and time as they were.
fn assert_ended(receiver: &Receiver, source: u8, expected_id: u8, time: u64) {
    let session = session(receiver, source);
    assert!(session.gathered.is_empty() && session.blocks.is_empty());
    let fields = (session.expected_id, session.toggle, session.time);
    assert_eq!(fields, (expected_id, false, time), "source {source}");
}

#[test]
fn so_many_bytes_need_so_many_blocks() {
    let samples = [
        (0, 0),
        (1, 1),
        (64, 1),
        (65, 2),
        (128, 2),
        (512, 8),
        (513, 9),
        (514, 9),
    ];
    for (count, blocks) in samples {
        assert_eq!(needed(count), blocks, "{count}");
    }
}

#[test]
fn session_has_just_as_many_as_its_bytes_need() {
    let mut receiver = receiver();
    for index in 0..ALL_BUT_END {
        assert_eq!(receive(&mut receiver, 1, &long(0, index), 0), 0);
        let session = session(&receiver, 1);
        let expected: Vec<u8> = (0..needed(7 * (index + 1)) as u8).collect();
        assert_eq!(session.blocks, expected);
    }
    assert_eq!(receive(&mut receiver, 1, &long(0, ALL_BUT_END), 0), 1);
    assert_eq!(free(&receiver), 64);
}

#[test]
fn lowest_free_block_in_the_order_taken() {
    let mut receiver = receiver();
    for source in 1..=3 {
        begin(&mut receiver, source, 9, 0);
    }
    // source 2 gives block 1 back by a restart, which takes it again
    assert_eq!(receive(&mut receiver, 2, &long(5, 0), 0), 0);
    assert_eq!(session(&receiver, 2).blocks, [1]);
    // and by an old session that meets no start
    let late = TIMEOUT + 1;
    assert_eq!(receive(&mut receiver, 2, &long(5, 1), late), 30);
    assert_ended(&receiver, 2, 6, 0);
    begin(&mut receiver, 4, 1, late);
    assert_eq!(session(&receiver, 4).blocks, [1]);
    assert_eq!(receive(&mut receiver, 1, &long(0, 9), TIMEOUT), 0);
    assert_eq!(session(&receiver, 1).blocks, [0, 3]);
    assert_eq!(receive(&mut receiver, 3, &long(0, 9), TIMEOUT), 0);
    assert_eq!(session(&receiver, 3).blocks, [2, 4]);
}

#[test]
fn given_back_at_1_11_and_12() {
    let mut receiver = receiver();
    begin(&mut receiver, 1, ALL_BUT_END, 0);
    assert_eq!(receive(&mut receiver, 1, &long(0, ALL_BUT_END), 0), 1);
    assert_eq!(free(&receiver), 64);
    begin(&mut receiver, 2, ALL_BUT_END, 0);
    assert_eq!(receive(&mut receiver, 2, &[9, 9, 9, 9, 0x60], 0), 11);
    assert_ended(&receiver, 2, 1, 0);
    begin(&mut receiver, 3, ALL_BUT_END, 0);
    assert_eq!(receive(&mut receiver, 3, &[8, 0x60], 0), 12);
    assert_ended(&receiver, 3, 1, 0);
    assert_eq!(free(&receiver), 64);
}

#[test]
fn single_frames_take_none_and_empty_nothing() {
    let mut receiver = filled(0);
    let late = TIMEOUT + 1;
    assert_eq!(single(&mut receiver, 9, 0, late), 1);
    assert_eq!(single(&mut receiver, 9, 1, late), 1);
    assert_eq!(free(&receiver), 0);
    for source in 1..=8 {
        assert_eq!(session(&receiver, source).gathered.len(), 511);
    }
}

#[test]
fn start_without_a_block_keeps_place_and_time() {
    let mut receiver = filled(0);
    assert_eq!(receive(&mut receiver, 9, &long(31, 0), 1000), 26);
    assert_ended(&receiver, 9, 0, 1000);
    assert_eq!(receive(&mut receiver, 9, &long(31, 0), 1001), 32);
    assert_eq!(receive(&mut receiver, 9, &long(31, 1), 1002), 30);
    // the next transfer is the expected one, and gets the same
    assert_eq!(receive(&mut receiver, 9, &long(0, 0), 1003), 26);
    assert_ended(&receiver, 9, 1, 1003);
    assert_eq!(free(&receiver), 0);
}

#[test]
fn later_frame_without_a_block_ends_the_transfer() {
    let mut receiver = receiver();
    begin(&mut receiver, 9, 9, 0);
    for source in 1..=7 {
        begin(&mut receiver, source, ALL_BUT_END, 1);
    }
    begin(&mut receiver, 10, 63, 1);
    assert_eq!(free(&receiver), 0);
    assert_eq!(receive(&mut receiver, 9, &long(0, 9), 2), 26);
    assert_ended(&receiver, 9, 1, 0);
    assert_eq!(free(&receiver), 1);
    assert_eq!(receive(&mut receiver, 9, &long(0, 10), 3), 30);
}

#[test]
fn closing_frame_needs_a_block_too() {
    let mut receiver = filled(0);
    assert_eq!(receive(&mut receiver, 3, &long(0, ALL_BUT_END), 5), 26);
    assert_ended(&receiver, 3, 1, 0);
    assert_eq!(free(&receiver), 8);
    // what the third gave back is enough for the ninth block of the fourth
    assert_eq!(receive(&mut receiver, 4, &long(0, ALL_BUT_END), 5), 1);
    assert_eq!(free(&receiver), 16);
}

#[test]
fn closing_frame_that_needs_no_further_block_asks_for_none() {
    let mut receiver = filled(0);
    // 511 bytes and 1 more fill the eighth block
    assert_eq!(receive(&mut receiver, 3, &[8, 0x60], TIMEOUT), 12);
    assert_eq!(free(&receiver), 8);
}

#[test]
fn old_sessions_with_bytes_in_hand_are_emptied_first() {
    let mut receiver = receiver();
    single(&mut receiver, 20, 3, 0);
    begin(&mut receiver, 1, ALL_BUT_END, 1);
    begin(&mut receiver, 2, ALL_BUT_END, 0);
    for source in 3..=8 {
        begin(&mut receiver, source, ALL_BUT_END, 1);
    }
    // at exactly 2,000,000 the second is not old
    let before = receiver.clone();
    assert_eq!(receive(&mut receiver, 9, &long(0, 0), TIMEOUT), 26);
    assert_eq!(receiver.places[..9], before.places[..9]);
    // one later it is: emptied, with its place, its time and the ID raised by one
    assert_eq!(receive(&mut receiver, 9, &long(1, 0), TIMEOUT + 1), 0);
    assert_ended(&receiver, 2, 1, 0);
    assert_eq!(session(&receiver, 2).follows, 0);
    assert_eq!(session(&receiver, 9).blocks, [8]);
    // the first is not old yet, and the one with nothing in hand stays as it was
    assert_eq!(session(&receiver, 1), before.places[1].as_ref().unwrap());
    assert_eq!(session(&receiver, 20), before.places[0].as_ref().unwrap());
    assert_eq!(free(&receiver), 7);
}

#[test]
fn all_old_sessions_are_emptied_at_once() {
    let mut receiver = filled(0);
    let late = TIMEOUT + 1;
    assert_eq!(receive(&mut receiver, 9, &long(0, 0), late), 0);
    for source in 1..=8 {
        assert_ended(&receiver, source, 1, 0);
    }
    assert_eq!(session(&receiver, 9).blocks, [0]);
    assert_eq!(free(&receiver), 63);
}

#[test]
fn emptying_goes_with_1_and_12_too() {
    for (last, number) in [(long(0, ALL_BUT_END), 1), (vec![0, 0, 0x60], 12)] {
        let mut receiver = receiver();
        for source in 1..=7 {
            begin(&mut receiver, source, ALL_BUT_END, 0);
        }
        begin(&mut receiver, 8, ALL_BUT_END, 1);
        assert_eq!(receive(&mut receiver, 8, &last, TIMEOUT + 1), number);
        for source in 1..=7 {
            assert_ended(&receiver, source, 1, 0);
        }
        assert_eq!(free(&receiver), 64);
    }
}

#[test]
fn no_emptying_without_need() {
    let late = TIMEOUT + 1;
    let mut receiver = receiver();
    begin(&mut receiver, 1, 1, 0);
    begin(&mut receiver, 2, 1, late);
    assert_eq!(session(&receiver, 1).gathered.len(), 7);
    // passed over: nothing is asked for
    let mut receiver = filled(0);
    single(&mut receiver, 9, 3, late);
    let before = receiver.clone();
    assert_eq!(receive(&mut receiver, 9, &long(3, 0), late), 32);
    assert_eq!(receive(&mut receiver, 9, &long(4, 1), late), 30);
    assert_eq!(receive(&mut receiver, 10, &long(4, 1), late), 30);
    assert_eq!(receiver, before);
}

#[test]
fn blocks_of_a_lost_place_are_free_for_the_new_session() {
    let mut receiver = receiver();
    begin(&mut receiver, 1, ALL_BUT_END, 1);
    for source in 2..=7 {
        begin(&mut receiver, source, ALL_BUT_END, 0);
    }
    begin(&mut receiver, 8, ALL_BUT_END, 0);
    for source in 9..=32 {
        single(&mut receiver, source, 0, 1);
    }
    assert_eq!(free(&receiver), 0);
    // the place of the second is the lowest old one: the third, old as well, keeps its bytes
    assert_eq!(receive(&mut receiver, 40, &long(0, 0), TIMEOUT + 1), 0);
    assert_eq!(receiver.place_of(&stream(40)), Some(1));
    assert_eq!(session(&receiver, 40).blocks, [8]);
    assert_eq!(session(&receiver, 3).gathered.len(), 511);
    // a single frame's new session gives back what the lost one had
    assert_eq!(single(&mut receiver, 41, 0, TIMEOUT + 1), 1);
    assert_eq!(receiver.place_of(&stream(41)), Some(2));
    assert_eq!(free(&receiver), 15);
}

#[test]
fn blocks_of_a_restarted_session_are_free_for_it() {
    let mut receiver = filled(0);
    begin_again(&mut receiver, 3, 0);
    assert_eq!(session(&receiver, 3).blocks, [16]);
    assert_eq!(free(&receiver), 7);
    // an old one too: the others, old as well, keep their bytes
    let mut receiver = filled(0);
    begin_again(&mut receiver, 3, TIMEOUT + 1);
    assert_eq!(session(&receiver, 3).blocks, [16]);
    assert_eq!(session(&receiver, 4).gathered.len(), 511);
}

/// A start far from the expected transfer.
fn begin_again(receiver: &mut Receiver, source: u8, time: u64) {
    assert_eq!(receive(receiver, source, &long(9, 0), time), 0);
}

#[test]
fn too_long_comes_before_no_block() {
    let mut receiver = filled(0);
    assert_eq!(receive(&mut receiver, 3, &[9, 9, 9, 9, 0x60], 5), 11);
    assert_ended(&receiver, 3, 1, 0);
    // and empties nothing
    let mut receiver = receiver_with_old();
    let late = TIMEOUT + 1;
    assert_eq!(receive(&mut receiver, 8, &[9, 9, 9, 9, 0x60], late), 11);
    assert_eq!(session(&receiver, 1).gathered.len(), 511);
}

/// As `filled`, but the eighth began later than the others.
fn receiver_with_old() -> Receiver {
    let mut receiver = receiver();
    for source in 1..=7 {
        begin(&mut receiver, source, ALL_BUT_END, 0);
    }
    begin(&mut receiver, 8, ALL_BUT_END, 1);
    receiver
}

#[test]
fn no_block_comes_before_the_checksum() {
    let mut receiver = filled(0);
    assert_eq!(receive(&mut receiver, 3, &[0, 0, 0x60], 5), 26);
}

#[test]
fn places_may_be_free_where_no_block_is() {
    let receiver = filled(0);
    assert_eq!(receiver.places.iter().flatten().count(), 8);
}

/// RULES 15.7: tables of large sessions, each with 512 bytes in hand, begun at 9,000,000 and with
/// transfer 5 expected, from place 31 down; their sources are 101 and on.
fn large(count: u8) -> Receiver {
    let mut receiver = receiver();
    for index in 0..count {
        receiver.places[31 - usize::from(index)] = Some(Session {
            gathered: vec![9; 512],
            blocks: (8 * index..8 * index + 8).collect(),
            ..Session::new(stream(101 + index), 5, 0, 9_000_000)
        });
    }
    receiver
}

#[test]
fn cases_of_large_sessions() {
    const NOW: u64 = 10_000_000;
    let start = |receiver: &mut Receiver, time| receive(receiver, 9, &long(5, 0), time);

    let mut receiver = large(1);
    assert_eq!(start(&mut receiver, NOW), 0);
    assert_eq!(session(&receiver, 9).blocks, [8]);

    let mut receiver = large(8);
    let before = receiver.places[24..].to_vec();
    assert_eq!(start(&mut receiver, NOW), 26);
    assert_eq!(receiver.place_of(&stream(9)), Some(0));
    assert_ended(&receiver, 9, 6, NOW);
    assert_eq!(start(&mut receiver, NOW), 32);
    assert_eq!(receive(&mut receiver, 9, &long(5, 1), NOW), 30);
    assert_eq!(receiver.places[24..], before);

    let mut receiver = large(8);
    receiver.places[0] = Some(Session::new(stream(9), 5, 0, 9_500_000));
    assert_eq!(start(&mut receiver, NOW), 26);
    assert_ended(&receiver, 9, 6, NOW);

    assert_eq!(single(&mut large(8), 9, 5, NOW), 1);
    assert_eq!(start(&mut large(8), 11_000_000), 26);

    let mut receiver = large(8);
    assert_eq!(start(&mut receiver, 11_000_001), 0);
    for source in 101..109 {
        assert_ended(&receiver, source, 6, 9_000_000);
    }
    assert_eq!(
        (session(&receiver, 9).blocks.as_slice(), free(&receiver)),
        (&[0][..], 63)
    );

    let end = |count: usize| [&[9; 3][..count], &[0x45]].concat();
    assert_eq!(receive(&mut large(8), 101, &end(3), NOW), 11);
    assert_eq!(receive(&mut large(8), 101, &end(2), NOW), 26);
    assert_eq!(receive(&mut large(7), 101, &end(2), NOW), 12);

    let mut receiver = large(8);
    receiver.places[25] = None;
    begin_again(&mut receiver, 108, NOW);
    assert_eq!(session(&receiver, 108).blocks, [48]);
}

#[test]
fn case_of_a_full_table() {
    let mut receiver = large(8);
    for (place, source) in (0..24).zip(41..) {
        receiver.places[place] = Some(Session::new(stream(source), 0, 0, 9_000_000));
    }
    receiver.places[24].as_mut().unwrap().time = 7_000_000;
    assert_eq!(receive(&mut receiver, 9, &long(5, 0), 10_000_000), 0);
    assert_eq!(receiver.place_of(&stream(9)), Some(24));
    assert_eq!(session(&receiver, 9).blocks, [56]);
}
