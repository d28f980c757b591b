//! Wrong variants of why a frame is passed over: neighbours in the order of the reasons exchanged, and
//! a number where another one is due. None of them leaves a wrong state.

use crate::entry_points::{receive, Arrival, Receive};
use crate::interface_mutants::met;
use crate::mutants::tail;
use reference::session::{Piece, Session};

pub const ALL: [(&str, Receive); 7] = [
    ("start-32-before-34", |call| exchanged(call, true, 34, 32)),
    ("start-33-before-32", |call| exchanged(call, true, 32, 33)),
    ("30-before-34", |call| exchanged(call, false, 34, 30)),
    ("32-before-30", |call| exchanged(call, false, 30, 32)),
    ("31-before-32", |call| exchanged(call, false, 32, 31)),
    ("old-session-answers-34", old_session_answers_34),
    ("other-id-in-hand-answers-30", other_id_in_hand_answers_30),
];

/// Two neighbours exchanged, of the order for starts or of the one for all other frames: where both
/// apply, the second answers.
fn exchanged(call: &mut Arrival, start: bool, first: u64, second: u64) -> u64 {
    let found = met(call);
    let word = receive(call);
    let both = found.is_some_and(|(session, piece)| {
        let in_order = piece.tail.start == start && !session.is_old(piece.time);
        in_order && applies(second, &session, &piece)
    });
    if both && word == first {
        second
    } else {
        word
    }
}

/// Whether the test of a number holds, apart from its place in the order.
fn applies(number: u64, session: &Session, piece: &Piece) -> bool {
    match number {
        30 => session.gathered.is_empty(),
        31 => session.toggle != piece.tail.toggle,
        32 => session.expected_id != piece.tail.transfer_id,
        33 => !session.gathered.is_empty(),
        _ => session.follows != piece.interface,
    }
}

fn old_session_answers_34(call: &mut Arrival) -> u64 {
    let old_elsewhere = met(call).is_some_and(|(session, piece)| {
        session.is_old(piece.time) && applies(34, &session, &piece)
    });
    match receive(call) {
        30 if old_elsewhere => 34,
        word => word,
    }
}

fn other_id_in_hand_answers_30(call: &mut Arrival) -> u64 {
    match receive(call) {
        32 if !tail(call).start => 30,
        word => word,
    }
}
