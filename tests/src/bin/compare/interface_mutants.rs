//! Wrong variants of the interface rules: of when a session restarts and what it follows then, of
//! 19, and of the interface in a lent state.

use crate::entry_points::{receive, Arrival, Receive};
use crate::mutants::{edit_session, receive_changed, tail, PASSED_OVER};
use reference::frame::{forward_distance, Stream};
use reference::receive::{Answer, INTERFACES, PLACES};
use reference::session::{Piece, Reason, Restart, Session, FAR_AHEAD, SWITCH_DELAY};
use reference::state;

pub const ALL: [(&str, Receive); 11] = [
    ("switch-at-one-second", switch_at_one_second),
    ("switch-16-ahead", switch_16_ahead),
    ("switch-distance-reversed", switch_distance_reversed),
    ("delay-for-other-interfaces-only", delay_for_others_only),
    ("restart-keeps-interface", restart_keeps_interface),
    ("passed-over-switches", passed_over_switches),
    ("other-interface-taken", other_interface_taken),
    ("interface-checked-before-3", interface_checked_before_3),
    ("interface-checked-after-4", interface_checked_after_4),
    ("interface-3-accepted", interface_3_accepted),
    ("state-follows-interface-3", state_follows_interface_3),
];

/// The session that the frame meets, and the frame as far as restarting and passing over read it.
pub fn met(call: &Arrival) -> Option<(Session, Piece<'static>)> {
    let receiver = state::read(call.state.content())?;
    let place = receiver.place_of(&Stream::of_id(call.id))?;
    let interface = u8::try_from(call.interface).ok()?;
    let piece = Piece {
        tail: tail(call),
        payload: &[],
        interface,
        time: call.time,
        signature: 0,
    };
    let session = receiver.places[place].clone()?;
    (interface < INTERFACES).then_some((session, piece))
}

/// Receives a start as one at which the session restarts.
fn restarted(call: &mut Arrival, piece: &Piece) -> u64 {
    receive_changed(call, |session| {
        session.gathered.clear();
        session.blocks.clear();
        session.toggle = false;
        session.expected_id = piece.tail.transfer_id;
        session.follows = piece.interface;
    })
}

/// Receives a start at which the session should restart as one that is passed over, unless it is
/// refused.
fn not_restarted(call: &mut Arrival, reason: Reason) -> u64 {
    let (state, out) = (call.state.content().to_vec(), call.out.content().to_vec());
    let word = receive(call);
    if word & 255 > 1 {
        return word;
    }
    call.state.content_mut().copy_from_slice(&state);
    call.out.content_mut().copy_from_slice(&out);
    Answer::PassedOver(reason).number().into()
}

/// Receives by a variant of the rule that a start after the delay restarts the session.
fn by_delay_rule(call: &mut Arrival, rule: fn(&Session, &Piece) -> bool) -> u64 {
    let Some((session, piece)) = met(call) else {
        return receive(call);
    };
    let (reason, begins) = (session.passed_over(&piece), rule(&session, &piece));
    match (session.restart(&piece), reason, begins) {
        (Some(Restart::AfterDelay), Some(reason), false) => not_restarted(call, reason),
        (None, _, true) if piece.tail.start => restarted(call, &piece),
        _ => receive(call),
    }
}

fn ahead(session: &Session, piece: &Piece) -> u8 {
    forward_distance(session.expected_id, piece.tail.transfer_id)
}

fn switch_at_one_second(call: &mut Arrival) -> u64 {
    by_delay_rule(call, |session, piece| {
        session.age(piece.time) >= SWITCH_DELAY && ahead(session, piece) < FAR_AHEAD
    })
}

fn switch_16_ahead(call: &mut Arrival) -> u64 {
    by_delay_rule(call, |session, piece| {
        session.age(piece.time) > SWITCH_DELAY && ahead(session, piece) <= FAR_AHEAD
    })
}

fn switch_distance_reversed(call: &mut Arrival) -> u64 {
    by_delay_rule(call, |session, piece| {
        let behind = forward_distance(piece.tail.transfer_id, session.expected_id);
        session.age(piece.time) > SWITCH_DELAY && behind < FAR_AHEAD
    })
}

fn delay_for_others_only(call: &mut Arrival) -> u64 {
    by_delay_rule(call, |session, piece| {
        let late = session.age(piece.time) > SWITCH_DELAY;
        late && ahead(session, piece) < FAR_AHEAD && session.follows != piece.interface
    })
}

fn restart_keeps_interface(call: &mut Arrival) -> u64 {
    let found = met(call);
    let word = receive(call);
    if let Some((before, _)) = found {
        edit_session(call, |session| session.follows = before.follows);
    }
    word
}

fn passed_over_switches(call: &mut Arrival) -> u64 {
    let word = receive(call);
    if let (true, Some((_, piece))) = (PASSED_OVER.contains(&word), met(call)) {
        edit_session(call, |session| session.follows = piece.interface);
    }
    word
}

/// Reads a frame by another interface, at which nothing restarts, as one by the followed interface.
fn other_interface_taken(call: &mut Arrival) -> u64 {
    if let Some((session, piece)) = met(call) {
        let followed = Piece {
            interface: session.follows,
            ..piece
        };
        if session.restart(&piece).is_none() && session.restart(&followed).is_none() {
            call.interface = session.follows.into();
        }
    }
    receive(call)
}

fn interface_checked_before_3(call: &mut Arrival) -> u64 {
    match receive(call) {
        3 if call.interface >= INTERFACES.into() => 19,
        word => word,
    }
}

fn interface_checked_after_4(call: &mut Arrival) -> u64 {
    let stream = Stream::of_id(call.id);
    let unnamed = stream.source == 0 || stream.destination == 0;
    match receive(call) {
        19 if stream.transfer_type.is_service() && unnamed => 4,
        word => word,
    }
}

fn interface_3_accepted(call: &mut Arrival) -> u64 {
    if call.interface == 3 {
        call.interface = 2;
    }
    receive(call)
}

/// Takes a session that follows interface 3 for one that follows 2.
fn state_follows_interface_3(call: &mut Arrival) -> u64 {
    let before = call.state.content().to_vec();
    if before.len() >= state::SIZE {
        let bytes = call.state.content_mut();
        for place in 0..PLACES {
            let flags = state::CONTROLS + 4 * place + 3;
            if state::get_u32(bytes, state::STREAM_KEYS + 4 * place) != 0 && bytes[flags] >> 1 == 3
            {
                bytes[flags] -= 2;
            }
        }
    }
    let word = receive(call);
    if word == 20 {
        call.state.content_mut().copy_from_slice(&before);
    }
    word
}
