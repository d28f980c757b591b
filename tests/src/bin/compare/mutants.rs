//! Wrong variants of the reference: the errors that tempt and some at the edges. Each must
//! be caught, or the comparison shows nothing.

use crate::allocator_mutants;
use crate::entry_points::{
    frames_in, receive, send, Allocate, Allocating, Arrival, Departure, EntryPoints, Receive,
    Reception, Send, Sending, Serialization, REFERENCE,
};
use crate::{
    block_mutants, clipping_mutants, interface_mutants, parameter_mutants, reason_mutants,
};
use reference::bits::Refusal;
use reference::blocks::BLOCK;
use reference::codec::{Decode, Encode};
use reference::frame::{Stream, Tail};
use reference::map::Map;
use reference::messages::{self, Message, MessageType};
use reference::receive::{Receiver, INTERFACES};
use reference::session::Session;
use reference::state;
use std::ops::RangeInclusive;

/// The words that say why a frame is passed over.
pub const PASSED_OVER: RangeInclusive<u64> = 30..=34;

/// The part of the comparison that has to catch a mutant.
#[derive(Clone, Copy, PartialEq, Eq)]
pub enum Part {
    Receptions,
    Sends,
    Allocations,
    Payloads,
    Requests,
}

pub struct Mutant {
    pub name: &'static str,
    pub part: Part,
    pub side: EntryPoints,
}

pub fn all() -> Vec<Mutant> {
    let interfaces = interface_mutants::ALL.map(|(name, receive)| receiving(name, receive));
    let reasons = reason_mutants::ALL.map(|(name, receive)| receiving(name, receive));
    let blocks = block_mutants::ALL.map(|(name, receive)| receiving(name, receive));
    let others = [
        receiving("repeated-start-is-new", repeated_start_is_new),
        receiving("passed-over-turns-toggle", passed_over_turns_toggle),
        receiving("age-from-last-frame", age_from_last_frame),
        receiving("checksum-high-byte-first", checksum_high_byte_first),
        receiving("refused-frame-takes-place", refused_frame_takes_place),
        receiving("full-table-takes-place", full_table_takes_place),
        receiving("old-at-two-seconds", old_at_two_seconds),
        receiving("output-touched-by-12", output_touched_by_12),
        receiving("closing-clears-bytes", closing_clears_bytes),
        receiving("writes-past-the-state", writes_past_the_state),
        sending(
            "checksum-sent-high-byte-first",
            checksum_sent_high_byte_first,
        ),
        sending("entry-kept-at-two-seconds", entry_kept_at_two_seconds),
        sending("transfer-id-not-told", transfer_id_not_told),
        reading(
            "first-letter-is-length",
            Part::Payloads,
            first_letter_is_length,
        ),
        reading(
            "codec-first-letter-is-length",
            Part::Requests,
            first_letter_is_length,
        ),
        reading("codec-count-rounded-up", Part::Requests, count_rounded_up),
        reading("codec-padding-ignored", Part::Requests, padding_ignored),
        reading("codec-25-before-16", Part::Requests, padding_first),
        reading("codec-sign-bit-lost", Part::Requests, sign_bit_lost),
        reading("unused-place-not-zero", Part::Payloads, unused_place),
    ];
    let allocators = allocator_mutants::ALL.map(|(name, allocate)| allocating(name, allocate));
    let clipping = clipping_mutants::ALL.map(|(name, encode)| writing(name, encode));
    let parameters_read =
        parameter_mutants::READING.map(|(name, decode)| reading(name, Part::Requests, decode));
    let parameters_written = parameter_mutants::WRITING.map(|(name, encode)| writing(name, encode));
    others
        .into_iter()
        .chain(interfaces)
        .chain(reasons)
        .chain(blocks)
        .chain(allocators)
        .chain(clipping)
        .chain(parameters_read)
        .chain(parameters_written)
        .collect()
}

fn receiving(name: &'static str, receive: Receive) -> Mutant {
    let reception = Reception {
        receive,
        ..REFERENCE.reception
    };
    Mutant {
        name,
        part: Part::Receptions,
        side: EntryPoints {
            reception,
            ..REFERENCE
        },
    }
}

fn sending(name: &'static str, send: Send) -> Mutant {
    let sending = Sending {
        send,
        ..REFERENCE.sending
    };
    Mutant {
        name,
        part: Part::Sends,
        side: EntryPoints {
            sending,
            ..REFERENCE
        },
    }
}

fn allocating(name: &'static str, allocate: Allocate) -> Mutant {
    let allocating = Allocating {
        allocate,
        ..REFERENCE.allocating
    };
    Mutant {
        name,
        part: Part::Allocations,
        side: EntryPoints {
            allocating,
            ..REFERENCE
        },
    }
}

fn reading(name: &'static str, part: Part, decode: Decode) -> Mutant {
    let encode = messages::encode;
    serializing(name, part, Serialization { decode, encode })
}

fn writing(name: &'static str, encode: Encode) -> Mutant {
    let decode = messages::decode;
    serializing(name, Part::Requests, Serialization { decode, encode })
}

fn serializing(name: &'static str, part: Part, calls: Serialization) -> Mutant {
    let serialization = Some(calls);
    Mutant {
        name,
        part,
        side: EntryPoints {
            serialization,
            ..REFERENCE
        },
    }
}

/// Changes the receiver in a lent state that has no fault.
pub fn edit(call: &mut Arrival, change: impl FnOnce(&mut Receiver)) {
    if let Some(mut receiver) = state::read(call.state.content()) {
        change(&mut receiver);
        state::write(&receiver, call.state.content_mut());
    }
}

/// Changes the session of the frame's stream, if there is one.
pub fn edit_session(call: &mut Arrival, change: impl FnOnce(&mut Session)) {
    let stream = Stream::of_id(call.id);
    edit(call, |receiver| {
        let place = receiver.place_of(&stream);
        if let Some(session) = place.and_then(|place| receiver.places[place].as_mut()) {
            change(session);
        }
    });
}

/// Receives after a change of the session, which a refusal undoes.
pub fn receive_changed(call: &mut Arrival, change: impl FnOnce(&mut Session)) -> u64 {
    let before = call.state.content().to_vec();
    edit_session(call, change);
    let word = receive(call);
    if word & 255 > 1 {
        call.state.content_mut().copy_from_slice(&before);
    }
    word
}

/// Makes a session for the frame's stream in a place, unless it has one.
fn take_place(call: &mut Arrival, place: impl FnOnce(&Receiver) -> Option<usize>) {
    let (stream, tail) = (Stream::of_id(call.id), tail(call));
    let interface = (call.interface % u32::from(INTERFACES)) as u8;
    let session = Session::new(stream, tail.transfer_id, interface, call.time);
    edit(call, |receiver| {
        if let (Some(place), None) = (place(receiver), receiver.place_of(&session.stream)) {
            receiver.places[place] = Some(session);
        }
    });
}

pub fn tail(call: &Arrival) -> Tail {
    Tail::of_byte(call.data.content().last().copied().unwrap_or(0))
}

fn repeated_start_is_new(call: &mut Arrival) -> u64 {
    let tail = tail(call);
    if !tail.start {
        return receive(call);
    }
    receive_changed(call, |session| {
        session.gathered.clear();
        session.blocks.clear();
        session.toggle = false;
        session.expected_id = tail.transfer_id;
    })
}

fn passed_over_turns_toggle(call: &mut Arrival) -> u64 {
    let word = receive(call);
    if PASSED_OVER.contains(&word) {
        edit_session(call, |session| session.toggle = !session.toggle);
    }
    word
}

fn age_from_last_frame(call: &mut Arrival) -> u64 {
    let (word, time) = (receive(call), call.time);
    if word == 0 {
        edit_session(call, |session| session.time = time);
    }
    word
}

/// Swaps the checksum's bytes for the frame that closes, and back.
fn checksum_high_byte_first(call: &mut Arrival) -> u64 {
    let before = call.state.content().to_vec();
    let tail = tail(call);
    edit_session(call, |session| {
        if tail.end && session.gathered.len() > 1 {
            session.gathered.swap(0, 1);
        }
    });
    let word = receive(call);
    if tail.end && before.len() >= state::SIZE {
        let room = state::BLOCK_BYTES..state::SIZE;
        call.state.content_mut()[room.clone()].copy_from_slice(&before[room]);
    }
    word
}

fn refused_frame_takes_place(call: &mut Arrival) -> u64 {
    let word = receive(call);
    if (2..=8).contains(&word) {
        take_place(call, |receiver| {
            receiver.places.iter().position(Option::is_none)
        });
    }
    word
}

fn full_table_takes_place(call: &mut Arrival) -> u64 {
    let word = receive(call);
    if word == 9 {
        take_place(call, |_| Some(0));
    }
    word
}

/// Takes ages for one more than they are.
fn old_at_two_seconds(call: &mut Arrival) -> u64 {
    let before = call.state.content().to_vec();
    let (time, late) = (call.time, call.time.saturating_add(1));
    call.time = late;
    let word = receive(call);
    if call.state.content() != before {
        edit_session(call, |session| {
            if session.time == late {
                session.time = time;
            }
        });
    }
    word
}

fn output_touched_by_12(call: &mut Arrival) -> u64 {
    let word = receive(call);
    if word == 12 {
        call.out.content_mut()[0] ^= 1;
    }
    word
}

fn closing_clears_bytes(call: &mut Arrival) -> u64 {
    let before = state::read(call.state.content());
    let word = receive(call);
    let place = before
        .as_ref()
        .and_then(|one| one.place_of(&Stream::of_id(call.id)));
    if let (1, Some(before), Some(place)) = (word & 255, before, place) {
        for &block in before.places[place].iter().flat_map(|one| &one.blocks) {
            call.state.content_mut()[state::block_at(block)..][..BLOCK].fill(0);
        }
    }
    word
}

fn writes_past_the_state(call: &mut Arrival) -> u64 {
    let word = receive(call);
    call.state.touch_guard();
    word
}

fn checksum_sent_high_byte_first(call: &mut Departure) -> u64 {
    let word = send(call);
    if word & 255 == 0 && frames_in(word) > 1 {
        call.out.content_mut().swap(5, 6);
    }
    word
}

/// Takes entries for unused for one less than they are.
fn entry_kept_at_two_seconds(call: &mut Departure) -> u64 {
    let time = call.numbers.time;
    let before = Map::read(call.map.content());
    call.numbers.time = time.saturating_sub(1);
    let word = send(call);
    if let (Some(before), Some(mut after)) = (before, Map::read(call.map.content())) {
        let places = after.places.iter_mut().zip(&before.places);
        for (place, _) in places.filter(|(place, old)| place != old) {
            place.as_mut().expect("no send empties a place").time = time;
        }
        after.write(call.map.content_mut());
    }
    word
}

fn transfer_id_not_told(call: &mut Departure) -> u64 {
    let word = send(call);
    word & 255 | frames_in(word) << 8
}

/// Takes the first letter of the name for the length of the rest.
fn first_letter_is_length(
    message_type: MessageType,
    payload: &[u8],
) -> Result<Message<'_>, Refusal> {
    let mut message = messages::decode(message_type, payload)?;
    if let Message::NodeInfoResponse(info) = &mut message {
        let length = usize::from(info.name[0]);
        let rest = &info.name[1..];
        info.name = &rest[..rest.len().min(length)];
    }
    Ok(message)
}

/// One number more where bits are left over.
fn count_rounded_up(message_type: MessageType, payload: &[u8]) -> Result<Message<'_>, Refusal> {
    let mut message = messages::decode(message_type, payload)?;
    if let Message::RawCommand(commands) = &mut message {
        commands.count = (8 * payload.len()).div_ceil(14);
    }
    Ok(message)
}

/// Clears what is left over after the last number.
fn padding_ignored(message_type: MessageType, payload: &[u8]) -> Result<Message<'_>, Refusal> {
    match messages::decode(message_type, payload) {
        Err(Refusal::PaddingNotZero) => {
            let left = 8 * payload.len() % 14;
            let mut cleared = payload.to_vec();
            *cleared.last_mut().expect("padding is in a byte") &= !0 << left;
            let Message::RawCommand(commands) = messages::decode(message_type, &cleared)? else {
                return Err(Refusal::PaddingNotZero);
            };
            Ok(Message::RawCommand(commands))
        }
        other => other,
    }
}

/// Looks at the bits left over before their number.
fn padding_first(message_type: MessageType, payload: &[u8]) -> Result<Message<'_>, Refusal> {
    let left = 8 * payload.len() % 14;
    let read = messages::decode(message_type, payload);
    let last = payload.last().copied().unwrap_or(0);
    if message_type == MessageType::RawCommand && left >= 8 && last != 0 {
        return Err(Refusal::PaddingNotZero);
    }
    read
}

/// Takes all 14 bits for digits.
fn sign_bit_lost(message_type: MessageType, payload: &[u8]) -> Result<Message<'_>, Refusal> {
    let mut message = messages::decode(message_type, payload)?;
    if let Message::RawCommand(commands) = &mut message {
        commands.places = commands.places.map(|number| number.rem_euclid(1 << 14));
    }
    Ok(message)
}

/// Leaves something in the first place past the count.
fn unused_place(message_type: MessageType, payload: &[u8]) -> Result<Message<'_>, Refusal> {
    let mut message = messages::decode(message_type, payload)?;
    if let Message::RawCommand(commands) = &mut message {
        if let Some(place) = commands.places.get_mut(commands.count) {
            *place = 1;
        }
    }
    Ok(message)
}
