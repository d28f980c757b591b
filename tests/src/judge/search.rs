//! A verdict by the definition (RULES 19.5 to 19.7), for captures of a few frames: transfers are
//! looked for whose frames are those of a stream, one for one.
//!
//! Searched: each way to cut the frames into transfers; and for a transfer that is cut short, the
//! length of its payload and the last two bytes, all values of them.
//!
//! Reasoned: a transfer has the priority and the transfer ID of its first frame, and its payload
//! begins with the bytes that its frames carry. Of the bytes that no frame carries all but the last
//! two are tried with 0 alone; if no length and no last two bytes give the checksum, the search does
//! not know whether others would, and panics. What is found is not believed: the sender
//! (`send::split`) makes its frames, and each is compared.
//!
//! Two continuations are tried: none, and the frames that complete each transfer that is cut short.
//! That no other passes where these fail is not shown here; the tests try a great many.

use super::*;
use crate::crc::{crc16, crc16_from};
use crate::frame::{next_transfer_id, priority_of, TransferType};
use crate::receive::LONGEST_PAYLOAD;
use crate::send::{frame_count, split};
use std::cell::RefCell;
use std::collections::HashMap;

/// A transfer that some frames are of.
#[derive(Clone, Debug)]
pub struct Transfer {
    pub id: u32,
    pub transfer_id: u8,
    pub payload: Vec<u8>,
    /// The time of its start.
    pub start: u64,
    /// How many of its frames are there.
    pub seen: usize,
}

impl Transfer {
    /// The data of all its frames, by the sending rules.
    fn sent(&self, signature: u64) -> Vec<Vec<u8>> {
        split(&self.payload, signature, self.transfer_id)
    }

    fn is_cut(&self) -> bool {
        self.seen < frame_count(self.payload.len())
    }

    /// Whether these frames are its first ones.
    fn begins(&self, signature: u64, stream: &Stream, frames: &[Frame]) -> bool {
        let sent = self.sent(signature);
        let id = stream.id(priority_of(self.id), 0);
        sent.len() >= frames.len()
            && self.payload.len() <= LONGEST_PAYLOAD
            && sent
                .iter()
                .zip(frames)
                .all(|(data, frame)| frame.id == id && frame.bytes() == data)
    }
}

pub fn verdict(receiver: &Receiver, frames: &[Frame]) -> Verdict {
    let first = (0..frames.len()).find(|&at| !could_pass(receiver, &frames[..=at]));
    match first {
        None => Verdict::Passes,
        Some(at) => Verdict::Fails {
            number: number(receiver, &frames[..at], &frames[at]),
            frame: at,
        },
    }
}

/// Whether a continuation passes: none, or what completes the transfers that are cut short.
pub fn could_pass(receiver: &Receiver, frames: &[Frame]) -> bool {
    passes(receiver, frames)
        || completion(receiver, frames)
            .is_some_and(|more| passes(receiver, &[frames, &more].concat()))
}

/// RULES 19.6.
pub fn passes(receiver: &Receiver, frames: &[Frame]) -> bool {
    let streams = named_streams(frames);
    frames
        .iter()
        .all(|frame| check(frame).is_none() && signature(receiver, frame).is_some())
        && streams.len() <= MOST_STREAMS
        && streams
            .iter()
            .all(|stream| transfers(receiver, stream, frames).is_some())
}

/// The frames that complete each transfer that is cut short, at the time of its start.
pub fn completion(receiver: &Receiver, frames: &[Frame]) -> Option<Vec<Frame>> {
    let mut more = Vec::new();
    for stream in named_streams(frames) {
        let signature = receiver.signature(&stream)?;
        if let Some(last) = transfers(receiver, &stream, frames)?.last() {
            let missing = &last.sent(signature)[last.seen..];
            more.extend(
                missing
                    .iter()
                    .map(|data| Frame::new(last.start, last.id, data)),
            );
        }
    }
    Some(more)
}

/// The streams with a named source, each once.
fn named_streams(frames: &[Frame]) -> Vec<Stream> {
    let mut streams = Vec::new();
    for stream in frames.iter().map(Frame::stream) {
        if stream.source != 0 && !streams.contains(&stream) {
            streams.push(stream);
        }
    }
    streams
}

fn of_stream(stream: &Stream, frames: &[Frame]) -> Vec<Frame> {
    let mut frames = frames.to_vec();
    frames.retain(|frame| frame.stream() == *stream);
    frames
}

/// Transfers whose frames are those of the stream; none if there are no such (RULES 19.5).
pub fn transfers(receiver: &Receiver, stream: &Stream, frames: &[Frame]) -> Option<Vec<Transfer>> {
    let signature = receiver.signature(stream)?;
    after(None, signature, stream, &of_stream(stream, frames))
}

/// The same for the frames after a transfer.
fn after(
    before: Option<&Transfer>,
    signature: u64,
    stream: &Stream,
    frames: &[Frame],
) -> Option<Vec<Transfer>> {
    if frames.is_empty() {
        return Some(Vec::new());
    }
    (1..=frames.len()).find_map(|seen| {
        let (of_first, others) = frames.split_at(seen);
        let first = match others {
            [] => whole(signature, stream, of_first).or_else(|| cut(signature, stream, of_first)),
            _ => whole(signature, stream, of_first),
        };
        let first = first.filter(|first| may_follow(stream, before, first))?;
        let mut all = after(Some(&first), signature, stream, others)?;
        all.insert(0, first);
        Some(all)
    })
}

fn may_follow(stream: &Stream, before: Option<&Transfer>, transfer: &Transfer) -> bool {
    let Some(before) = before else {
        return true;
    };
    let later = u128::from(transfer.start) >= u128::from(before.start) + u128::from(GAP);
    stream.transfer_type == TransferType::Response
        || transfer.transfer_id == next_transfer_id(before.transfer_id)
        || later && transfer.transfer_id == 0
}

/// What the frames say of the transfer that they are of; the payload is what they carry.
fn said(frames: &[Frame], payload: Vec<u8>) -> Option<Transfer> {
    let first = frames.first()?;
    Some(Transfer {
        id: first.id,
        transfer_id: (!first.bytes().is_empty()).then(|| first.tail().transfer_id)?,
        payload,
        start: first.time,
        seen: frames.len(),
    })
}

fn carried(frames: &[Frame]) -> Vec<u8> {
    frames
        .iter()
        .flat_map(|frame| frame.payload().to_vec())
        .collect()
}

/// A transfer that has exactly these frames.
fn whole(signature: u64, stream: &Stream, frames: &[Frame]) -> Option<Transfer> {
    let mut payload = carried(frames);
    if frames.len() > 1 {
        payload.drain(..payload.len().min(2));
    }
    let transfer = said(frames, payload)?;
    (transfer.begins(signature, stream, frames) && !transfer.is_cut()).then_some(transfer)
}

/// A transfer that has more frames, of which these are the first.
fn cut(signature: u64, stream: &Stream, frames: &[Frame]) -> Option<Transfer> {
    let carried = carried(frames);
    // a frame with less or more never is the first of several
    if carried.len() != FRAME_PAYLOAD * frames.len() {
        return None;
    }
    let (checksum, known) = carried.split_at(2);
    let checksum = u16::from_le_bytes([checksum[0], checksum[1]]);
    let lengths = (0..=LONGEST_PAYLOAD).filter(|&length| frame_count(length) > frames.len());
    let mut tried = false;
    for length in lengths.filter(|&length| length >= known.len() + 2) {
        let zeros = vec![0; length - known.len() - 2];
        let mut payload = [known, &zeros].concat();
        tried = true;
        if let Some(last) = last_two(signature, &payload, checksum) {
            payload.extend(last);
            let transfer = said(frames, payload)?;
            return transfer
                .begins(signature, stream, frames)
                .then_some(transfer);
        }
    }
    assert!(
        !tried,
        "no payload was found, and it is not known that there is none"
    );
    None
}

/// Two bytes that give the payload this checksum. What was found once is kept.
fn last_two(signature: u64, payload: &[u8], checksum: u16) -> Option<[u8; 2]> {
    thread_local! {
        static FOUND: RefCell<HashMap<(u16, u16), Option<[u8; 2]>>> = RefCell::default();
    }
    let register = crc16_from(crc16(&signature.to_le_bytes()), payload);
    let search = || {
        let mut all = (0..=u16::MAX).map(u16::to_le_bytes);
        all.find(|last| crc16_from(register, last) == checksum)
    };
    let key = (register, checksum);
    FOUND.with_borrow_mut(|found| *found.entry(key).or_insert_with(search))
}

/// The number at the first frame after which nothing passes (RULES 19.7).
fn number(receiver: &Receiver, before: &[Frame], frame: &Frame) -> u32 {
    if let Some(number) = check(frame) {
        return number;
    }
    let Some(signature) = signature(receiver, frame) else {
        return 7;
    };
    let stream = frame.stream();
    if stream.source != 0 && named_streams(&[before, &[*frame]].concat()).len() > MOST_STREAMS {
        return TOO_MANY_STREAMS;
    }
    let Some(bytes) = continued(receiver, &stream, before, frame) else {
        return NOT_SENT_SO;
    };
    if bytes.len() > MOST_CARRIED {
        return TOO_LONG;
    }
    let (checksum, payload) = bytes.split_at(2);
    let right = crc16_from(crc16(&signature.to_le_bytes()), payload).to_le_bytes();
    if frame.tail().end && checksum != right {
        return CHECKSUM_DIFFERS;
    }
    NOT_SENT_SO
}

/// The bytes that a transfer in hand carries with this frame; none if it continues none.
fn continued(
    receiver: &Receiver,
    stream: &Stream,
    before: &[Frame],
    frame: &Frame,
) -> Option<Vec<u8>> {
    let mut all = transfers(receiver, stream, before).expect("what could pass");
    let in_hand = all.pop().filter(Transfer::is_cut)?;
    let tail = frame.tail();
    let continues = !tail.start
        && frame.id == in_hand.id
        && tail.transfer_id == in_hand.transfer_id
        && tail.toggle == (in_hand.seen % 2 == 1);
    let of_stream = of_stream(stream, before);
    let its_frames = &of_stream[of_stream.len() - in_hand.seen..];
    continues.then(|| [carried(its_frames), frame.payload().to_vec()].concat())
}
