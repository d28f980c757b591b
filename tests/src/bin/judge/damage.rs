//! Ways to change traffic that passes, in one frame or a few: those that do no harm, and those that
//! lead to each number; with the verdict, where the way tells.

use crate::random::Random;
use crate::traffic::{self, anonymous_type, timed, Traffic};
use reference::crc::crc16_from;
use reference::frame::{next_transfer_id, Stream, TransferType};
use reference::judge::Verdict::{self, Fails, Passes};
use reference::judge::{Frame, GAP, MOST_STREAMS};
use reference::receive::Subscription;
use reference::send::split;

/// Where a frame with a named source is in its transfer.
#[derive(Clone, Copy)]
pub struct Place {
    pub stream: Stream,
    /// The start of the transfer, and its end if there is one.
    pub start: usize,
    pub end: Option<usize>,
    /// How many frames of the transfer are before it.
    pub part: usize,
    /// The start of the transfer before.
    pub before: Option<usize>,
}

impl Place {
    fn is_response(&self) -> bool {
        self.stream.transfer_type == TransferType::Response
    }

    fn is_single(&self) -> bool {
        self.end == Some(self.start)
    }
}

/// Of each frame of traffic that passes; an anonymous one has none.
pub fn places(frames: &[Frame]) -> Vec<Option<Place>> {
    let mut places: Vec<Option<Place>> = Vec::new();
    for (at, frame) in frames.iter().enumerate() {
        let stream = frame.stream();
        if stream.is_anonymous() {
            places.push(None);
            continue;
        }
        let mut others = places.iter().rev().flatten();
        let last = others.find(|place| place.stream == stream).copied();
        let (start, part, before) = match last {
            Some(last) if !frame.tail().start => (last.start, last.part + 1, last.before),
            Some(last) => (at, 0, Some(last.start)),
            None => (at, 0, None),
        };
        let end = frame.tail().end.then_some(at);
        places.push(Some(Place {
            stream,
            start,
            end,
            part,
            before,
        }));
        if end.is_some() {
            let of_it = places.iter_mut().flatten();
            let of_it = of_it.filter(|place| place.stream == stream && place.start == start);
            of_it.for_each(|place| place.end = end);
        }
    }
    places
}

/// None if it cannot be done here; else the verdict, if the way tells it.
pub type Said = Option<Option<Verdict>>;
/// Of each frame.
pub type Places = [Option<Place>];
/// Changes traffic.
pub type Damage = fn(&mut Random, &mut Traffic, &Places) -> Said;

/// Most of them can be done to any traffic of a few streams.
pub const DAMAGES: [(&str, Damage); 62] = [
    ("harmless: times of frames that are no starts", other_times),
    ("harmless: bytes past the data", unused_bytes),
    (
        "harmless: another priority for a transfer",
        priority_of_transfer,
    ),
    ("harmless: cut anywhere", cut),
    ("harmless: an anonymous frame put in", anonymous_put_in),
    ("harmless: responses renumbered", responses_renumbered),
    ("harmless: 0 after 2,000,000", zero_after_gap),
    ("harmless: the next ID after 2,000,000", next_after_gap),
    ("2: an ID of 2^29 or more", large_id),
    ("3: no data", no_data),
    ("3: 9 data bytes", nine_bytes),
    ("3: more data bytes", more_bytes),
    ("4: a service without a source", no_source),
    ("4: a service without a destination", no_destination),
    ("5: a start with toggle 1", start_with_toggle),
    ("5: no end, fewer than 8 bytes", short_and_no_end),
    ("5: an end with the tail byte alone", end_alone),
    ("5: anonymous and not single", anonymous_of_several),
    ("7: a type without a subscription", no_subscription),
    ("7: a subscription of the other kind", other_kind),
    ("7: anonymous, of such a type", anonymous_without),
    ("checks: two refuse one frame", two_checks),
    ("12: a byte of the payload", payload_byte),
    ("12: a byte of the checksum", checksum_byte),
    ("12: under another signature", other_signature),
    ("12: checksum high byte first", checksum_swapped),
    ("12: 7 bytes or fewer in two frames", short_payload_wrong),
    ("24: 7 bytes or fewer in two frames", short_payload),
    (
        "24: a byte changed, and an end that does not continue",
        wrong_and_other,
    ),
    ("24: a transfer ID that does not come next", other_id),
    ("24: a transfer ID after 2,000,000", other_id_after_gap),
    ("24: 0 after 1,999,999", zero_too_early),
    ("24: 0 at a time that ran back", zero_before),
    (
        "24: 0 long after the last frame but not the start",
        zero_after_end,
    ),
    ("24: another transfer ID inside", id_inside),
    ("24: another toggle inside", toggle_inside),
    ("24: another priority inside", priority_inside),
    ("24: a start inside", start_inside),
    ("24: a frame twice", frame_twice),
    ("24: a start lost", start_lost),
    ("24: a frame inside lost", inside_lost),
    ("24: begins inside a transfer", begins_inside),
    ("24: a whole transfer twice", transfer_twice),
    ("24: a transfer inside of another", transfer_inside),
    ("24: every frame twice", all_twice),
    ("a frame lost", frame_lost),
    ("an end inside", end_inside),
    ("an end lost", end_lost),
    ("neighbours exchanged", exchanged),
    ("a frame moved", moved),
    ("a frame of another stream", stream_changed),
    ("a time changed", time_changed),
    ("a byte of a record changed", record_changed),
    ("a frame of any bytes", any_frame),
    ("a frame put in again later", repeated_later),
    ("two ways at once", two_ways),
    ("three ways at once", three_ways),
    ("a bit of a tail changed", tail_changed),
    ("a bit of an ID changed", id_changed),
    ("the first frames lost", first_lost),
    ("a subscription lost", subscription_lost),
    ("a signature changed", signature_changed),
];

/// Those that need much traffic, made for them.
pub const LARGE: [(&str, fn(&mut Random) -> (Traffic, Option<Verdict>)); 9] = [
    ("9: a 65th stream", stream_65),
    (
        "9: a 65th stream that begins inside a transfer",
        stream_65_inside,
    ),
    ("7: a 65th stream without a subscription", stream_65_without),
    ("64 streams, and more frames of them", stream_64_again),
    ("64 streams, and an anonymous frame", stream_64_anonymous),
    ("11: more than 512 bytes", too_long),
    (
        "11: more than 512 bytes, checksum wrong",
        too_long_and_wrong,
    ),
    (
        "24: a long transfer, its last frame of another priority",
        too_long_and_other,
    ),
    ("512 bytes, an end with a wrong checksum", longest_and_wrong),
];

fn fails(number: u32, frame: usize) -> Said {
    Some(Some(Fails { number, frame }))
}

fn passes() -> Said {
    Some(Some(Passes))
}

/// What it does to the verdict is left open.
fn open() -> Said {
    Some(None)
}

/// One of the frames.
fn any(random: &mut Random, traffic: &Traffic) -> Option<usize> {
    let count = traffic.frames.len();
    (count > 0).then(|| random.index(count))
}

/// One of the frames with a named source of which this holds.
fn one(
    random: &mut Random,
    places: &Places,
    holds: impl Fn(usize, &Place) -> bool,
) -> Option<(usize, Place)> {
    let all = places.iter().enumerate();
    let all = all.filter_map(|(at, place)| place.map(|place| (at, place)));
    let found: Vec<(usize, Place)> = all.filter(|(at, place)| holds(*at, place)).collect();
    (!found.is_empty()).then(|| random.pick(&found))
}

/// A start that is not a stream's first, of a message or a request.
fn counted(random: &mut Random, places: &Places) -> Option<(usize, Place, usize)> {
    let (at, place) = one(random, places, |at, place| {
        place.start == at && place.before.is_some() && !place.is_response()
    })?;
    Some((at, place, place.before?))
}

/// A frame that is no start.
fn inside(random: &mut Random, places: &Places) -> Option<(usize, Place)> {
    one(random, places, |_, place| place.part > 0)
}

/// The end of a transfer of several frames.
fn late_end(random: &mut Random, places: &Places) -> Option<(usize, Place)> {
    one(random, places, |at, place| {
        place.part > 0 && place.end == Some(at)
    })
}

fn tail(frame: &mut Frame) -> &mut u8 {
    &mut frame.data[frame.length - 1]
}

fn set_id(frame: &mut Frame, transfer_id: u8) {
    let tail = tail(frame);
    *tail = *tail & 0xE0 | transfer_id;
}

/// Gives all frames of a transfer another transfer ID.
fn renumber(traffic: &mut Traffic, places: &Places, start: usize, transfer_id: u8) {
    let stream = traffic.frames[start].stream();
    for (frame, place) in traffic.frames.iter_mut().zip(places) {
        if place.is_some_and(|place| place.stream == stream && place.start == start) {
            set_id(frame, transfer_id);
        }
    }
}

fn signature_of(traffic: &Traffic, stream: &Stream) -> u64 {
    let service = stream.transfer_type.is_service();
    let mut list = traffic.subscriptions.iter();
    let found = list.find(|one| one.service == service && one.type_id == stream.type_id);
    found.expect("a subscribed type").signature
}

// ---- without harm ----

fn other_times(random: &mut Random, t: &mut Traffic, p: &Places) -> Said {
    inside(random, p)?;
    for (frame, place) in t.frames.iter_mut().zip(p) {
        if place.is_none_or(|place| place.part > 0) {
            frame.time = random.next();
        }
    }
    passes()
}

fn unused_bytes(random: &mut Random, t: &mut Traffic, _: &Places) -> Said {
    any(random, t)?;
    for frame in &mut t.frames {
        random.fill(&mut frame.data[frame.length..]);
    }
    passes()
}

fn priority_of_transfer(random: &mut Random, t: &mut Traffic, p: &Places) -> Said {
    let (_, chosen) = one(random, p, |_, _| true)?;
    let priority = random.below(32) as u32;
    for (frame, place) in t.frames.iter_mut().zip(p) {
        if place.is_some_and(|one| one.start == chosen.start) {
            frame.id = frame.id & 0x00FF_FFFF | priority << 24;
        }
    }
    passes()
}

fn cut(random: &mut Random, t: &mut Traffic, _: &Places) -> Said {
    t.frames.truncate(any(random, t)?);
    passes()
}

fn anonymous_put_in(random: &mut Random, t: &mut Traffic, _: &Places) -> Said {
    let frame = traffic::anonymous_frame(random, anonymous_type(&t.subscriptions)?);
    t.frames.insert(random.index(t.frames.len() + 1), frame);
    passes()
}

fn responses_renumbered(random: &mut Random, t: &mut Traffic, p: &Places) -> Said {
    let (start, _) = one(random, p, |at, place| {
        place.start == at && place.is_response()
    })?;
    renumber(t, p, start, random.below(32) as u8);
    passes()
}

/// The last transfer of a stream comes so much after the start before it, with this ID.
fn last_after(
    random: &mut Random,
    t: &mut Traffic,
    p: &Places,
    by: u64,
    transfer_id: impl Fn(&mut Random, u8) -> u8,
) -> Option<(usize, u8)> {
    let last = |place: &Place| {
        p.iter()
            .flatten()
            .all(|one| one.before != Some(place.start))
    };
    let (at, place) = one(random, p, |at, place| {
        place.start == at && place.before.is_some() && !place.is_response() && last(place)
    })?;
    let before = t.frames[place.before?];
    let time = before.time.checked_add(by)?;
    t.frames[at].time = time;
    let transfer_id = transfer_id(random, before.tail().transfer_id);
    renumber(t, p, at, transfer_id);
    Some((at, next_transfer_id(before.tail().transfer_id)))
}

/// Long enough, also where few of the bits say so.
const LONG: [u64; 6] = [GAP, GAP, GAP + 1, 1 << 32, (1 << 32) + GAP - 1, 1 << 40];

fn zero_after_gap(random: &mut Random, t: &mut Traffic, p: &Places) -> Said {
    let by = random.pick(&LONG);
    last_after(random, t, p, by, |_, _| 0)?;
    passes()
}

fn next_after_gap(random: &mut Random, t: &mut Traffic, p: &Places) -> Said {
    let by = random.pick(&LONG);
    last_after(random, t, p, by, |_, before| next_transfer_id(before))?;
    passes()
}

// ---- the frame checks ----

fn large_id(random: &mut Random, t: &mut Traffic, _: &Places) -> Said {
    let at = any(random, t)?;
    t.frames[at].id |= (random.between(1, 7) as u32) << 29;
    fails(2, at)
}

fn no_data(random: &mut Random, t: &mut Traffic, _: &Places) -> Said {
    let at = any(random, t)?;
    t.frames[at].length = 0;
    fails(3, at)
}

fn nine_bytes(random: &mut Random, t: &mut Traffic, p: &Places) -> Said {
    let (at, _) = one(random, p, |_, _| true)?;
    t.frames[at].length = 9;
    fails(3, at)
}

fn more_bytes(random: &mut Random, t: &mut Traffic, _: &Places) -> Said {
    let at = any(random, t)?;
    // 16 + n and 256 - n as well, whose low bits say something else
    t.frames[at].length = match random.coin() {
        true => 8 * random.between(2, 31) as usize + t.frames[at].length % 8,
        false => random.between(10, 255) as usize,
    };
    fails(3, at)
}

fn no_source(random: &mut Random, t: &mut Traffic, _: &Places) -> Said {
    let at = any(random, t)?;
    let id = &mut t.frames[at].id;
    *id = *id & !127 | 128;
    fails(4, at)
}

fn no_destination(random: &mut Random, t: &mut Traffic, _: &Places) -> Said {
    let at = any(random, t)?;
    let id = &mut t.frames[at].id;
    *id = *id & !(127 << 8) | 128;
    fails(4, at)
}

fn start_with_toggle(random: &mut Random, t: &mut Traffic, p: &Places) -> Said {
    let (at, _) = one(random, p, |at, place| place.start == at)?;
    *tail(&mut t.frames[at]) |= 0x20;
    fails(5, at)
}

fn short_and_no_end(random: &mut Random, t: &mut Traffic, p: &Places) -> Said {
    let (at, _) = one(random, p, |at, place| {
        place.end == Some(at) && t.frames[at].length < 8
    })?;
    *tail(&mut t.frames[at]) &= !0x40;
    fails(5, at)
}

fn end_alone(random: &mut Random, t: &mut Traffic, p: &Places) -> Said {
    let (at, _) = late_end(random, p)?;
    let frame = &mut t.frames[at];
    frame.data[0] = frame.data[frame.length - 1];
    frame.length = 1;
    fails(5, at)
}

fn anonymous_of_several(random: &mut Random, t: &mut Traffic, _: &Places) -> Said {
    let type_id = random.below(4) as u16;
    let mut frame = traffic::anonymous_frame(random, type_id);
    frame.length = 8;
    frame.data[7] = random.pick(&[0x80, 0x40, 0x60, 0x20, 0x00, 0xE0]) | random.below(32) as u8;
    let at = random.index(t.frames.len() + 1);
    t.frames.insert(at, frame);
    fails(5, at)
}

/// A type that is not in the list, near one that is.
fn missing(random: &mut Random, list: &[Subscription], service: bool) -> u16 {
    loop {
        let near = random.pick(list).type_id ^ 1 << random.below(16);
        let type_id = if service { near % 256 } else { near };
        let found = |one: &Subscription| one.service == service && one.type_id == type_id;
        if !list.iter().any(found) {
            return type_id;
        }
    }
}

fn no_subscription(random: &mut Random, t: &mut Traffic, p: &Places) -> Said {
    let (at, place) = one(random, p, |_, _| true)?;
    let type_id = missing(
        random,
        &t.subscriptions,
        place.stream.transfer_type.is_service(),
    );
    let stream = Stream {
        type_id,
        ..place.stream
    };
    t.frames[at].id = stream.id((t.frames[at].id >> 24) as u8, 0);
    fails(7, at)
}

fn other_kind(random: &mut Random, t: &mut Traffic, p: &Places) -> Said {
    let only = |stream: &Stream| {
        let service = stream.transfer_type.is_service();
        let other = |one: &Subscription| one.type_id == stream.type_id && one.service != service;
        stream.type_id < 256 && !t.subscriptions.iter().any(other)
    };
    let (at, place) = one(random, p, |_, place| only(&place.stream))?;
    let (transfer_type, destination) = match place.stream.transfer_type {
        TransferType::Message => (TransferType::Request, 5),
        _ => (TransferType::Message, 0),
    };
    let stream = Stream {
        transfer_type,
        destination,
        ..place.stream
    };
    t.frames[at].id = stream.id((t.frames[at].id >> 24) as u8, 0);
    fails(7, at)
}

fn anonymous_without(random: &mut Random, t: &mut Traffic, _: &Places) -> Said {
    let type_id = random.below(4) as u16;
    let list = &t.subscriptions;
    if list
        .iter()
        .any(|one| !one.service && one.type_id == type_id)
    {
        return None;
    }
    let at = random.index(t.frames.len() + 1);
    t.frames
        .insert(at, traffic::anonymous_frame(random, type_id));
    fails(7, at)
}

/// The lower number answers.
fn two_checks(random: &mut Random, t: &mut Traffic, p: &Places) -> Said {
    let (at, place) = one(random, p, |at, place| place.start == at)?;
    let frame = &mut t.frames[at];
    let checks: [(u32, fn(&mut Random, &mut Frame)); 4] = [
        (5, |_, frame| *tail(frame) |= 0x20),
        (4, |_, frame| frame.id = frame.id & !127 | 128),
        (3, |random, frame| {
            frame.length = random.pick(&[0, 9, 16, 255])
        }),
        (2, |_, frame| frame.id |= 1 << 29),
    ];
    let second = random.between(1, 3) as usize;
    let first = random.index(second);
    if random.coin() && second == 1 {
        // 5 before 7 and 4 before 7
        let (number, change) = checks[random.index(2)];
        let service = place.stream.transfer_type.is_service();
        let stream = Stream {
            type_id: missing(random, &t.subscriptions, service),
            ..place.stream
        };
        frame.id = stream.id((frame.id >> 24) as u8, 0);
        change(random, frame);
        return fails(number, at);
    }
    for (_, change) in [checks[first], checks[second]] {
        change(random, frame);
    }
    fails(checks[second].0, at)
}

// ---- checksums ----

/// A byte of a whole transfer of several frames is changed, as every such change is caught.
fn byte_of(random: &mut Random, t: &mut Traffic, p: &Places, in_checksum: bool) -> Option<usize> {
    let (end, place) = late_end(random, p)?;
    let at = match in_checksum {
        true => place.start,
        false => {
            let same = |_: usize, one: &Place| one.start == place.start;
            one(random, p, same)?.0
        }
    };
    let frame = &mut t.frames[at];
    let range = match (in_checksum, at == place.start) {
        (true, _) => 0..2,
        (false, true) => 2..7,
        (false, false) => 0..frame.length - 1,
    };
    let byte = range.start + random.index(range.len());
    frame.data[byte] ^= random.between(1, 255) as u8;
    Some(end)
}

fn payload_byte(random: &mut Random, t: &mut Traffic, p: &Places) -> Said {
    let end = byte_of(random, t, p, false)?;
    fails(12, end)
}

fn checksum_byte(random: &mut Random, t: &mut Traffic, p: &Places) -> Said {
    let end = byte_of(random, t, p, true)?;
    fails(12, end)
}

/// The payload of a whole transfer of several frames: its checksum is made again.
fn checksum_again(
    random: &mut Random,
    t: &mut Traffic,
    p: &Places,
    checksum: impl Fn(&mut Random, u64, &[u8]) -> [u8; 2],
) -> Option<(usize, bool)> {
    let (end, place) = late_end(random, p)?;
    let of_it = t.frames.iter().zip(p);
    let of_it = of_it.filter(|(_, one)| one.is_some_and(|one| one.start == place.start));
    let carried: Vec<u8> = of_it
        .flat_map(|(frame, _)| frame.payload().to_vec())
        .collect();
    let signature = signature_of(t, &place.stream);
    let sum = checksum(random, signature, &carried[2..]);
    let other = sum != carried[..2];
    t.frames[place.start].data[..2].copy_from_slice(&sum);
    Some((end, other))
}

fn checksum(signature: u64, payload: &[u8]) -> u16 {
    crc16_from(crc16_from(0xFFFF, &signature.to_le_bytes()), payload)
}

fn other_signature(random: &mut Random, t: &mut Traffic, p: &Places) -> Said {
    let list = t.subscriptions.clone();
    let (end, other) = checksum_again(random, t, p, |random, _, payload| {
        let signature = match random.below(3) {
            0 => 0,
            1 => random.next(),
            _ => random.pick(&list).signature,
        };
        checksum(signature, payload).to_le_bytes()
    })?;
    if other {
        fails(12, end)
    } else {
        passes()
    }
}

fn checksum_swapped(random: &mut Random, t: &mut Traffic, p: &Places) -> Said {
    let swapped =
        |_: &mut Random, signature, payload: &[u8]| checksum(signature, payload).to_be_bytes();
    let (end, other) = checksum_again(random, t, p, swapped)?;
    if other {
        fails(12, end)
    } else {
        passes()
    }
}

/// A last transfer of a stream: 6 or 7 bytes with a checksum, in two frames.
fn short_transfer(random: &mut Random, t: &mut Traffic, p: &Places) -> Option<usize> {
    let (_, place) = one(random, p, |_, place| place.end.is_some())?;
    let mut of_stream = (0..t.frames.len())
        .rev()
        .filter(|&at| p[at].is_some_and(|one| one.stream == place.stream));
    let last = of_stream.next()?;
    p[last]?.end?;
    let before = t.frames[last];
    let length = random.between(6, 7) as usize;
    let payload = random.bytes(length);
    let sum = checksum(signature_of(t, &place.stream), &payload).to_le_bytes();
    let id = next_transfer_id(before.tail().transfer_id);
    let first = [&sum[..], &payload[..5], &[0x80 | id]].concat();
    let second = [&payload[5..], &[0x60 | id]].concat();
    t.frames.push(Frame::new(before.time, before.id, &first));
    t.frames.push(Frame::new(before.time, before.id, &second));
    Some(t.frames.len() - 1)
}

fn short_payload(random: &mut Random, t: &mut Traffic, p: &Places) -> Said {
    let end = short_transfer(random, t, p)?;
    fails(24, end)
}

fn short_payload_wrong(random: &mut Random, t: &mut Traffic, p: &Places) -> Said {
    let end = short_transfer(random, t, p)?;
    let at = end - random.index(2);
    t.frames[at].data[0] ^= random.between(1, 255) as u8;
    fails(12, end)
}

fn wrong_and_other(random: &mut Random, t: &mut Traffic, p: &Places) -> Said {
    let in_checksum = random.coin();
    let end = byte_of(random, t, p, in_checksum)?;
    match random.below(3) {
        0 => t.frames[end].id ^= 1 << (24 + random.below(5)),
        1 => *tail(&mut t.frames[end]) ^= 1 << random.below(5),
        _ => *tail(&mut t.frames[end]) ^= 0x20,
    }
    fails(24, end)
}

// ---- transfer IDs ----

fn other_id(random: &mut Random, t: &mut Traffic, p: &Places) -> Said {
    let (at, _, before) = counted(random, p)?;
    let next = next_transfer_id(t.frames[before].tail().transfer_id);
    let near = [next.wrapping_sub(1), next + 1, 1, 31, 16].map(|id| id % 32);
    let id = random.pick(&near);
    if id == next || id == 0 {
        return None;
    }
    renumber(t, p, at, id);
    fails(24, at)
}

fn other_id_after_gap(random: &mut Random, t: &mut Traffic, p: &Places) -> Said {
    let by = GAP + random.below(2 * GAP);
    let id = random.between(1, 31) as u8;
    let (at, next) = last_after(random, t, p, by, |_, _| id)?;
    if id == next {
        passes()
    } else {
        fails(24, at)
    }
}

fn zero_too_early(random: &mut Random, t: &mut Traffic, p: &Places) -> Said {
    let by = GAP - 1 - random.pick(&[0, 0, 1, 1_000_000, GAP - 1]);
    let (at, next) = last_after(random, t, p, by, |_, _| 0)?;
    if next == 0 {
        passes()
    } else {
        fails(24, at)
    }
}

fn zero_before(random: &mut Random, t: &mut Traffic, p: &Places) -> Said {
    let (at, next) = last_after(random, t, p, 0, |_, _| 0)?;
    let back = random.pick(&[1, GAP - 1, GAP, GAP + 1, 1 << 32, 1 << 50]);
    t.frames[at].time = t.frames[at].time.checked_sub(back)?;
    if next == 0 {
        passes()
    } else {
        fails(24, at)
    }
}

/// The frames of the transfer before are long after its start, or long before.
fn zero_after_end(random: &mut Random, t: &mut Traffic, p: &Places) -> Said {
    let by = GAP - random.below(2);
    let (at, next) = last_after(random, t, p, by, |_, _| 0)?;
    let before = p[at]?.before?;
    let (start, other) = (t.frames[before].time, random.coin());
    let far = match other {
        true => start.checked_add(by)?.checked_sub(GAP),
        false => start.checked_add(1),
    };
    let mut several = false;
    for (frame, place) in t.frames.iter_mut().zip(p) {
        if place.is_some_and(|one| one.start == before && one.part > 0) {
            frame.time = far?;
            several = true;
        }
    }
    match (several, by == GAP || next == 0) {
        (false, _) => None,
        (true, true) => passes(),
        (true, false) => fails(24, at),
    }
}

// ---- inside of transfers ----

fn id_inside(random: &mut Random, t: &mut Traffic, p: &Places) -> Said {
    let (at, _) = inside(random, p)?;
    *tail(&mut t.frames[at]) ^= random.between(1, 31) as u8;
    fails(24, at)
}

fn toggle_inside(random: &mut Random, t: &mut Traffic, p: &Places) -> Said {
    let (at, _) = inside(random, p)?;
    *tail(&mut t.frames[at]) ^= 0x20;
    fails(24, at)
}

fn priority_inside(random: &mut Random, t: &mut Traffic, p: &Places) -> Said {
    let (at, _) = inside(random, p)?;
    t.frames[at].id ^= (random.between(1, 31) as u32) << 24;
    fails(24, at)
}

fn start_inside(random: &mut Random, t: &mut Traffic, p: &Places) -> Said {
    let (at, _) = inside(random, p)?;
    let tail = tail(&mut t.frames[at]);
    *tail = *tail & !0x20 | 0x80;
    fails(24, at)
}

fn frame_twice(random: &mut Random, t: &mut Traffic, p: &Places) -> Said {
    let (at, place) = one(random, p, |_, _| true)?;
    t.frames.insert(at + 1, t.frames[at]);
    if place.is_response() && place.is_single() {
        passes()
    } else {
        fails(24, at + 1)
    }
}

fn start_lost(random: &mut Random, t: &mut Traffic, p: &Places) -> Said {
    let (at, place) = one(random, p, |at, place| {
        place.start == at && place.end != Some(at)
    })?;
    let next = p
        .iter()
        .position(|one| one.is_some_and(|one| one.start == place.start && one.part == 1))?;
    t.frames.remove(at);
    fails(24, next - 1)
}

fn inside_lost(random: &mut Random, t: &mut Traffic, p: &Places) -> Said {
    let (at, place) = inside(random, p)?;
    let next = p.iter().position(|one| {
        one.is_some_and(|one| one.start == place.start && one.part == place.part + 1)
    })?;
    t.frames.remove(at);
    fails(24, next - 1)
}

fn begins_inside(random: &mut Random, t: &mut Traffic, p: &Places) -> Said {
    let (at, place) = inside(random, p)?;
    if place.before.is_some() {
        return None;
    }
    // nothing of any stream before it
    t.frames.drain(..at);
    fails(24, 0)
}

fn transfer_twice(random: &mut Random, t: &mut Traffic, p: &Places) -> Said {
    let (_, place) = one(random, p, |_, place| {
        place.end.is_some() && !place.is_response()
    })?;
    let of_it = t.frames.iter().zip(p);
    let of_it = of_it.filter(|(_, one)| one.is_some_and(|one| one.start == place.start));
    let again: Vec<Frame> = of_it.map(|(frame, _)| *frame).collect();
    let at = place.end? + 1;
    t.frames.splice(at..at, again);
    fails(24, at)
}

fn transfer_inside(random: &mut Random, t: &mut Traffic, p: &Places) -> Said {
    let (at, place) = inside(random, p)?;
    let id = next_transfer_id(t.frames[place.start].tail().transfer_id);
    let payload = random.bytes(3);
    let data = split(&payload, 0, id);
    let frame = timed(random, t.frames[place.start].time, t.frames[at].id, &data);
    t.frames.insert(at, frame[0]);
    fails(24, at)
}

fn all_twice(random: &mut Random, t: &mut Traffic, p: &Places) -> Said {
    one(random, p, |_, _| true)?;
    t.frames = t.frames.iter().flat_map(|frame| [*frame, *frame]).collect();
    open()
}

// ---- what may do anything ----

fn frame_lost(random: &mut Random, t: &mut Traffic, _: &Places) -> Said {
    t.frames.remove(any(random, t)?);
    open()
}

fn end_inside(random: &mut Random, t: &mut Traffic, p: &Places) -> Said {
    let (at, _) = one(random, p, |at, place| place.end != Some(at))?;
    *tail(&mut t.frames[at]) |= 0x40;
    open()
}

fn end_lost(random: &mut Random, t: &mut Traffic, p: &Places) -> Said {
    let (at, _) = one(random, p, |at, place| place.end == Some(at))?;
    *tail(&mut t.frames[at]) &= !0x40;
    open()
}

fn exchanged(random: &mut Random, t: &mut Traffic, _: &Places) -> Said {
    let at = any(random, t)?.checked_sub(1)?;
    t.frames.swap(at, at + 1);
    open()
}

fn moved(random: &mut Random, t: &mut Traffic, _: &Places) -> Said {
    let frame = t.frames.remove(any(random, t)?);
    t.frames.insert(random.index(t.frames.len() + 1), frame);
    open()
}

fn stream_changed(random: &mut Random, t: &mut Traffic, p: &Places) -> Said {
    let (at, place) = one(random, p, |_, _| true)?;
    let stream = match random.coin() {
        true => one(random, p, |_, _| true)?.1.stream,
        false => Stream {
            source: place.stream.source ^ 1 << random.below(7),
            ..place.stream
        },
    };
    t.frames[at].id = stream.id((t.frames[at].id >> 24) as u8, 0);
    open()
}

fn time_changed(random: &mut Random, t: &mut Traffic, _: &Places) -> Said {
    let at = any(random, t)?;
    let near = t.frames[random.index(t.frames.len())].time;
    t.frames[at].time = traffic::next_time(random, near);
    open()
}

fn record_changed(random: &mut Random, t: &mut Traffic, _: &Places) -> Said {
    let at = any(random, t)?;
    let mut record = t.frames[at].record();
    record[random.index(21)] ^= 1 << random.below(8);
    t.frames[at] = Frame::of_record(&record);
    open()
}

fn any_frame(random: &mut Random, t: &mut Traffic, _: &Places) -> Said {
    let mut record = [0; 21];
    random.fill(&mut record);
    record[12] %= 10;
    record[11] &= 0x1F | random.byte();
    let at = random.index(t.frames.len() + 1);
    t.frames.insert(at, Frame::of_record(&record));
    open()
}

fn repeated_later(random: &mut Random, t: &mut Traffic, _: &Places) -> Said {
    let at = any(random, t)?;
    let frame = t.frames[at];
    let later = at + 1 + random.index(t.frames.len() - at);
    t.frames.insert(later, frame);
    open()
}

fn tail_changed(random: &mut Random, t: &mut Traffic, p: &Places) -> Said {
    let (at, _) = one(random, p, |_, _| true)?;
    *tail(&mut t.frames[at]) ^= 1 << random.below(8);
    open()
}

fn id_changed(random: &mut Random, t: &mut Traffic, _: &Places) -> Said {
    let at = any(random, t)?;
    t.frames[at].id ^= 1 << random.below(32);
    open()
}

fn first_lost(random: &mut Random, t: &mut Traffic, _: &Places) -> Said {
    let count = any(random, t)?;
    t.frames.drain(..count);
    open()
}

fn subscription_lost(random: &mut Random, t: &mut Traffic, _: &Places) -> Said {
    t.subscriptions.remove(random.index(t.subscriptions.len()));
    open()
}

fn signature_changed(random: &mut Random, t: &mut Traffic, _: &Places) -> Said {
    let at = random.index(t.subscriptions.len());
    t.subscriptions[at].signature ^= 1 << random.below(64);
    open()
}

/// Ways that do not ask where a frame is, one after the other.
fn ways(random: &mut Random, t: &mut Traffic, count: usize) -> Said {
    let simple: [Damage; 16] = [
        frame_lost,
        exchanged,
        moved,
        time_changed,
        record_changed,
        any_frame,
        repeated_later,
        id_changed,
        unused_bytes,
        no_data,
        large_id,
        no_source,
        more_bytes,
        anonymous_of_several,
        cut,
        first_lost,
    ];
    any(random, t)?;
    for _ in 0..count {
        let way = random.pick(&simple);
        // what cannot be done any more is left out
        if t.frames.iter().all(|frame| (1..=8).contains(&frame.length)) {
            way(random, t, &[]);
        }
    }
    open()
}

fn two_ways(random: &mut Random, t: &mut Traffic, _: &Places) -> Said {
    ways(random, t, 2)
}

fn three_ways(random: &mut Random, t: &mut Traffic, _: &Places) -> Said {
    ways(random, t, 3)
}

// ---- much traffic ----

/// 64 streams, each with a start at least; and a stream that is none of them, of a type that is subscribed.
fn full(random: &mut Random) -> (Traffic, Stream) {
    let list = traffic::subscriptions(random);
    let traffic = traffic::with(random, list, MOST_STREAMS);
    let streams: Vec<Stream> = traffic.frames.iter().map(Frame::stream).collect();
    loop {
        let subscription = random.pick(&traffic.subscriptions);
        let stream = traffic::stream(random, &subscription);
        if !streams.contains(&stream) {
            return (traffic, stream);
        }
    }
}

/// The place of the first frame after 64 streams were seen.
fn after_64(traffic: &Traffic) -> usize {
    let mut streams = Vec::new();
    for (at, frame) in traffic.frames.iter().enumerate() {
        let stream = frame.stream();
        if !stream.is_anonymous() && !streams.contains(&stream) {
            streams.push(stream);
        }
        if streams.len() == MOST_STREAMS {
            return at + 1;
        }
    }
    unreachable!("there are 64 streams")
}

fn put_in(
    random: &mut Random,
    mut traffic: Traffic,
    frame: Frame,
    number: u32,
) -> (Traffic, Option<Verdict>) {
    let first = after_64(&traffic);
    let at = first + random.index(traffic.frames.len() - first + 1);
    traffic.frames.insert(at, frame);
    (traffic, Some(Fails { number, frame: at }))
}

fn stream_65(random: &mut Random) -> (Traffic, Option<Verdict>) {
    let (traffic, stream) = full(random);
    let payload = random.bytes(7);
    let id = stream.id(random.below(32) as u8, 0);
    let tail = random.pick(&[0x80, 0xC0]) | random.below(32) as u8;
    let frame = Frame::new(random.next(), id, &[&payload[..], &[tail]].concat());
    put_in(random, traffic, frame, 9)
}

fn stream_65_inside(random: &mut Random) -> (Traffic, Option<Verdict>) {
    let (traffic, stream) = full(random);
    let payload = random.bytes(7);
    let id = stream.id(random.below(32) as u8, 0);
    let tail = random.pick(&[0x00, 0x20, 0x40, 0x60]) | random.below(32) as u8;
    let frame = Frame::new(random.next(), id, &[&payload[..], &[tail]].concat());
    put_in(random, traffic, frame, 9)
}

fn stream_65_without(random: &mut Random) -> (Traffic, Option<Verdict>) {
    let (traffic, stream) = full(random);
    let service = stream.transfer_type.is_service();
    let stream = Stream {
        type_id: missing(random, &traffic.subscriptions, service),
        ..stream
    };
    let id = stream.id(random.below(32) as u8, 0);
    let frame = Frame::new(random.next(), id, &[0xC0]);
    put_in(random, traffic, frame, 7)
}

/// A stream counts once, however long ago its last frame was.
fn stream_64_again(random: &mut Random) -> (Traffic, Option<Verdict>) {
    let (mut traffic, _) = full(random);
    let places = places(&traffic.frames);
    let streams = places.iter().flatten().map(|place| place.stream);
    let mut more = Vec::new();
    for stream in streams {
        let mut others = traffic.frames.iter().rev();
        let last = others.find(|frame| frame.stream() == stream).expect("one");
        let seen = |frame: &Frame| frame.stream() == stream;
        if last.tail().end && !more.iter().any(seen) {
            let id = next_transfer_id(last.tail().transfer_id);
            more.push(Frame::new(random.next(), last.id, &[0xC0 | id]));
        }
    }
    traffic.frames.extend(more);
    (traffic, Some(Passes))
}

fn stream_64_anonymous(random: &mut Random) -> (Traffic, Option<Verdict>) {
    let (mut traffic, _) = full(random);
    if let Some(type_id) = anonymous_type(&traffic.subscriptions) {
        let frame = traffic::anonymous_frame(random, type_id);
        let at = random.index(traffic.frames.len() + 1);
        traffic.frames.insert(at, frame);
    }
    (traffic, Some(Passes))
}

fn long(random: &mut Random, most: u64) -> Traffic {
    let list = traffic::subscriptions(random);
    traffic::long_transfer(random, list, most)
}

/// The frame that brings the 515th byte is the 74th of the transfer.
fn too_long(random: &mut Random) -> (Traffic, Option<Verdict>) {
    let mut traffic = long(random, 560);
    while traffic.frames.len() < 76 {
        traffic = long(random, 560);
    }
    let carried: usize = traffic.frames[1..75]
        .iter()
        .map(|one| one.payload().len())
        .sum();
    let verdict = match carried {
        515.. => Fails {
            number: 11,
            frame: 74,
        },
        _ => Passes,
    };
    (traffic, Some(verdict))
}

fn too_long_and_wrong(random: &mut Random) -> (Traffic, Option<Verdict>) {
    let (mut traffic, verdict) = too_long(random);
    traffic.frames[1 + random.index(60)].data[3] ^= 1;
    let verdict = match verdict {
        Some(Passes) => Fails {
            number: 12,
            frame: 74,
        },
        too_long => too_long.expect("known"),
    };
    (traffic, Some(verdict))
}

fn too_long_and_other(random: &mut Random) -> (Traffic, Option<Verdict>) {
    let (mut traffic, _) = too_long(random);
    match random.coin() {
        true => traffic.frames[74].id ^= 1 << (24 + random.below(5)),
        false => *tail(&mut traffic.frames[74]) ^= 1 << random.below(5),
    }
    let verdict = Fails {
        number: 24,
        frame: 74,
    };
    (traffic, Some(verdict))
}

fn longest_and_wrong(random: &mut Random) -> (Traffic, Option<Verdict>) {
    let mut traffic = long(random, 512);
    let end = traffic.frames.len() - 2;
    traffic.frames[1 + random.index(60)].data[3] ^= 1;
    let verdict = Fails {
        number: 12,
        frame: end,
    };
    (traffic, Some(verdict))
}
