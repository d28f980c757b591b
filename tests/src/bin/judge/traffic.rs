//! Captures that pass, at random: what senders of all sorts send, frame by frame and in any mixture.

use crate::random::Random;
use reference::frame::{
    next_transfer_id, Stream, TransferType, LARGEST_ANONYMOUS_TYPE, TRANSFER_IDS,
};
use reference::judge::{Frame, GAP, MOST_STREAMS};
use reference::map::Map;
use reference::receive::{all_differ, Subscription, MOST_SUBSCRIPTIONS};
use reference::send::{send, split, Outgoing, MOST_FRAMES, RECORD};

/// Frames under subscriptions.
#[derive(Clone)]
pub struct Traffic {
    pub subscriptions: Vec<Subscription>,
    pub frames: Vec<Frame>,
}

/// Makes traffic under a list; one without a type that it needs is changed.
type Make = fn(&mut Random, Vec<Subscription>) -> Traffic;

/// Each sort of traffic, and how many in a hundred are of it.
const SORTS: [(&str, Make, u64); 9] = [
    ("no frames", |random, list| with(random, list, 0), 2),
    ("one stream", |random, list| with(random, list, 1), 33),
    ("a few streams", a_few, 35),
    ("a run of our sender", run_of_sender, 18),
    ("an anonymous run of our sender", anonymous_run, 5),
    (
        "a run of our sender with more topics than its map has places",
        long_run,
        1,
    ),
    (
        "a transfer of 505 to 512 bytes",
        |random, list| long_transfer(random, list, 512),
        2,
    ),
    ("about 64 streams", about_64, 1),
    (
        "64 streams",
        |random, list| with(random, list, MOST_STREAMS),
        3,
    ),
];

pub fn sorts() -> impl Iterator<Item = &'static str> {
    SORTS.iter().map(|sort| sort.0)
}

/// Traffic of any sort under a list.
pub fn any(random: &mut Random, list: Vec<Subscription>) -> (&'static str, Traffic) {
    let mut at = random.below(100);
    for (name, make, share) in SORTS {
        if at < share {
            return (name, make(random, list));
        }
        at -= share;
    }
    unreachable!("the shares are a hundred")
}

/// Message types at the edges and between; the first four may be anonymous.
const MESSAGES: [u16; 9] = [0, 1, 2, 3, 4, 341, 1030, 16383, 65535];
const SERVICES: [u16; 6] = [0, 1, 10, 11, 254, 255];

pub fn subscriptions(random: &mut Random) -> Vec<Subscription> {
    if random.once_in(16) {
        return reference::logs::subscriptions();
    }
    let count = match random.below(16) {
        0 => 1,
        1 => MOST_SUBSCRIPTIONS,
        _ => random.between(2, 6) as usize,
    };
    let mut list: Vec<Subscription> = Vec::new();
    while list.len() < count {
        let one = Subscription {
            service: random.once_in(3),
            ..subscription(random)
        };
        let one = match one.service {
            true => Subscription {
                type_id: one.type_id % 256,
                ..one
            },
            false => one,
        };
        list.push(one);
        if !all_differ(&list) {
            list.pop();
        }
    }
    list
}

fn subscription(random: &mut Random) -> Subscription {
    let type_id = match random.below(4) {
        0 => random.next() as u16,
        1 => random.pick(&SERVICES),
        _ => random.pick(&MESSAGES),
    };
    let signature = match random.once_in(8) {
        true => random.pick(&[0, 1, u64::MAX]),
        false => random.next(),
    };
    Subscription {
        service: false,
        type_id,
        signature,
    }
}

fn node(random: &mut Random) -> u8 {
    match random.below(4) {
        0 => random.pick(&[1, 2, 126, 127]),
        _ => random.between(1, 127) as u8,
    }
}

pub fn stream(random: &mut Random, subscription: &Subscription) -> Stream {
    let (transfer_type, destination) = match (subscription.service, random.coin()) {
        (false, _) => (TransferType::Message, 0),
        (true, true) => (TransferType::Request, node(random)),
        (true, false) => (TransferType::Response, node(random)),
    };
    Stream {
        transfer_type,
        type_id: subscription.type_id,
        source: node(random),
        destination,
    }
}

fn a_few(random: &mut Random, list: Vec<Subscription>) -> Traffic {
    let count = random.between(2, 5) as usize;
    with(random, list, count)
}

fn about_64(random: &mut Random, list: Vec<Subscription>) -> Traffic {
    let count = random.between(62, MOST_STREAMS as u64) as usize;
    with(random, list, count)
}

/// So many different streams, mixed, with anonymous frames between; perhaps all but their ends.
pub fn with(random: &mut Random, subscriptions: Vec<Subscription>, count: usize) -> Traffic {
    let mut streams: Vec<Stream> = Vec::new();
    let mut queues: Vec<Vec<Frame>> = Vec::new();
    while streams.len() < count {
        let subscription = random.pick(&subscriptions);
        let stream = stream(random, &subscription);
        if streams.contains(&stream) {
            continue;
        }
        streams.push(stream);
        let transfers = match count {
            1..=5 => random.between(1, 4),
            _ => 1 + u64::from(random.once_in(16)),
        };
        let mut frames = supplied(random, &stream, subscription.signature, transfers);
        if random.once_in(4) {
            frames.truncate(random.between(1, frames.len() as u64) as usize);
        }
        queues.push(frames);
    }
    if let Some(frames) = anonymous(random, &subscriptions) {
        queues.push(frames);
    }
    Traffic {
        frames: mixed(random, queues),
        subscriptions,
    }
}

/// Takes a few frames of one queue, then of another, until all are empty.
fn mixed(random: &mut Random, mut queues: Vec<Vec<Frame>>) -> Vec<Frame> {
    let mut frames = Vec::new();
    queues.retain(|queue| !queue.is_empty());
    while !queues.is_empty() {
        let at = random.index(queues.len());
        let most = queues[at].len() as u64;
        let taken = match random.coin() {
            true => most,
            false => random.between(1, most.min(3)),
        };
        frames.extend(queues[at].drain(..taken as usize));
        if queues[at].is_empty() {
            queues.swap_remove(at);
        }
    }
    frames
}

/// Transfers of one stream, by a sender that is not ours: any first ID, 0 after a gap or not, any
/// priorities, times that may run back.
fn supplied(random: &mut Random, stream: &Stream, signature: u64, count: u64) -> Vec<Frame> {
    let mut frames = Vec::new();
    let mut transfer_id = random.below(TRANSFER_IDS.into()) as u8;
    let mut time = first_time(random);
    for _ in 0..count {
        let (length, priority) = (length(random), random.below(32) as u8);
        let payload = random.bytes(length);
        let id = stream.id(priority, 0);
        let data = split(&payload, signature, transfer_id);
        frames.extend(timed(random, time, id, &data));
        let (later, next) = (next_time(random, time), next_transfer_id(transfer_id));
        transfer_id = match stream.transfer_type {
            TransferType::Response => random.below(TRANSFER_IDS.into()) as u8,
            _ if later >= time && later - time >= GAP && random.coin() => 0,
            _ => next,
        };
        time = later;
    }
    frames
}

/// The start at its time, the others a little later or at any time.
pub fn timed(random: &mut Random, time: u64, id: u32, data: &[Vec<u8>]) -> Vec<Frame> {
    let mut at = time;
    let mut frames = Vec::new();
    for bytes in data {
        frames.push(Frame::new(at, id, bytes));
        at = match random.below(8) {
            0 => next_time(random, time),
            1 => random.next(),
            _ => at.saturating_add(random.below(300)),
        };
    }
    frames
}

pub fn length(random: &mut Random) -> usize {
    match random.below(16) {
        0..=7 => random.index(8),
        8..=12 => 8 + random.index(13),
        13 | 14 => random.pick(&[7, 8, 11, 12, 13, 18, 19, 20]),
        _ => random.index(60),
    }
}

pub fn first_time(random: &mut Random) -> u64 {
    match random.below(8) {
        0 => 0,
        1 => random.pick(&[GAP, u64::MAX, u64::MAX - GAP, u64::MAX - 2 * GAP]),
        2 => random.next(),
        _ => random.below(1_000_000_000_000),
    }
}

pub fn next_time(random: &mut Random, time: u64) -> u64 {
    match random.below(8) {
        0 => time,
        1 => time.saturating_add(GAP - 1),
        2 => time.saturating_add(GAP),
        3 => time.saturating_add(GAP + 1),
        4 => time.saturating_add(random.below(4 * GAP)),
        5 => time.saturating_sub(random.below(2 * GAP)),
        _ => time.saturating_add(random.below(100_000)),
    }
}

/// A subscribed type that may be anonymous.
pub fn anonymous_type(subscriptions: &[Subscription]) -> Option<u16> {
    let largest = LARGEST_ANONYMOUS_TYPE as u16;
    let mut list = subscriptions.iter();
    let found = list.find(|one| !one.service && one.type_id <= largest)?;
    Some(found.type_id)
}

/// A few anonymous frames, if a type for them is subscribed.
fn anonymous(random: &mut Random, subscriptions: &[Subscription]) -> Option<Vec<Frame>> {
    let type_id = anonymous_type(subscriptions)?;
    let count = random.index(3);
    Some(
        (0..count)
            .map(|_| anonymous_frame(random, type_id))
            .collect(),
    )
}

pub fn anonymous_frame(random: &mut Random, type_id: u16) -> Frame {
    let stream = Stream {
        transfer_type: TransferType::Message,
        type_id,
        source: 0,
        destination: 0,
    };
    let id = stream.id(random.below(32) as u8, random.below(1 << 14) as u16);
    let length = random.index(8);
    let mut data = random.bytes(length);
    data.push(0xC0 | random.below(32) as u8);
    Frame::new(first_time(random), id, &data)
}

fn run_of_sender(random: &mut Random, list: Vec<Subscription>) -> Traffic {
    let own = node(random).into();
    let sends = random.between(1, 8);
    run(random, list, own, sends, 3)
}

/// Of types that may be anonymous; the others are as if they were not in the list.
fn anonymous_run(random: &mut Random, mut list: Vec<Subscription>) -> Traffic {
    let whole = list.clone();
    list.retain(|one| !one.service && one.type_id <= LARGEST_ANONYMOUS_TYPE as u16);
    if list.is_empty() {
        return with(random, whole, 1);
    }
    let sends = random.between(1, 4);
    let traffic = run(random, list, 0, sends, 1);
    Traffic {
        subscriptions: whole,
        ..traffic
    }
}

/// Entries of the map are lost and made again.
fn long_run(random: &mut Random, list: Vec<Subscription>) -> Traffic {
    let own = node(random).into();
    run(random, list, own, 120, 40)
}

/// A run of sends (RULES 19.10), among so many destinations. Refused ones add nothing.
fn run(
    random: &mut Random,
    subscriptions: Vec<Subscription>,
    own: u32,
    sends: u64,
    destinations: u64,
) -> Traffic {
    let mut map = Map::default();
    let mut time = first_time(random);
    let mut frames = Vec::new();
    for _ in 0..sends {
        time = time.max(next_time(random, time));
        let one = random.pick(&subscriptions);
        let (length, service) = (length(random), u32::from(one.service));
        let transfer_type = service * random.between(1, 2) as u32;
        let payload = random.bytes(length);
        let outgoing = Outgoing {
            own,
            transfer_type,
            type_id: one.type_id.into(),
            destination: service * random.between(1, destinations) as u32,
            priority: random.below(34) as u32,
            payload: &payload,
            signature: one.signature,
            time,
            transfer_id: random.below(34) as u32,
            discriminator: random.below(1 << 14) as u32,
        };
        if let Ok(sent) = send(&mut map, &outgoing, RECORD * MOST_FRAMES) {
            let data = sent.frames.iter();
            frames.extend(data.map(|one| Frame::new(time, one.id, &one.data)));
        }
    }
    let mut streams = Vec::new();
    frames.retain(|frame: &Frame| {
        if !streams.contains(&frame.stream()) {
            streams.push(frame.stream());
        }
        // the premise of at most 64 streams
        streams.iter().position(|one| *one == frame.stream()) < Some(MOST_STREAMS)
    });
    Traffic {
        subscriptions,
        frames,
    }
}

/// A transfer of up to so many bytes, the least of them 505, and another before and after it.
pub fn long_transfer(random: &mut Random, subscriptions: Vec<Subscription>, most: u64) -> Traffic {
    let one = random.pick(&subscriptions);
    let stream = stream(random, &one);
    let (time, id) = (first_time(random), stream.id(random.below(32) as u8, 0));
    let length = random.between(505, most) as usize;
    let mut frames = vec![Frame::new(time, id, &[0xC1])];
    let payload = random.bytes(length);
    let data = split(&payload, one.signature, 2);
    frames.extend(timed(random, time, id, &data));
    frames.push(Frame::new(time, id, &[0xC3]));
    Traffic {
        subscriptions,
        frames,
    }
}
