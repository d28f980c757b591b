//! Bus traffic at random: nodes that talk over a poor link by one cable or two, frames aimed at a
//! session, and frames of any shape.

use crate::cables::{any_interface, other_interface, Cables, Carried};
use crate::random::Random;
use crate::states;
use reference::blocks::needed;
use reference::crc::transfer_checksum;
use reference::frame::{next_transfer_id, Stream, Tail, FRAME_PAYLOAD, ID_END};
use reference::receive::{Receiver, LONGEST_PAYLOAD};
use reference::send::split;
use reference::session::{Session, FAR_AHEAD, MOST_GATHERED, SWITCH_DELAY, TIMEOUT};

pub const MOST_DATA: usize = 20;
pub const MOST_ROOM: usize = 600;

/// A frame to be received, and the room it is given.
#[derive(Clone, Debug)]
pub struct Call {
    pub id: u32,
    pub data: Vec<u8>,
    pub interface: u32,
    pub time: u64,
    pub room: usize,
    pub null: bool,
}

/// What most of the traffic is.
#[derive(Clone, Copy, PartialEq, Eq)]
enum Mood {
    /// Talkers, disturbed by little else, so that long transfers come to their end.
    Calm,
    Mixed,
    /// Many long transfers at once, more than there are blocks for.
    Crowded,
    /// Frames aimed at the sessions that are there.
    Aimed,
    /// The same, but only the first few, as blocks are soon free again.
    Pressed,
}

pub struct Traffic {
    talkers: Vec<Talker>,
    cables: Cables,
    clock: u64,
    pace: u64,
    mood: Mood,
}

impl Traffic {
    pub fn new(random: &mut Random, receiver: &Receiver, clock: u64) -> Traffic {
        let mood = match random.below(56) {
            0 => Mood::Calm,
            1 | 2 => Mood::Mixed,
            3 => Mood::Crowded,
            _ => Mood::Aimed,
        };
        Traffic::of_mood(mood, random, receiver, clock)
    }

    /// Frames for a receiver that has no block to give.
    pub fn pressed(random: &mut Random, receiver: &Receiver, clock: u64) -> Traffic {
        Traffic::of_mood(Mood::Pressed, random, receiver, clock)
    }

    fn of_mood(mood: Mood, random: &mut Random, receiver: &Receiver, clock: u64) -> Traffic {
        let (counts, paces): (&[usize], &[u64]) = match mood {
            Mood::Calm => (&[1, 2, 4, 8, 33], &[1, 60, 2_000]),
            Mood::Mixed => (&[1, 6, 20, 40, 60], &[1, 60, 2_000, 20_000, 200_000]),
            Mood::Crowded => (&[9, 12, 20, 31], &[60, 2_000, 10_000, 20_000]),
            Mood::Aimed | Mood::Pressed => (&[6], &[1, 2_000]),
        };
        let count = random.pick(counts);
        let mut talkers: Vec<Talker> = (0..count).map(|_| Talker::new(random, receiver)).collect();
        if mood == Mood::Crowded {
            for (talker, source) in talkers.iter_mut().zip(1..) {
                talker.stream.source = source;
                talker.long = true;
            }
        }
        Traffic {
            talkers,
            cables: Cables::new(random),
            clock,
            pace: random.pick(paces),
            mood,
        }
    }

    /// How many frames to take from this traffic. Aimed ones soon use up the state they find.
    pub fn length(&self, random: &mut Random) -> u64 {
        match self.mood {
            Mood::Calm => random.pick(&[300, 3000]),
            Mood::Mixed => random.pick(&[15, 60, 300, 3000]),
            Mood::Crowded => random.pick(&[200, 600]),
            Mood::Aimed => random.pick(&[15, 60]),
            Mood::Pressed => 4,
        }
    }

    pub fn next(&mut self, random: &mut Random, receiver: &Receiver) -> Call {
        let calm = matches!(self.mood, Mood::Calm | Mood::Crowded);
        let disturbed = !calm || random.once_in(100);
        let clock = self.clock.saturating_add(random.below(self.pace));
        if let Some(copy) = self.cables.come_by(clock) {
            return self.carried(random, copy, disturbed);
        }
        self.clock = clock;
        let session = notable(random, receiver);
        let share = match self.mood {
            _ if !disturbed => 0,
            Mood::Aimed => random.between(45, 90),
            Mood::Pressed => random.between(45, 99),
            _ => random.below(100),
        };
        // of so many ends one has a wrong checksum
        let wrong = if self.mood == Mood::Pressed { 2 } else { 4 };
        let ((id, data), interface, near) = match (share, session) {
            (0..=49, _) => {
                let near = session.filter(|_| disturbed && random.once_in(16));
                let time = self.time(random, near.map(|session| (session, TIMEOUT)), disturbed);
                let talker = random.index(self.talkers.len());
                let frame = self.talkers[talker].speak(random, receiver);
                let carried = self.cables.carry(random, frame, time);
                return self.carried(random, carried, disturbed);
            }
            (50..=84, Some(session)) => {
                let age = random.pick(&[SWITCH_DELAY, TIMEOUT]);
                (
                    aimed(random, receiver, session, wrong),
                    aimed_interface(random, session),
                    random.once_in(4).then_some((session, age)),
                )
            }
            _ => (
                wild(random, receiver),
                any_interface(random),
                session
                    .filter(|_| random.once_in(3))
                    .map(|one| (one, TIMEOUT)),
            ),
        };
        Call {
            id,
            data,
            interface,
            time: self.time(random, near, disturbed),
            room: room(random, disturbed),
            null: random.coin(),
        }
    }

    /// A frame that came by a cable, perhaps later than the clock shows.
    fn carried(&mut self, random: &mut Random, frame: Carried, disturbed: bool) -> Call {
        if frame.time.saturating_sub(self.clock) <= 2 * TIMEOUT {
            self.clock = self.clock.max(frame.time);
        }
        Call {
            id: frame.id,
            data: frame.data,
            interface: frame.interface.into(),
            time: frame.time,
            room: room(random, disturbed),
            null: random.coin(),
        }
    }

    /// The frame's time: the clock's, or one at which a session is near an age. The clock may leap.
    fn time(&mut self, random: &mut Random, near: Option<(&Session, u64)>, disturbed: bool) -> u64 {
        if let Some((session, age)) = near {
            let edge = session.time.saturating_add(age - 1 + random.below(3));
            if edge > self.clock && edge - self.clock < 4 * TIMEOUT && random.coin() {
                self.clock = edge;
            }
            return edge;
        }
        match random.below(200) {
            _ if !disturbed => (),
            0 => self.clock = self.clock.saturating_add(random.below(3 * TIMEOUT)),
            1 => self.clock = self.clock.saturating_sub(random.below(3 * TIMEOUT)),
            2..=6 => return self.clock.saturating_sub(random.below(3 * TIMEOUT)),
            _ => (),
        }
        self.clock
    }
}

/// A session at random, with a liking for full ones, for the oldest, and for one that is about to
/// need a block.
fn notable<'a>(random: &mut Random, receiver: &'a Receiver) -> Option<&'a Session> {
    let sessions: Vec<&Session> = receiver.places.iter().flatten().collect();
    if sessions.is_empty() {
        return None;
    }
    let (one, other) = (random.pick(&sessions), random.pick(&sessions));
    let later = sessions.iter().cycle().skip(random.index(sessions.len()));
    let mut later = later.take(sessions.len());
    match random.below(8) {
        0..=2 if one.gathered.len() < other.gathered.len() => Some(other),
        3 => sessions.into_iter().min_by_key(|session| session.time),
        4..=6 => later
            .find(|session| needs_another(session))
            .copied()
            .or(Some(one)),
        _ => Some(one),
    }
}

/// Whether bytes are in hand, and the next full frame needs a block that the session does not have.
fn needs_another(session: &Session) -> bool {
    let count = session.gathered.len();
    count > 0 && needed(count + FRAME_PAYLOAD) > session.blocks.len()
}

fn room(random: &mut Random, disturbed: bool) -> usize {
    match random.below(64) {
        _ if !disturbed => LONGEST_PAYLOAD,
        0 => 0,
        1 => LONGEST_PAYLOAD - 1,
        2..=4 => random.index(MOST_ROOM + 1),
        5..=8 => MOST_ROOM,
        _ => LONGEST_PAYLOAD,
    }
}

/// A node sending transfers of one stream, frame by frame.
struct Talker {
    stream: Stream,
    priority: u8,
    transfer_id: u8,
    frames: Vec<Vec<u8>>,
    next: usize,
    /// How many of 256 frames suffer something.
    trouble: u64,
    /// Whether transfers are mostly long.
    long: bool,
}

impl Talker {
    fn new(random: &mut Random, receiver: &Receiver) -> Talker {
        Talker {
            stream: states::stream(random, receiver),
            priority: random.below(32) as u8,
            transfer_id: states::transfer_id(random),
            frames: Vec::new(),
            next: 0,
            trouble: random.pick(&[0, 0, 2, 10, 60]),
            long: random.once_in(4),
        }
    }

    /// ID and data of the next frame; on a poor link it may be another one, or damaged.
    fn speak(&mut self, random: &mut Random, receiver: &Receiver) -> (u32, Vec<u8>) {
        let mut damaged = false;
        if self.next > 0 && random.below(256) < self.trouble {
            match random.below(6) {
                0 | 1 => self.next += 1,
                2 | 3 => self.next -= 1,
                4 => self.next = random.index(self.next),
                _ => damaged = true,
            }
        }
        if self.next >= self.frames.len() || random.below(4096) < self.trouble {
            self.begin(random, receiver);
        }
        let mut data = self.frames[self.next].clone();
        let mut id = self.stream.id(self.priority, 0);
        self.next += 1;
        if damaged {
            let at = random.index(data.len() + 2);
            match data.get_mut(at) {
                Some(byte) => *byte ^= 1 << random.below(8),
                None => id ^= 1 << random.below(29),
            }
        }
        (id, data)
    }

    fn begin(&mut self, random: &mut Random, receiver: &Receiver) {
        let subscribed = receiver.signature(&self.stream).unwrap_or(0);
        let signature = if random.once_in(50) {
            random.next()
        } else {
            subscribed
        };
        if random.once_in(20) {
            self.transfer_id = states::transfer_id(random);
        }
        if random.once_in(8) {
            self.priority = random.below(32) as u8;
        }
        let length = payload_length(random, self.long);
        let payload = random.bytes(length);
        self.frames = split(&payload, signature, self.transfer_id);
        self.transfer_id = next_transfer_id(self.transfer_id);
        self.next = 0;
    }
}

pub fn payload_length(random: &mut Random, long: bool) -> usize {
    let kind = if long { 3 } else { random.below(3) };
    let length = match kind {
        0 => random.between(0, 8),
        1 => random.between(0, 30),
        2 => random.between(0, 120),
        _ => LONGEST_PAYLOAD as u64 - 7 + random.pick(&[0, 1, 6, 7, 7, 8, 9, 10, 14, 95]),
    };
    length as usize
}

/// A frame of a session's stream that fits it, or nearly so.
fn aimed(
    random: &mut Random,
    receiver: &Receiver,
    session: &Session,
    wrong: u64,
) -> (u32, Vec<u8>) {
    let tail = aimed_tail(random, session);
    let count = aimed_count(random, tail, session);
    let mut data = random.bytes(count);
    let signature = receiver.signature(&session.stream).unwrap_or(0);
    if tail.end && !random.once_in(wrong) {
        forge(&mut data, signature, &session.gathered);
    }
    data.push(tail.byte());
    (session.stream.id(random.below(32) as u8, 0), data)
}

/// Most often the interface that the session follows.
fn aimed_interface(random: &mut Random, session: &Session) -> u32 {
    match random.below(16) {
        0 => any_interface(random),
        1..=4 => other_interface(random, session.follows).into(),
        _ => session.follows.into(),
    }
}

/// How many payload bytes: seven before an end, at an end any number or what fills the session.
fn aimed_count(random: &mut Random, tail: Tail, session: &Session) -> usize {
    let left = MOST_GATHERED - session.gathered.len();
    match (tail.end, random.below(40)) {
        (false, 0) => 6,
        (false, _) => 7,
        (true, 0..=19) if session.gathered.len() == 1 => 1,
        (true, 0..=19) => (left + random.index(2)).min(7),
        (true, _) => random.index(8),
    }
}

fn aimed_tail(random: &mut Random, session: &Session) -> Tail {
    if random.once_in(16) {
        return repeated_start(random, session);
    }
    let fitting = !random.once_in(4);
    Tail {
        start: if fitting {
            session.gathered.is_empty()
        } else {
            random.coin()
        },
        end: random.coin(),
        toggle: if fitting || random.coin() {
            session.toggle
        } else {
            random.coin()
        },
        transfer_id: match random.below(13) {
            0 | 1 => (session.expected_id + 32 - random.between(1, 3) as u8) % 32,
            2 => random.below(32) as u8,
            3..=5 => (session.expected_id + FAR_AHEAD - 1 + random.below(3) as u8) % 32,
            _ => session.expected_id,
        },
    }
}

/// A start of the expected transfer, in hand or not, or of the one before.
fn repeated_start(random: &mut Random, session: &Session) -> Tail {
    let behind = u8::from(random.once_in(4));
    Tail {
        start: true,
        end: random.coin(),
        toggle: false,
        transfer_id: (session.expected_id + 32 - behind) % 32,
    }
}

/// Sets the last bytes so that the checksum in front of the gathered bytes comes out right.
fn forge(data: &mut [u8], signature: u64, gathered: &[u8]) {
    let whole = [gathered, data].concat();
    if let ([_], [high]) = (gathered, &mut *data) {
        *high = transfer_checksum(signature, &[]).to_le_bytes()[1];
    }
    if whole.len() < 4 || data.len() < 2 {
        return;
    }
    let register = transfer_checksum(signature, &whole[2..whole.len() - 2]);
    let mut wanted = u16::from_le_bytes([whole[0], whole[1]]);
    // Back through the sixteen steps of two bytes: the polynomial's lowest bit tells each one.
    for _ in 0..16 {
        let subtracted = wanted & 1 == 1;
        wanted = if subtracted { wanted ^ 0x1021 } else { wanted };
        wanted = wanted >> 1 | u16::from(subtracted) << 15;
    }
    let free = data.len() - 2;
    data[free..].copy_from_slice(&(register ^ wanted).to_be_bytes());
}

/// A frame of any shape.
fn wild(random: &mut Random, receiver: &Receiver) -> (u32, Vec<u8>) {
    let stream = states::stream(random, receiver);
    let named = stream.id(random.below(32) as u8, 0);
    match random.below(10) {
        0 => (random.next() as u32, wild_data(random)),
        1 => (ID_END | random.next() as u32, wild_data(random)),
        2 => (random.next() as u32 % ID_END, wild_data(random)),
        3 => (unnamed(random, named), wild_data(random)),
        4 => (named, any_length(random)),
        5 => (anonymous(random), anonymous_data(random)),
        _ => (named, first_frame(random)),
    }
}

/// Data of a length that a frame may have, with any tail.
fn wild_data(random: &mut Random) -> Vec<u8> {
    let length = random.pick(&[1, 2, 7, 8, 8, 8]);
    random.bytes(length)
}

/// Data of any length, most often of one that a frame may not have.
fn any_length(random: &mut Random) -> Vec<u8> {
    let length = match random.below(3) {
        0 => 0,
        1 => 9,
        _ => random.index(MOST_DATA + 1),
    };
    random.bytes(length)
}

/// The ID with source or destination 0, or both.
fn unnamed(random: &mut Random, id: u32) -> u32 {
    let mask: u32 = random.pick(&[0x7F, 0x7F00, 0x7F7F]);
    id & !mask
}

fn anonymous(random: &mut Random) -> u32 {
    let upper = random.below(1 << 21) as u32;
    upper << 8
}

fn anonymous_data(random: &mut Random) -> Vec<u8> {
    let length = random.index(8);
    let mut data = random.bytes(length);
    let shape = random.pick(&[0xC0, 0xC0, 0xC0, 0xE0, 0x80, 0x40]);
    data.push(shape | random.below(32) as u8);
    data
}

/// A transfer's first frame, alone or with more to come.
fn first_frame(random: &mut Random) -> Vec<u8> {
    let single = random.coin();
    let length = if single { random.index(8) } else { 7 };
    let mut data = random.bytes(length);
    let shape = if single { 0xC0 } else { 0x80 };
    data.push(shape | states::transfer_id(random));
    data
}
