//! Names for what a frame met of the blocks: who took one, who gave some back, and what was done
//! when none was free.

use crate::tally::EMPTIED;
use crate::traffic::Call;
use reference::blocks::{lowest_free, needed, BLOCK, BLOCKS};
use reference::crc::transfer_checksum;
use reference::frame::{Stream, Tail, ID_END};
use reference::receive::{Answer, Receiver};
use reference::session::{Session, TIMEOUT};

pub const BLOCK_CASES: [&str; 32] = [
    EMPTIED,
    "emptied: 0 at a start",
    "emptied: 0 at a later frame",
    "emptied: 1",
    "emptied: 12",
    "emptied: one session",
    "emptied: several sessions",
    "emptied: one of age 2,000,001",
    "emptied: not one of age 2,000,000",
    "emptied: not an old one with nothing in hand",
    "26: start, new session in an empty place",
    "26: start, new session in an old one's place",
    "26: start, session there",
    "26: a later frame",
    "26: an end, right checksum",
    "26: an end, wrong checksum",
    "26: the ninth block",
    "26: age 2,000,000 with bytes in hand",
    "26: an old session with nothing in hand",
    "none free: place of an old session with blocks",
    "none free: restart of a session with blocks",
    "none free: single frame",
    "none free: single frame, an old session with bytes in hand",
    "none free: an end that needs none",
    "none free: 11",
    "none free: 11, an old session with bytes in hand",
    "none free: passed over, an old session with bytes in hand",
    "taken: block 0",
    "taken: block 63",
    "taken: another block between others",
    "taken: bytes in two blocks",
    "taken: a block filled to its end",
];

/// What a frame finds; taken down before it is received.
pub struct Supply {
    stream: Stream,
    tail: Tail,
    payload: usize,
    none_free: bool,
    /// Of each place, where none is free: the session's stream, its bytes in hand, its age.
    places: Vec<Option<(Stream, usize, u64)>>,
    /// Whether the frame's bytes close its session's transfer with the right checksum.
    closes: bool,
}

impl Supply {
    pub fn new(receiver: &Receiver, call: &Call) -> Supply {
        let stream = Stream::of_id(call.id % ID_END);
        let (&last, payload) = call.data.split_last().unwrap_or((&0, &[]));
        let none_free = lowest_free(&receiver.places).is_none();
        let tail = Tail::of_byte(last);
        let mut supply = Supply {
            stream,
            tail,
            payload: payload.len(),
            none_free,
            places: Vec::new(),
            closes: false,
        };
        if none_free {
            let noted = |one: &Session| (one.stream, one.gathered.len(), one.age(call.time));
            let places = receiver.places.iter();
            supply.places = places.map(|one| one.as_ref().map(noted)).collect();
            let own = receiver.place_of(&stream);
            let own = own.and_then(|place| receiver.places[place].as_ref());
            supply.closes = tail.end && own.is_some_and(|own| closes(receiver, own, payload));
        }
        supply
    }

    /// The cases that a frame with this answer belongs to, by what it left.
    pub fn cases(&self, answer: &Answer, after: &Receiver) -> Vec<&'static str> {
        let mut cases = self.emptied(answer, after);
        let old_in_hand = self.any(|in_hand, age| in_hand > 0 && age > TIMEOUT);
        match answer {
            Answer::NoBlock => cases.extend(self.no_block()),
            Answer::Taken => cases.extend(self.taken(after)),
            Answer::HandedOut(_) | Answer::ChecksumDiffers if self.none_free => {
                cases.extend(self.closed(old_in_hand))
            }
            Answer::PayloadTooLong if self.none_free => {
                cases.push("none free: 11");
                if old_in_hand {
                    cases.push("none free: 11, an old session with bytes in hand");
                }
            }
            Answer::PassedOver(_) if self.none_free && old_in_hand => {
                cases.push("none free: passed over, an old session with bytes in hand");
            }
            _ => (),
        }
        cases
    }

    fn own(&self) -> Option<(usize, u64)> {
        let mut sessions = self.places.iter().flatten();
        let own = sessions.find(|(stream, ..)| *stream == self.stream)?;
        Some((own.1, own.2))
    }

    /// Whether a session of another stream has such bytes in hand and such an age.
    fn any(&self, test: impl Fn(usize, u64) -> bool) -> bool {
        let mut others = self.places.iter().flatten();
        others.any(|&(stream, in_hand, age)| stream != self.stream && test(in_hand, age))
    }

    fn emptied(&self, answer: &Answer, after: &Receiver) -> Vec<&'static str> {
        let pairs = self.places.iter().zip(&after.places);
        let emptied: Vec<u64> = pairs
            .filter_map(|(before, after)| match (before, after) {
                (Some((stream, in_hand, age)), Some(after))
                    if *stream == after.stream
                        && *stream != self.stream
                        && *in_hand > 0
                        && after.gathered.is_empty() =>
                {
                    Some(*age)
                }
                _ => None,
            })
            .collect();
        if emptied.is_empty() {
            return Vec::new();
        }
        let mut cases = vec![EMPTIED];
        cases.push(match answer {
            Answer::Taken if self.tail.start => "emptied: 0 at a start",
            Answer::Taken => "emptied: 0 at a later frame",
            Answer::HandedOut(_) => "emptied: 1",
            _ => "emptied: 12",
        });
        cases.push(match emptied.len() {
            1 => "emptied: one session",
            _ => "emptied: several sessions",
        });
        if emptied.contains(&(TIMEOUT + 1)) {
            cases.push("emptied: one of age 2,000,001");
        }
        if self.any(|in_hand, age| in_hand > 0 && age == TIMEOUT) {
            cases.push("emptied: not one of age 2,000,000");
        }
        if self.any(|in_hand, age| in_hand == 0 && age > TIMEOUT) {
            cases.push("emptied: not an old one with nothing in hand");
        }
        cases
    }

    fn no_block(&self) -> Vec<&'static str> {
        let mut cases = vec![match self.own() {
            _ if !self.tail.start && !self.tail.end => "26: a later frame",
            _ if !self.tail.start && self.closes => "26: an end, right checksum",
            _ if !self.tail.start => "26: an end, wrong checksum",
            Some(_) => "26: start, session there",
            None if self.places.iter().any(Option::is_none) => {
                "26: start, new session in an empty place"
            }
            None => "26: start, new session in an old one's place",
        }];
        if self
            .own()
            .is_some_and(|(in_hand, _)| needed(in_hand + self.payload) == 9)
        {
            cases.push("26: the ninth block");
        }
        if self.any(|in_hand, age| in_hand > 0 && age == TIMEOUT) {
            cases.push("26: age 2,000,000 with bytes in hand");
        }
        if self.any(|in_hand, age| in_hand == 0 && age > TIMEOUT) {
            cases.push("26: an old session with nothing in hand");
        }
        cases
    }

    fn taken(&self, after: &Receiver) -> Vec<&'static str> {
        let place = after.place_of(&self.stream).expect("a frame was taken");
        let session = after.places[place].as_ref().expect("its session");
        let count = session.gathered.len();
        let another = needed(count) > needed(count - self.payload);
        let mut cases = Vec::new();
        if self.none_free && self.tail.start {
            match (self.own(), self.places[place]) {
                (Some((1.., _)), _) => cases.push("none free: restart of a session with blocks"),
                (None, Some((_, 1.., _))) => {
                    cases.push("none free: place of an old session with blocks");
                }
                _ => (),
            }
        }
        let blocks = &session.blocks;
        let last = usize::from(*blocks.last().expect("bytes are in hand"));
        match last {
            _ if !another => (),
            0 => cases.push("taken: block 0"),
            last if last == BLOCKS - 1 => cases.push("taken: block 63"),
            _ if blocks.len() > 1
                && blocks[..blocks.len() - 1]
                    .iter()
                    .any(|&one| usize::from(one) > last) =>
            {
                cases.push("taken: another block between others");
            }
            _ => (),
        }
        if another && count % BLOCK < self.payload {
            cases.push("taken: bytes in two blocks");
        }
        if count.is_multiple_of(BLOCK) {
            cases.push("taken: a block filled to its end");
        }
        cases
    }

    /// Cases of an end, where none was free.
    fn closed(&self, old_in_hand: bool) -> Vec<&'static str> {
        match (self.tail.start, self.own()) {
            _ if self.stream.is_anonymous() => vec![],
            (true, _) if old_in_hand => vec![
                "none free: single frame",
                "none free: single frame, an old session with bytes in hand",
            ],
            (true, _) => vec!["none free: single frame"],
            (false, Some((in_hand, _))) if needed(in_hand + self.payload) == needed(in_hand) => {
                vec!["none free: an end that needs none"]
            }
            _ => vec![],
        }
    }
}

fn closes(receiver: &Receiver, session: &Session, payload: &[u8]) -> bool {
    let whole = [&session.gathered, payload].concat();
    let signature = receiver.signature(&session.stream).unwrap_or(0);
    whole.len() > 1 && transfer_checksum(signature, &whole[2..]).to_le_bytes() == whole[..2]
}
