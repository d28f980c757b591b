//! The allocator of node IDs (RULES 16), and its state as C lends it.

use crate::bits::Refusal;
use crate::messages::{self, Allocation, Message, MessageType};
use crate::state::{get_u64, put_u64};

pub const UNIQUE_ID: usize = 16;
/// IDs from 1 to this one are handed out.
pub const LAST_ID: u8 = 125;
pub const MOST_ENTRIES: usize = 125;
/// Gathered bytes stay for this long in microseconds, and no longer.
pub const TIMEOUT: u64 = 500_000;
pub const LONGEST_REPLY: usize = 1 + UNIQUE_ID;

pub const TIME: usize = 0;
pub const GATHERED_COUNT: usize = 8;
pub const ENTRY_COUNT: usize = 9;
pub const GATHERED: usize = 10;
pub const ENTRIES: usize = 26;
pub const ENTRY: usize = UNIQUE_ID + 1;
pub const SIZE: usize = ENTRIES + MOST_ENTRIES * ENTRY;

pub type UniqueId = [u8; UNIQUE_ID];

#[derive(Clone, Copy, Debug, PartialEq, Eq)]
pub struct Entry {
    pub unique_id: UniqueId,
    pub node_id: u8,
}

#[derive(Clone, Debug, Default, PartialEq, Eq)]
pub struct Allocator {
    /// Of the last message processed.
    pub time: u64,
    pub gathered: Vec<u8>,
    /// In ascending order of unique ID.
    pub table: Vec<Entry>,
}

/// An Allocation message that was received, and what the caller says beside it.
#[derive(Clone, Copy, Debug)]
pub struct Request<'a> {
    pub own: u32,
    pub marks: [u64; 2],
    pub source: u32,
    pub payload: &'a [u8],
    pub time: u64,
}

#[derive(Clone, Debug, PartialEq, Eq)]
pub enum Answer {
    OwnIdNotAllowed,
    NoAllocation(Refusal),
    Ignored(Ignored),
    NoneFree,
    OutputTooSmall,
    Reply(Vec<u8>),
}

/// Why a message is ignored.
#[derive(Clone, Copy, Debug, PartialEq, Eq)]
pub enum Ignored {
    NamedSource,
    NoStage,
    OtherStage,
    TooManyBytes,
}

impl Answer {
    pub fn number(&self) -> u32 {
        match self {
            Answer::OwnIdNotAllowed => 13,
            Answer::NoAllocation(refusal) => refusal.number(),
            Answer::Ignored(_) | Answer::Reply(_) => 0,
            Answer::NoneFree => 21,
            Answer::OutputTooSmall => 8,
        }
    }
}

/// What the length and first part of a message make it; none for a length that is not sent.
pub fn stage(length: usize, first_part: bool) -> Option<u8> {
    match (length, first_part) {
        (4 | 6 | 16, true) => Some(1),
        (6, false) => Some(2),
        (4, false) => Some(3),
        _ => None,
    }
}

/// The stage that follows so many gathered bytes.
pub fn expected_stage(gathered: usize) -> Option<u8> {
    match gathered {
        0 => Some(1),
        1..=5 => None,
        6..=11 => Some(2),
        _ => Some(3),
    }
}

pub fn is_marked(marks: [u64; 2], node_id: u8) -> bool {
    marks[usize::from(node_id / 64)] >> (node_id % 64) & 1 == 1
}

/// What a preferred ID counts as.
pub fn preference(node_id: u8) -> u8 {
    match node_id {
        0 | 126 | 127 => LAST_ID,
        other => other,
    }
}

/// The order of the table: the number of the 16 bytes, low byte first.
pub fn rank(unique_id: &UniqueId) -> u128 {
    u128::from_le_bytes(*unique_id)
}

impl Allocator {
    /// Answers a message. Under all answers but 21 and a reply, the state changes at most by what
    /// the timeout drops.
    pub fn allocate(&mut self, request: &Request, room: usize) -> Answer {
        if !(1..=127).contains(&request.own) {
            return Answer::OwnIdNotAllowed;
        }
        let message = match messages::decode(MessageType::Allocation, request.payload) {
            Ok(Message::Allocation(message)) => message,
            Ok(_) => unreachable!("decoded as an Allocation"),
            Err(refusal) => return Answer::NoAllocation(refusal),
        };
        if request.source != 0 {
            return Answer::Ignored(Ignored::NamedSource);
        }
        let before = self.clone();
        if self.is_late(request.time) {
            self.gathered.clear();
        }
        if let Some(reason) = self.ignores(&message) {
            return Answer::Ignored(reason);
        }
        let answer = self.process(request, &message);
        match &answer {
            Answer::Reply(reply) if reply.len() > room => {
                *self = before;
                Answer::OutputTooSmall
            }
            _ => answer,
        }
    }

    pub fn is_late(&self, time: u64) -> bool {
        time.saturating_sub(self.time) > TIMEOUT
    }

    fn ignores(&self, message: &Allocation) -> Option<Ignored> {
        let length = message.unique_id.len();
        let stage = stage(length, message.first_part == 1);
        if stage.is_none() {
            return Some(Ignored::NoStage);
        }
        if stage != expected_stage(self.gathered.len()) {
            return Some(Ignored::OtherStage);
        }
        (self.gathered.len() + length > UNIQUE_ID).then_some(Ignored::TooManyBytes)
    }

    fn process(&mut self, request: &Request, message: &Allocation) -> Answer {
        let mut gathered = std::mem::take(&mut self.gathered);
        gathered.extend(message.unique_id);
        let Ok(unique_id) = UniqueId::try_from(gathered.as_slice()) else {
            self.time = request.time;
            self.gathered = gathered.clone();
            return reply(0, &gathered);
        };
        let node_id = match self.node_id_of(&unique_id) {
            Some(node_id) => node_id,
            None => match self.choose(request, preference(message.node_id as u8)) {
                Some(node_id) => self.enter(unique_id, node_id),
                None => return Answer::NoneFree,
            },
        };
        self.time = request.time;
        reply(node_id, &unique_id)
    }

    pub fn node_id_of(&self, unique_id: &UniqueId) -> Option<u8> {
        let mut entries = self.table.iter();
        let entry = entries.find(|entry| entry.unique_id == *unique_id)?;
        Some(entry.node_id)
    }

    /// The lowest free ID from the preferred one on, else the highest below it.
    pub fn choose(&self, request: &Request, preferred: u8) -> Option<u8> {
        let free = |node_id: &u8| self.is_free(request, *node_id);
        let above = (preferred..=LAST_ID).find(free);
        above.or_else(|| (1..preferred).rev().find(free))
    }

    pub fn is_free(&self, request: &Request, node_id: u8) -> bool {
        let given = self.table.iter().any(|entry| entry.node_id == node_id);
        !given && !is_marked(request.marks, node_id) && u32::from(node_id) != request.own
    }

    /// Puts a new entry in its place.
    fn enter(&mut self, unique_id: UniqueId, node_id: u8) -> u8 {
        let rank_of = |entry: &Entry| rank(&entry.unique_id);
        let place = self
            .table
            .partition_point(|entry| rank_of(entry) < rank(&unique_id));
        let entry = Entry { unique_id, node_id };
        self.table.insert(place, entry);
        node_id
    }

    /// The allocator that the bytes hold; none if they have a fault (RULES 16.10).
    pub fn read(bytes: &[u8]) -> Option<Allocator> {
        if bytes.len() < SIZE {
            return None;
        }
        let gathered = usize::from(bytes[GATHERED_COUNT]);
        let count = usize::from(bytes[ENTRY_COUNT]);
        if gathered >= UNIQUE_ID || count > MOST_ENTRIES {
            return None;
        }
        let table: Vec<Entry> = (0..count).map(|place| read_entry(bytes, place)).collect();
        has_no_fault(&table).then(|| Allocator {
            time: get_u64(bytes, TIME),
            gathered: bytes[GATHERED..][..gathered].to_vec(),
            table,
        })
    }

    /// Writes the allocator over the bytes of one. What is past the gathered bytes and past the
    /// entries stays.
    pub fn write(&self, bytes: &mut [u8]) {
        put_u64(bytes, TIME, self.time);
        bytes[GATHERED_COUNT] = self.gathered.len() as u8;
        bytes[ENTRY_COUNT] = self.table.len() as u8;
        bytes[GATHERED..][..self.gathered.len()].copy_from_slice(&self.gathered);
        for (place, entry) in self.table.iter().enumerate() {
            write_entry(entry, bytes, place);
        }
    }
}

fn reply(node_id: u8, unique_id: &[u8]) -> Answer {
    let message = Message::Allocation(Allocation {
        node_id: node_id.into(),
        first_part: 0,
        unique_id,
    });
    let mut payload = vec![0; LONGEST_REPLY];
    let length = messages::encode(&message, &mut payload).expect("room for every reply");
    payload.truncate(length);
    Answer::Reply(payload)
}

fn has_no_fault(table: &[Entry]) -> bool {
    let mut seen = [false; 1 + LAST_ID as usize];
    let once =
        |id: u8| id != 0 && id <= LAST_ID && !std::mem::replace(&mut seen[usize::from(id)], true);
    let ascending = |pair: &[Entry]| rank(&pair[0].unique_id) < rank(&pair[1].unique_id);
    table.iter().map(|entry| entry.node_id).all(once) && table.windows(2).all(ascending)
}

fn read_entry(bytes: &[u8], place: usize) -> Entry {
    let entry = &bytes[ENTRIES + ENTRY * place..][..ENTRY];
    Entry {
        unique_id: entry[..UNIQUE_ID].try_into().expect("16 bytes"),
        node_id: entry[UNIQUE_ID],
    }
}

pub fn write_entry(entry: &Entry, bytes: &mut [u8], place: usize) {
    let room = &mut bytes[ENTRIES + ENTRY * place..][..ENTRY];
    room[..UNIQUE_ID].copy_from_slice(&entry.unique_id);
    room[UNIQUE_ID] = entry.node_id;
}
