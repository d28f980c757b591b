//! Calls of allocate at random: what a bus with many allocatees brings, and each way to spoil it.

use crate::entry_points::Context;
use crate::random::Random;
use crate::tables;
use reference::allocator::{expected_stage, Allocator, UniqueId, LAST_ID, TIMEOUT, UNIQUE_ID};

/// A call of allocate but its state, with the room of its output.
#[derive(Debug)]
pub struct Call {
    pub context: Context,
    pub payload: Vec<u8>,
    pub room: usize,
}

pub const MOST_ROOM: usize = 20;
pub const MOST_PAYLOAD: usize = 40;

/// The nodes of a bus, and how its time goes on.
pub struct Bus {
    pub unique_ids: Vec<UniqueId>,
    pub clock: u64,
    pace: u64,
    own: u32,
    /// Whether static nodes have most of the IDs.
    crowded: bool,
}

impl Bus {
    pub fn new(random: &mut Random) -> Bus {
        Bus {
            unique_ids: tables::pool(random),
            clock: random.below(1 << 40),
            pace: random.pick(&[1, 1000, 100_000, 700_000]),
            own: random.pick(&[1, 2, 64, 124, 125, 126, 127]),
            crowded: random.once_in(3),
        }
    }

    /// The next call on an allocator.
    pub fn call(&mut self, random: &mut Random, allocator: &Allocator) -> Call {
        self.clock += random.below(self.pace);
        let time = self.time(random, allocator);
        let payload = self.payload(random, allocator, time);
        let preferred = payload.first().map_or(0, |byte| byte >> 1);
        let context = Context {
            own: self.own(random, allocator, &payload),
            marks: self.marks(random, preferred),
            source: source(random),
            time,
        };
        let room = match random.below(8) {
            0 => random.index(MOST_ROOM + 1),
            1 => random.pick(&[0, 4, 6, 12, 16]),
            _ => random.pick(&[17, MOST_ROOM]),
        };
        Call {
            context,
            payload,
            room,
        }
    }

    /// Mostly the usual one; perhaps the one that the message's sender has in the table.
    fn own(&self, random: &mut Random, allocator: &Allocator, payload: &[u8]) -> u32 {
        match random.below(40) {
            0 => random.pick(&[0, 128, 255, 256 + self.own, 1 << 16 | self.own, u32::MAX]),
            1 => random.between(1, 127) as u32,
            2..=5 => known(allocator, payload).unwrap_or(self.own),
            _ => self.own,
        }
    }

    /// The clock's time, one at an edge of the timeout, or an earlier one.
    fn time(&self, random: &mut Random, allocator: &Allocator) -> u64 {
        match random.below(16) {
            0 => allocator.time.saturating_add(TIMEOUT),
            1 => allocator.time.saturating_add(TIMEOUT + 1),
            2 => allocator.time.saturating_sub(random.below(2 * TIMEOUT)),
            3 => random.pick(&[0, self.clock + 10 * TIMEOUT, u64::MAX]),
            _ => self.clock,
        }
    }

    fn marks(&self, random: &mut Random, preferred: u8) -> [u64; 2] {
        let mut marks = match (random.below(8), self.crowded) {
            (0, _) => [random.next(), random.next()],
            (1, _) => [u64::MAX, u64::MAX],
            (2, _) => [1, 3 << 62],
            (_, true) => [u64::MAX, u64::MAX],
            _ => [0, 0],
        };
        let toggled = random.below(4);
        for _ in 0..toggled {
            let node_id = match random.coin() {
                true => preferred,
                false => random.between(1, LAST_ID.into()) as u8,
            };
            marks[usize::from(node_id / 64)] ^= 1 << (node_id % 64);
        }
        marks
    }

    /// Mostly the message that an allocatee sends next.
    fn payload(&self, random: &mut Random, allocator: &Allocator, time: u64) -> Vec<u8> {
        let late = allocator.is_late(time) && !random.once_in(4);
        let gathered = if late { &[] } else { &allocator.gathered[..] };
        let unique_id = self.continued(random, gathered);
        let (length, first_part) = match random.below(24) {
            0 => {
                return random
                    .pick(&[&[][..], &[7; 18], &[0; 19], &[255; 40]])
                    .to_vec()
            }
            1 => (random.index(UNIQUE_ID + 1), random.coin()),
            2 => random.pick(&[(4, true), (16, true), (16, false)]),
            3 | 4 => random.pick(&[(6, true), (6, false), (4, false)]),
            _ => match expected_stage(gathered.len()) {
                Some(1) | None => (6, true),
                Some(2) => (6, false),
                _ => (4, false),
            },
        };
        let from = gathered.len().min(UNIQUE_ID - length);
        let mut payload = vec![preferred(random) << 1 | u8::from(first_part)];
        payload.extend(&unique_id[from..from + length]);
        payload
    }

    /// A unique ID that goes on from the gathered bytes, if one of the bus does.
    fn continued(&self, random: &mut Random, gathered: &[u8]) -> UniqueId {
        let start = random.index(self.unique_ids.len());
        let turned = self.unique_ids[start..].iter().chain(&self.unique_ids);
        let fitting = turned.copied().find(|one| one.starts_with(gathered));
        fitting.unwrap_or_else(|| random.pick(&self.unique_ids))
    }
}

fn preferred(random: &mut Random) -> u8 {
    match random.below(4) {
        0 => random.pick(&[0, 126, 127]),
        1 => random.pick(&[1, 2, 124, 125]),
        _ => random.below(128) as u8,
    }
}

/// The node ID of the unique ID that the payload completes, if it has one.
fn known(allocator: &Allocator, payload: &[u8]) -> Option<u32> {
    let whole = [&allocator.gathered, payload.get(1..)?].concat();
    let node_id = allocator.node_id_of(&whole.try_into().ok()?);
    node_id.map(u32::from)
}

fn source(random: &mut Random) -> u32 {
    match random.below(16) {
        0 => random.pick(&[1, 2, 125, 127]),
        1 => random.pick(&[128, 256, 1 << 16, u32::MAX]),
        _ => 0,
    }
}
