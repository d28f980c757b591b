//! Two buses that carry the same frames, the second one later; each may fall silent for a while.

use crate::random::Random;
use crate::states;
use reference::receive::INTERFACES;
use reference::session::{SWITCH_DELAY, TIMEOUT};
use std::collections::VecDeque;

/// A frame, and when it comes by which interface.
pub struct Carried {
    pub id: u32,
    pub data: Vec<u8>,
    pub interface: u8,
    pub time: u64,
}

pub struct Cables {
    first: u8,
    second: u8,
    /// Whether the second carries anything at all.
    two: bool,
    delay: u64,
    /// On their way by the second cable.
    late: VecDeque<Carried>,
    silent: Option<u8>,
}

impl Cables {
    pub fn new(random: &mut Random) -> Cables {
        let first = states::interface(random);
        let delays = [
            0,
            300,
            20_000,
            SWITCH_DELAY,
            SWITCH_DELAY + 1,
            TIMEOUT,
            TIMEOUT + 1,
        ];
        Cables {
            first,
            second: other_interface(random, first),
            two: random.once_in(3),
            delay: random.pick(&delays),
            late: VecDeque::new(),
            silent: None,
        }
    }

    /// The copy that has been longest on its way, if it comes by this time.
    pub fn come_by(&mut self, time: u64) -> Option<Carried> {
        match self.late.front() {
            Some(copy) if copy.time <= time => self.late.pop_front(),
            _ => None,
        }
    }

    /// Sends a frame; gives one that comes: this one by the first cable, else the longest on its way by
    /// the second.
    pub fn carry(&mut self, random: &mut Random, frame: (u32, Vec<u8>), time: u64) -> Carried {
        if self.two && random.once_in(300) {
            self.silent = random.pick(&[None, Some(self.first), Some(self.second)]);
        }
        let (id, data) = frame;
        if self.two && self.silent != Some(self.second) {
            self.late.push_back(Carried {
                id,
                data: data.clone(),
                interface: self.second,
                time: time.saturating_add(self.delay),
            });
        }
        if self.silent == Some(self.first) {
            if let Some(copy) = self.late.pop_front() {
                return copy;
            }
        }
        Carried {
            id,
            data,
            interface: self.first,
            time,
        }
    }
}

pub fn other_interface(random: &mut Random, than: u8) -> u8 {
    (than + random.between(1, u64::from(INTERFACES) - 1) as u8) % INTERFACES
}

/// A number that C may give, most often one of an interface.
pub fn any_interface(random: &mut Random) -> u32 {
    match random.below(16) {
        0 => 3,
        1 => random.pick(&[4, 5, 255, 256, 258, 1 << 31, u32::MAX]),
        _ => states::interface(random).into(),
    }
}
