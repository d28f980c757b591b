//! Refusals, counted by number and by stream, in fixed memory.

use crate::frame::Stream;
use crate::library::{NO_SUBSCRIPTION, OTHER_NODE};
use crate::text::counted;
use std::collections::HashMap;

/// The most groups; what comes beyond them is counted by its number alone.
pub const GROUPS_MAX: usize = 2048;

/// Of frames that are refused on most buses.
const HINTS: [(u32, &str); 2] = [
    (
        OTHER_NODE,
        "of services between other nodes: --listen shows these",
    ),
    (
        NO_SUBSCRIPTION,
        "of types that are not known here: --types DIR reads their definitions",
    ),
];

/// What is counted together. A frame whose ID is no ID has no stream, and neither has a line that gives no frame.
#[derive(Clone, Copy, Debug, PartialEq, Eq, Hash, PartialOrd, Ord)]
pub struct Group {
    pub number: u32,
    pub stream: Option<Stream>,
}

#[derive(Clone, Copy)]
pub struct Seen {
    pub count: u64,
    pub first: Option<u64>,
    pub last: Option<u64>,
}

#[derive(PartialEq, Eq)]
pub enum Place {
    /// The first of its group.
    First,
    Again,
    /// There is no room for its group.
    Beyond,
}

pub struct Refusals {
    by_number: [u64; 256],
    groups: HashMap<Group, Seen>,
    beyond: u64,
}

impl Default for Refusals {
    fn default() -> Refusals {
        Refusals {
            by_number: [0; 256],
            groups: HashMap::new(),
            beyond: 0,
        }
    }
}

impl Refusals {
    /// At a time, unless it is a line that gives no frame.
    pub fn add(&mut self, group: Group, time: Option<u64>) -> Place {
        self.by_number[group.number as usize & 255] += 1;
        if let Some(seen) = self.groups.get_mut(&group) {
            seen.count += 1;
            seen.last = time;
            return Place::Again;
        }
        if self.groups.len() == GROUPS_MAX {
            self.beyond += 1;
            return Place::Beyond;
        }
        let seen = Seen {
            count: 1,
            first: time,
            last: time,
        };
        self.groups.insert(group, seen);
        Place::First
    }

    pub fn all(&self) -> u64 {
        self.by_number.iter().sum()
    }

    /// Numbers that were answered, and how often.
    pub fn numbers(&self) -> impl Iterator<Item = (u32, u64)> + '_ {
        let counted = self.by_number.iter().enumerate();
        counted
            .filter(|(_, count)| **count > 0)
            .map(|(number, count)| (number as u32, *count))
    }

    /// Which options would show what was refused.
    pub fn hints(&self) -> impl Iterator<Item = String> + '_ {
        HINTS.iter().filter_map(|(number, hint)| {
            let count = self.by_number[*number as usize];
            (count > 0).then(|| format!("{} {hint}", counted(count, "frame")))
        })
    }

    /// By number and stream.
    pub fn groups(&self) -> Vec<(Group, Seen)> {
        let mut groups: Vec<_> = self
            .groups
            .iter()
            .map(|(group, seen)| (*group, *seen))
            .collect();
        groups.sort_by_key(|(group, _)| *group);
        groups
    }

    /// How many are in no group.
    pub fn beyond(&self) -> u64 {
        self.beyond
    }
}
