//! Allocators at random, none with a fault, and the faults of a lent one (RULES 16.10).

use crate::random::Random;
use reference::allocator::{
    rank, Allocator, Entry, UniqueId, ENTRIES, ENTRY, ENTRY_COUNT, GATHERED_COUNT, LAST_ID,
    TIMEOUT, UNIQUE_ID,
};

type Fault = (&'static str, fn(&mut Random, &mut [u8]));

pub const TOO_SHORT: &str = "20: state shorter than its layout";

pub const FAULTS: [Fault; 7] = [
    ("20: 16 gathered bytes or more", |random, state| {
        state[GATHERED_COUNT] = random.pick(&[16, 17, 32, 128, 255]);
    }),
    ("20: more than 125 entries", |random, state| {
        state[ENTRY_COUNT] = random.pick(&[126, 127, 128, 255]);
    }),
    ("20: node ID 0 in an entry", |random, state| {
        let place = settle(random, state);
        state[node_id_at(place)] = 0;
    }),
    ("20: node ID above 125 in an entry", |random, state| {
        let place = settle(random, state);
        state[node_id_at(place)] = random.pick(&[126, 127, 128, 255]);
    }),
    ("20: two entries with one node ID", |random, state| {
        let place = settle(random, state);
        let count = usize::from(state[ENTRY_COUNT]);
        let other = (place + 1 + random.index(count - 1)) % count;
        state[node_id_at(other)] = state[node_id_at(place)];
    }),
    ("20: two entries with one unique ID", |random, state| {
        let at = second_of_two(random, state);
        state.copy_within(at - ENTRY..at - ENTRY + UNIQUE_ID, at);
    }),
    ("20: unique IDs out of order", |random, state| {
        let at = second_of_two(random, state);
        let (front, back) = state.split_at_mut(at);
        front[at - ENTRY..][..UNIQUE_ID].swap_with_slice(&mut back[..UNIQUE_ID]);
    }),
];

fn node_id_at(place: usize) -> usize {
    ENTRIES + ENTRY * place + UNIQUE_ID
}

/// The place of an entry among two or more, which are made if there are fewer.
fn settle(random: &mut Random, state: &mut [u8]) -> usize {
    if state[ENTRY_COUNT] < 2 {
        let pool = pool(random);
        let count = random.between(2, 9) as usize;
        state[ENTRY_COUNT] = 0;
        let mut allocator = Allocator::read(state).expect("no fault without entries");
        allocator.table = table(random, &pool, count);
        allocator.write(state);
    }
    random.index(state[ENTRY_COUNT].into())
}

/// Where an entry that is not the first lies.
fn second_of_two(random: &mut Random, state: &mut [u8]) -> usize {
    let place = settle(random, state);
    ENTRIES + ENTRY * place.max(1)
}

/// Unique IDs of the nodes on a bus. Many differ from another in one byte only, or follow it.
pub fn pool(random: &mut Random) -> Vec<UniqueId> {
    let mut pool: Vec<UniqueId> = vec![any(random)];
    for _ in 0..random.pick(&[3, 20, 140]) {
        let mut unique_id = random.pick(&pool);
        match random.below(4) {
            0 => unique_id = any(random),
            1 => unique_id = rank(&unique_id).wrapping_add(1).to_le_bytes(),
            _ => unique_id[random.index(UNIQUE_ID)] = random.byte(),
        }
        pool.push(unique_id);
    }
    pool
}

fn any(random: &mut Random) -> UniqueId {
    match random.below(16) {
        0 => [0; UNIQUE_ID],
        1 => [255; UNIQUE_ID],
        _ => random.bytes(UNIQUE_ID).try_into().expect("16 bytes"),
    }
}

/// A table of so many entries; unique IDs of the pool come first.
fn table(random: &mut Random, pool: &[UniqueId], count: usize) -> Vec<Entry> {
    let mut node_ids: Vec<u8> = (1..=LAST_ID).collect();
    let mut table: Vec<Entry> = Vec::new();
    let from_pool = random.index(pool.len() + 1);
    let mut pooled = pool[..from_pool].iter();
    while table.len() < count {
        let unique_id = pooled.next().copied().unwrap_or_else(|| any(random));
        if table.iter().all(|entry| entry.unique_id != unique_id) {
            let node_id = node_ids.swap_remove(random.index(node_ids.len()));
            table.push(Entry { unique_id, node_id });
        }
    }
    table.sort_by_key(|entry| rank(&entry.unique_id));
    table
}

/// An allocator as C may lend it.
pub fn allocator(random: &mut Random, pool: &[UniqueId], clock: u64) -> Allocator {
    let count = match random.below(7) {
        0 => 0,
        1 => random.index(6),
        2 => random.index(126),
        3 => 120 + random.index(6),
        4 => 125,
        _ => 124,
    };
    Allocator {
        time: clock.saturating_sub(random.below(2 * TIMEOUT)),
        gathered: gathered(random, pool),
        table: table(random, pool, count),
    }
}

/// The front of a unique ID, of any length that may be gathered.
pub fn gathered(random: &mut Random, pool: &[UniqueId]) -> Vec<u8> {
    let length = random.index(UNIQUE_ID);
    random.pick(pool)[..length].to_vec()
}
