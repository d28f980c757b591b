//! The faults of lent state (RULES 5.4), each put alone into a state that has none.

use crate::random::Random;
use reference::blocks::{needed, BLOCK, BLOCKS};
use reference::frame::{Stream, TransferType};
use reference::receive::PLACES;
use reference::session::MOST_GATHERED;
use reference::state::{
    get_u32, get_u64, list_at, put_u32, put_u64, stream_key, CONTROLS, COUNT, FREE, LIST, OWN,
    STREAM_KEYS, SUBSCRIPTION_KEYS,
};

type Fault = (&'static str, fn(&mut Random, &mut [u8]));

pub const TOO_SHORT: &str = "20: shorter than its layout";

pub const FAULTS: [Fault; 27] = [
    ("20: own ID over 127", |random, state| {
        state[OWN] = random.between(128, 255) as u8;
    }),
    ("20: over 64 subscriptions", |random, state| {
        state[COUNT] = random.pick(&[65, 66, 128, 255]);
    }),
    ("20: subscription of unknown kind", |random, state| {
        let key = random.between(2, 65535) << 16 | random.below(65536);
        put_subscription(random, state, key as u32);
    }),
    ("20: subscription to a service over 255", |random, state| {
        let key = 1 << 16 | random.pick(&[256, 257, 511, 65535]);
        put_subscription(random, state, key);
    }),
    ("20: two like subscriptions", |random, state| {
        let first = put_subscription(random, state, 3);
        let count = usize::from(state[COUNT]);
        let other = (first + 1 + random.index(count - 1)) % count;
        put_u32(state, SUBSCRIPTION_KEYS + 4 * other, 3);
    }),
    ("20: stream of unknown transfer type", |random, state| {
        let lower = random.below(1 << 30) as u32;
        put_stream(random, state, 3 << 30 | lower);
    }),
    ("20: message stream from source 0", |random, state| {
        let type_id = random.between(1, 65535) as u32;
        put_stream(random, state, type_id << 14);
    }),
    ("20: service stream from source 0", |random, state| {
        let key = service(random, 7, 0, 5);
        put_stream(random, state, key);
    }),
    ("20: message stream to a node", |random, state| {
        let type_id = random.below(65536) as u32;
        let destination = random.between(1, 127) as u32;
        put_stream(random, state, type_id << 14 | 9 << 7 | destination);
    }),
    ("20: service stream to node 0", |random, state| {
        let key = service(random, 7, 9, 0);
        put_stream(random, state, key);
    }),
    ("20: service stream of a type over 255", |random, state| {
        let type_id = random.pick(&[256, 512, 65535]);
        let key = service(random, type_id, 9, 5);
        put_stream(random, state, key);
    }),
    ("20: two like streams", |random, state| {
        let place = settle(random, state);
        let other = (place + 1 + random.index(PLACES - 1)) % PLACES;
        if get_u32(state, STREAM_KEYS + 4 * other) == 0 {
            put_u32(state, CONTROLS + 4 * other, 0);
        }
        let key = get_u32(state, STREAM_KEYS + 4 * place);
        put_u32(state, STREAM_KEYS + 4 * other, key);
    }),
    ("20: over 514 bytes in hand", |random, state| {
        let place = hold(random, state, MOST_GATHERED);
        let count = random.pick(&[515, 516, 576, 577, 770, 1026, 65535]);
        put_count(state, place, count);
    }),
    ("20: expected transfer ID over 31", |random, state| {
        let place = settle(random, state);
        state[CONTROLS + 4 * place + 2] = random.between(32, 255) as u8;
    }),
    ("20: followed interface 3", |random, state| {
        put_follows(random, state, 3);
    }),
    ("20: followed interface over 3", |random, state| {
        let follows = random.between(4, 127) as u8;
        put_follows(random, state, follows);
    }),
    ("20: toggle 1 with nothing in hand", |random, state| {
        let place = settle(random, state);
        empty(state, place);
        state[CONTROLS + 4 * place + 3] |= 1;
    }),
    ("20: a block in two sessions", |random, state| {
        let [place, other] = two(random, state);
        let block = listed(random, state, other);
        replace(random, state, place, block);
    }),
    ("20: a block twice in one session", |random, state| {
        let count = random.between(BLOCK as u64 + 1, MOST_GATHERED as u64) as usize;
        let place = hold(random, state, count);
        let first = list_at(place);
        let index = random.between(1, needed(count) as u64 - 1) as usize;
        set_free(state, state[first + index], true);
        state[first + index] = state[first + random.index(index)];
    }),
    ("20: a block free and in a session", |random, state| {
        let place = hold_some(random, state);
        let block = listed(random, state, place);
        set_free(state, block, true);
    }),
    (
        "20: a block neither free nor in a session",
        |random, state| {
            let place = hold_some(random, state);
            let block = listed(random, state, place);
            empty(state, place);
            set_free(state, block, false);
        },
    ),
    ("20: a block of an empty place", |random, state| {
        let place = hold_some(random, state);
        put_u32(state, STREAM_KEYS + 4 * place, 0);
    }),
    ("20: a block of 64 or more", |random, state| {
        let place = hold_some(random, state);
        let block = random.between(BLOCKS as u64, 255) as u8;
        replace(random, state, place, block);
    }),
    ("20: a block and 64 or 128 more", |random, state| {
        let place = hold_some(random, state);
        let index = random.index(needed(count(state, place)));
        state[list_at(place) + index] |= random.pick(&[64, 128]);
    }),
    (
        "20: bytes in hand that need a block more",
        |random, state| {
            let held = random.between(0, LIST as u64 - 1) as usize;
            let place = hold(random, state, BLOCK * held);
            let last = list_at(place) + held;
            state[last] = match get_u64(state, FREE) {
                free if free != 0 && random.coin() => free.trailing_zeros() as u8,
                _ => random.below(BLOCKS as u64) as u8,
            };
            put_count(state, place, (BLOCK * held + 1) as u16);
        },
    ),
    (
        "20: bytes in hand that need a block less",
        |random, state| {
            let place = hold_some(random, state);
            let fewer = BLOCK * (needed(count(state, place)) - 1);
            put_count(state, place, fewer as u16);
            if fewer == 0 {
                state[CONTROLS + 4 * place + 3] &= !1;
            }
        },
    ),
    ("20: all blocks free, as after setup", |random, state| {
        hold_some(random, state);
        put_u64(state, FREE, u64::MAX);
    }),
];

fn count(state: &[u8], place: usize) -> usize {
    get_u32(state, CONTROLS + 4 * place) as usize & 0xFFFF
}

fn put_count(state: &mut [u8], place: usize, count: u16) {
    state[CONTROLS + 4 * place..][..2].copy_from_slice(&count.to_le_bytes());
}

fn set_free(state: &mut [u8], block: u8, free: bool) {
    let (mask, others) = (1 << block, get_u64(state, FREE));
    put_u64(
        state,
        FREE,
        if free { others | mask } else { others & !mask },
    );
}

/// Takes all bytes in hand from a session, and its blocks.
fn empty(state: &mut [u8], place: usize) {
    for index in 0..needed(count(state, place)) {
        set_free(state, state[list_at(place) + index], true);
    }
    put_count(state, place, 0);
    state[CONTROLS + 4 * place + 3] &= !1;
}

/// A session with so many bytes in hand, in any blocks; others are emptied where there are too few.
fn hold(random: &mut Random, state: &mut [u8], count: usize) -> usize {
    let place = settle(random, state);
    give(random, state, place, count);
    place
}

fn give(random: &mut Random, state: &mut [u8], place: usize, count: usize) {
    empty(state, place);
    for index in 0..needed(count) {
        while get_u64(state, FREE) == 0 {
            let other = random.index(PLACES);
            if other != place && get_u32(state, STREAM_KEYS + 4 * other) != 0 {
                empty(state, other);
            }
        }
        let free = get_u64(state, FREE);
        let block = loop {
            let block = random.below(BLOCKS as u64) as u8;
            if free >> block & 1 == 1 {
                break block;
            }
        };
        set_free(state, block, false);
        state[list_at(place) + index] = block;
    }
    put_count(state, place, count as u16);
}

/// A session with bytes in hand.
fn hold_some(random: &mut Random, state: &mut [u8]) -> usize {
    let count = random.between(1, MOST_GATHERED as u64) as usize;
    hold(random, state, count)
}

/// Two sessions with bytes in hand.
fn two(random: &mut Random, state: &mut [u8]) -> [usize; 2] {
    loop {
        let [one, other] = [hold_some(random, state), hold_some(random, state)];
        if one != other && count(state, one) > 0 {
            return [one, other];
        }
    }
}

/// One of the blocks that a session has.
fn listed(random: &mut Random, state: &[u8], place: usize) -> u8 {
    let index = random.index(needed(count(state, place)));
    state[list_at(place) + index]
}

/// Puts a number in place of one of a session's blocks, which is free then.
fn replace(random: &mut Random, state: &mut [u8], place: usize, number: u8) {
    let at = list_at(place) + random.index(needed(count(state, place)));
    set_free(state, state[at], true);
    state[at] = number;
}

/// Puts a key on a subscription in use, of which two are there then; gives its index.
fn put_subscription(random: &mut Random, state: &mut [u8], key: u32) -> usize {
    if state[COUNT] < 2 {
        state[COUNT] = 2;
        put_u32(state, SUBSCRIPTION_KEYS, 1);
        put_u32(state, SUBSCRIPTION_KEYS + 4, 2);
    }
    let index = random.index(usize::from(state[COUNT]));
    put_u32(state, SUBSCRIPTION_KEYS + 4 * index, key);
    index
}

fn put_stream(random: &mut Random, state: &mut [u8], key: u32) {
    let place = settle(random, state);
    put_u32(state, STREAM_KEYS + 4 * place, key);
}

/// Puts a followed interface into a session, and leaves its toggle.
fn put_follows(random: &mut Random, state: &mut [u8], follows: u8) {
    let place = settle(random, state);
    let flags = &mut state[CONTROLS + 4 * place + 3];
    *flags = follows << 1 | *flags & 1;
}

fn service(random: &mut Random, type_id: u32, source: u32, destination: u32) -> u32 {
    let transfer_type = random.between(1, 2) as u32;
    ((transfer_type << 16 | type_id) << 7 | source) << 7 | destination
}

/// A place with a session, made if the place was empty.
fn settle(random: &mut Random, state: &mut [u8]) -> usize {
    let place = random.index(PLACES);
    if get_u32(state, STREAM_KEYS + 4 * place) == 0 {
        put_u32(state, STREAM_KEYS + 4 * place, unused_key(random, state));
        put_u32(state, CONTROLS + 4 * place, 0);
    }
    place
}

fn unused_key(random: &mut Random, state: &[u8]) -> u32 {
    loop {
        let key = stream_key(&Stream {
            transfer_type: TransferType::Message,
            type_id: random.below(65536) as u16,
            source: random.between(1, 127) as u8,
            destination: 0,
        });
        let used = |place| get_u32(state, STREAM_KEYS + 4 * place) == key;
        if !(0..PLACES).any(used) {
            return key;
        }
    }
}
