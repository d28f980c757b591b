//! Transfer-ID maps at random, and the faults of a lent map (RULES 8.5).

use crate::random::Random;
use crate::states::{time_near, transfer_id};
use reference::frame::TransferType;
use reference::map::{Descriptor, Entry, Map, KEYS, NEXT_IDS, PLACES};
use reference::state::{get_u32, put_u32};

type Fault = (&'static str, fn(&mut Random, &mut [u8]));

pub const TOO_SHORT: &str = "20: map shorter than its layout";

pub const FAULTS: [Fault; 8] = [
    ("20: even key", |random, map| {
        let place = settle(random, map);
        let key = get_u32(map, KEYS + 4 * place) & !1 | 1 << 8;
        put_u32(map, KEYS + 4 * place, key);
    }),
    ("20: entry for a response", |random, map| {
        let key = 2 << 24 | random.below(256) << 8 | random.between(1, 127) << 1 | 1;
        put_key(random, map, key as u32);
    }),
    ("20: entry of unknown transfer type", |random, map| {
        let key = random.between(3, 255) << 24 | random.below(1 << 24) | 1;
        put_key(random, map, key as u32);
    }),
    ("20: message entry to a node", |random, map| {
        let key = random.below(65536) << 8 | random.between(1, 127) << 1 | 1;
        put_key(random, map, key as u32);
    }),
    ("20: request entry to node 0", |random, map| {
        let key = 1 << 24 | random.below(256) << 8 | 1;
        put_key(random, map, key as u32);
    }),
    ("20: request entry of a type over 255", |random, map| {
        let key = 1 << 24 | random.between(256, 65535) << 8 | random.between(1, 127) << 1 | 1;
        put_key(random, map, key as u32);
    }),
    ("20: next transfer ID over 31", |random, map| {
        let place = settle(random, map);
        map[NEXT_IDS + place] = random.between(32, 255) as u8;
    }),
    ("20: two like entries", |random, map| {
        let place = settle(random, map);
        let other = (place + 1 + random.index(PLACES - 1)) % PLACES;
        let key = get_u32(map, KEYS + 4 * place);
        put_u32(map, KEYS + 4 * other, key);
        map[NEXT_IDS + other] = 0;
    }),
];

fn put_key(random: &mut Random, map: &mut [u8], key: u32) {
    let place = settle(random, map);
    put_u32(map, KEYS + 4 * place, key);
}

/// A place with an entry, made if the place was empty.
fn settle(random: &mut Random, map: &mut [u8]) -> usize {
    let place = random.index(PLACES);
    if get_u32(map, KEYS + 4 * place) == 0 {
        let key = unused_descriptor(random, map).key();
        put_u32(map, KEYS + 4 * place, key);
        map[NEXT_IDS + place] = 0;
    }
    place
}

fn unused_descriptor(random: &mut Random, map: &[u8]) -> Descriptor {
    loop {
        let descriptor = descriptor(random);
        let used = |place| get_u32(map, KEYS + 4 * place) == descriptor.key();
        if !(0..PLACES).any(used) {
            return descriptor;
        }
    }
}

pub fn descriptor(random: &mut Random) -> Descriptor {
    if random.coin() {
        let type_id = match random.below(3) {
            0 => random.below(4),
            1 => random.pick(&[0, 255, 256, 65535]),
            _ => random.below(65536),
        };
        return Descriptor {
            transfer_type: TransferType::Message,
            type_id: type_id as u16,
            destination: 0,
        };
    }
    Descriptor {
        transfer_type: TransferType::Request,
        type_id: random.pick(&[0, 1, 7, 255]),
        destination: random.pick(&[1, 2, 3, 64, 126, 127]),
    }
}

/// A map as C may lend it, over descriptors of which some are in use.
pub fn map(random: &mut Random, descriptors: &[Descriptor], clock: u64) -> Map {
    let mut map = Map::default();
    let common_time = random.coin().then(|| time_near(random, clock));
    for place in 0..random.pick(&[1, 16, 31, 32, 32]) {
        let descriptor = if random.coin() {
            random.pick(descriptors)
        } else {
            descriptor(random)
        };
        let time = match common_time {
            Some(time) => time.saturating_add(random.below(3)),
            None => time_near(random, clock),
        };
        if map.place_of(&descriptor).is_none() {
            map.places[place] = Some(Entry {
                descriptor,
                next_id: transfer_id(random),
                time,
            });
        }
    }
    map
}
