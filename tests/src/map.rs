//! The sender's transfer-ID map (RULES 8), and its bytes as C lends them.

use crate::frame::{largest_type, next_transfer_id, TransferType, TRANSFER_IDS};
use crate::state::{get_u32, get_u64, put_u32, put_u64};

pub const PLACES: usize = 32;
/// An entry unused for this long in microseconds, or longer, may be replaced.
pub const UNUSED: u64 = 2_000_000;

pub const KEYS: usize = 0;
pub const TIMES: usize = 128;
pub const NEXT_IDS: usize = 384;
pub const SIZE: usize = 416;

/// What an entry is for. Own ID is no part of it.
#[derive(Clone, Copy, Debug, PartialEq, Eq)]
pub struct Descriptor {
    pub transfer_type: TransferType,
    pub type_id: u16,
    pub destination: u8,
}

#[derive(Clone, Debug, PartialEq, Eq)]
pub struct Entry {
    pub descriptor: Descriptor,
    pub next_id: u8,
    pub time: u64,
}

#[derive(Clone, Debug, PartialEq, Eq)]
pub struct Map {
    pub places: Vec<Option<Entry>>,
}

impl Default for Map {
    fn default() -> Map {
        Map {
            places: vec![None; PLACES],
        }
    }
}

impl Map {
    /// The transfer ID for a send at this time, the entry then raised; none if no place is to be
    /// had.
    pub fn draw(&mut self, descriptor: Descriptor, time: u64) -> Option<u8> {
        let place = match self.place_of(&descriptor) {
            Some(place) => place,
            None => {
                let place = self.free_place(time)?;
                self.places[place] = Some(Entry {
                    descriptor,
                    next_id: 0,
                    time,
                });
                place
            }
        };
        let entry = self.places[place].as_mut().expect("found or made above");
        let drawn = entry.next_id;
        entry.next_id = next_transfer_id(drawn);
        entry.time = time;
        Some(drawn)
    }

    pub fn place_of(&self, descriptor: &Descriptor) -> Option<usize> {
        self.places
            .iter()
            .position(|place| matches!(place, Some(one) if one.descriptor == *descriptor))
    }

    /// The lowest empty place, else the lowest unused for long.
    pub fn free_place(&self, time: u64) -> Option<usize> {
        let unused = |place: &Option<Entry>| matches!(place, Some(one) if one.is_unused(time));
        let empty = self.places.iter().position(Option::is_none);
        empty.or_else(|| self.places.iter().position(unused))
    }

    /// The map that the bytes hold; none if they have a fault (RULES 8.5).
    pub fn read(bytes: &[u8]) -> Option<Map> {
        if bytes.len() < SIZE {
            return None;
        }
        let places: Vec<Option<Entry>> = (0..PLACES)
            .map(|place| read_place(bytes, place))
            .collect::<Option<_>>()?;
        let keys: Vec<Descriptor> = places.iter().flatten().map(|one| one.descriptor).collect();
        let differ = (0..keys.len()).all(|index| !keys[..index].contains(&keys[index]));
        differ.then_some(Map { places })
    }

    /// Writes the map over the bytes of one; of an empty place only its key.
    pub fn write(&self, bytes: &mut [u8]) {
        for (place, entry) in self.places.iter().enumerate() {
            match entry {
                Some(entry) => {
                    put_u32(bytes, KEYS + 4 * place, entry.descriptor.key());
                    put_u64(bytes, TIMES + 8 * place, entry.time);
                    bytes[NEXT_IDS + place] = entry.next_id;
                }
                None => put_u32(bytes, KEYS + 4 * place, 0),
            }
        }
    }
}

impl Entry {
    fn is_unused(&self, time: u64) -> bool {
        time.saturating_sub(self.time) >= UNUSED
    }
}

impl Descriptor {
    /// The lowest bit is set, so that no key is 0.
    pub fn key(&self) -> u32 {
        let upper = self.transfer_type.number() << 16 | u32::from(self.type_id);
        upper << 8 | u32::from(self.destination) << 1 | 1
    }

    fn of_key(key: u32) -> Option<Descriptor> {
        let transfer_type = match key >> 24 {
            0 => TransferType::Message,
            1 => TransferType::Request,
            _ => return None,
        };
        let service = transfer_type.is_service();
        let type_id = key >> 8 & 0xFFFF;
        let destination = (key >> 1 & 127) as u8;
        if key & 1 == 0 || service != (destination != 0) || type_id > largest_type(service) {
            return None;
        }
        Some(Descriptor {
            transfer_type,
            type_id: type_id as u16,
            destination,
        })
    }
}

/// A place, empty or not; none at all if it is at fault.
fn read_place(bytes: &[u8], place: usize) -> Option<Option<Entry>> {
    let key = get_u32(bytes, KEYS + 4 * place);
    if key == 0 {
        return Some(None);
    }
    let descriptor = Descriptor::of_key(key)?;
    let next_id = bytes[NEXT_IDS + place];
    if next_id >= TRANSFER_IDS {
        return None;
    }
    Some(Some(Entry {
        descriptor,
        next_id,
        time: get_u64(bytes, TIMES + 8 * place),
    }))
}
