//! The receiver as the bytes that C lends: layout, reading with faults (RULES 5.4), and writing.
//!
//! A write touches only what means something: nothing of an empty place but its key, of a session's
//! list only the blocks that it has, and of these only the bytes in hand. So it leaves all else as
//! it was.

use crate::blocks::{holders, needed, BLOCK, BLOCKS};
use crate::frame::{largest_type, Stream, TransferType, TRANSFER_IDS};
use crate::receive::{
    all_differ, Receiver, Subscription, INTERFACES, LARGEST_NODE, MOST_SUBSCRIPTIONS, PLACES,
};
use crate::session::{Session, MOST_GATHERED};

pub const OWN: usize = 0;
pub const COUNT: usize = 1;
pub const SIGNATURES: usize = 8;
pub const TIMES: usize = 520;
/// The free blocks: bit b, of value 2^b, is 1 where block b is free.
pub const FREE: usize = 776;
pub const SUBSCRIPTION_KEYS: usize = 784;
pub const STREAM_KEYS: usize = 1040;
pub const CONTROLS: usize = 1168;
pub const BLOCK_LISTS: usize = 1296;
pub const BLOCK_BYTES: usize = 1584;
pub const SIZE: usize = 5680;
/// The room of a place's list: the blocks of the longest transfer.
pub const LIST: usize = MOST_GATHERED.div_ceil(BLOCK);

/// The receiver that the bytes hold; none if they have a fault (RULES 5.4).
pub fn read(bytes: &[u8]) -> Option<Receiver> {
    if bytes.len() < SIZE
        || u32::from(bytes[OWN]) > LARGEST_NODE
        || usize::from(bytes[COUNT]) > MOST_SUBSCRIPTIONS
    {
        return None;
    }
    let subscriptions: Vec<Subscription> = (0..usize::from(bytes[COUNT]))
        .map(|index| read_subscription(bytes, index))
        .collect::<Option<_>>()?;
    let places: Vec<Option<Session>> = (0..PLACES)
        .map(|place| read_place(bytes, place))
        .collect::<Option<_>>()?;
    if !all_differ(&subscriptions) || !streams_differ(&places) || !each_block_once(bytes, &places) {
        return None;
    }
    Some(Receiver {
        own: bytes[OWN],
        subscriptions,
        places,
    })
}

/// Writes a receiver over the bytes of one.
pub fn write(receiver: &Receiver, bytes: &mut [u8]) {
    bytes[OWN] = receiver.own;
    bytes[COUNT] = receiver.subscriptions.len() as u8;
    for (index, subscription) in receiver.subscriptions.iter().enumerate() {
        put_u64(bytes, SIGNATURES + 8 * index, subscription.signature);
        let key = u32::from(subscription.service) << 16 | u32::from(subscription.type_id);
        put_u32(bytes, SUBSCRIPTION_KEYS + 4 * index, key);
    }
    for (place, session) in receiver.places.iter().enumerate() {
        match session {
            Some(session) => write_session(session, bytes, place),
            None => put_u32(bytes, STREAM_KEYS + 4 * place, 0),
        }
    }
    put_u64(bytes, FREE, free_blocks(&receiver.places));
}

/// The blocks that no session has, as a state holds them.
pub fn free_blocks(places: &[Option<Session>]) -> u64 {
    let holders = holders(places);
    let free = (0..BLOCKS).filter(|&block| holders[block] == 0);
    free.map(|block| 1 << block).sum()
}

/// A stream's key: never 0, as every session has a named source.
pub fn stream_key(stream: &Stream) -> u32 {
    let upper = stream.transfer_type.number() << 16 | u32::from(stream.type_id);
    upper << 14 | u32::from(stream.source) << 7 | u32::from(stream.destination)
}

fn read_subscription(bytes: &[u8], index: usize) -> Option<Subscription> {
    let key = get_u32(bytes, SUBSCRIPTION_KEYS + 4 * index);
    let signature = get_u64(bytes, SIGNATURES + 8 * index);
    Subscription::of_numbers(key >> 16, key & 0xFFFF, signature)
}

/// A place, empty or not; none at all if it is at fault.
fn read_place(bytes: &[u8], place: usize) -> Option<Option<Session>> {
    let key = get_u32(bytes, STREAM_KEYS + 4 * place);
    if key == 0 {
        return Some(None);
    }
    let stream = read_stream(key)?;
    let control = &bytes[CONTROLS + 4 * place..][..4];
    let count = usize::from(u16::from_le_bytes([control[0], control[1]]));
    let (expected_id, toggle, follows) = (control[2], control[3] & 1 == 1, control[3] >> 1);
    let in_range = count <= MOST_GATHERED && expected_id < TRANSFER_IDS && follows < INTERFACES;
    if !in_range || (toggle && count == 0) {
        return None;
    }
    let blocks = bytes[list_at(place)..][..needed(count)].to_vec();
    if blocks.iter().any(|&block| usize::from(block) >= BLOCKS) {
        return None;
    }
    Some(Some(Session {
        stream,
        expected_id,
        gathered: blocks
            .iter()
            .flat_map(|&block| &bytes[block_at(block)..][..BLOCK])
            .take(count)
            .copied()
            .collect(),
        blocks,
        toggle,
        time: get_u64(bytes, TIMES + 8 * place),
        follows,
    }))
}

fn read_stream(key: u32) -> Option<Stream> {
    let transfer_type = TransferType::of_number(key >> 30)?;
    let service = transfer_type.is_service();
    let type_id = key >> 14 & 0xFFFF;
    let (source, destination) = ((key >> 7 & 127) as u8, (key & 127) as u8);
    if source == 0 || service != (destination != 0) || type_id > largest_type(service) {
        return None;
    }
    Some(Stream {
        transfer_type,
        type_id: type_id as u16,
        source,
        destination,
    })
}

fn streams_differ(places: &[Option<Session>]) -> bool {
    let streams: Vec<&Stream> = places.iter().flatten().map(|one| &one.stream).collect();
    (0..streams.len()).all(|index| !streams[..index].contains(&streams[index]))
}

/// Whether each block is either free or in one list, once.
fn each_block_once(bytes: &[u8], places: &[Option<Session>]) -> bool {
    let (free, holders) = (get_u64(bytes, FREE), holders(places));
    (0..BLOCKS).all(|block| (free >> block & 1) as usize + holders[block] == 1)
}

fn write_session(session: &Session, bytes: &mut [u8], place: usize) {
    let count = session.gathered.len();
    put_u32(bytes, STREAM_KEYS + 4 * place, stream_key(&session.stream));
    let control = &mut bytes[CONTROLS + 4 * place..][..4];
    control[..2].copy_from_slice(&(count as u16).to_le_bytes());
    control[2] = session.expected_id;
    control[3] = u8::from(session.toggle) | session.follows << 1;
    put_u64(bytes, TIMES + 8 * place, session.time);
    bytes[list_at(place)..][..session.blocks.len()].copy_from_slice(&session.blocks);
    for (&block, part) in session.blocks.iter().zip(session.gathered.chunks(BLOCK)) {
        bytes[block_at(block)..][..part.len()].copy_from_slice(part);
    }
}

/// Where a place's list of blocks begins.
pub fn list_at(place: usize) -> usize {
    BLOCK_LISTS + LIST * place
}

/// Where a block begins.
pub fn block_at(block: u8) -> usize {
    BLOCK_BYTES + BLOCK * usize::from(block)
}

pub fn get_u32(bytes: &[u8], at: usize) -> u32 {
    u32::from_le_bytes(bytes[at..at + 4].try_into().expect("four bytes"))
}

pub fn get_u64(bytes: &[u8], at: usize) -> u64 {
    u64::from_le_bytes(bytes[at..at + 8].try_into().expect("eight bytes"))
}

pub fn put_u32(bytes: &mut [u8], at: usize, value: u32) {
    bytes[at..at + 4].copy_from_slice(&value.to_le_bytes());
}

pub fn put_u64(bytes: &mut [u8], at: usize, value: u64) {
    bytes[at..at + 8].copy_from_slice(&value.to_le_bytes());
}
