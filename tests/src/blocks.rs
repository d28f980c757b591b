//! The blocks that gathered bytes lie in, which all sessions of a receiver share: which are free,
//! how many so many bytes need, and what is done when none is free (RULES 4.12).

use crate::session::Session;

pub const BLOCKS: usize = 64;
/// Bytes of a block.
pub const BLOCK: usize = 64;

/// How many blocks hold so many bytes.
pub fn needed(count: usize) -> usize {
    count.div_ceil(BLOCK)
}

/// Of each block, how many sessions have it.
pub fn holders(places: &[Option<Session>]) -> [usize; BLOCKS] {
    let mut holders = [0; BLOCKS];
    for &block in places.iter().flatten().flat_map(|one| &one.blocks) {
        holders[usize::from(block)] += 1;
    }
    holders
}

/// The lowest block that no session has.
pub fn lowest_free(places: &[Option<Session>]) -> Option<u8> {
    let free = holders(places).iter().position(|&count| count == 0);
    free.map(|block| block as u8)
}

/// Takes a block; where none is free, all old sessions with bytes in hand are emptied first.
pub fn take(places: &mut [Option<Session>], time: u64) -> Option<u8> {
    lowest_free(places).or_else(|| {
        let sessions = places.iter_mut().flatten();
        for session in sessions.filter(|one| one.is_old(time) && !one.gathered.is_empty()) {
            session.end();
        }
        lowest_free(places)
    })
}
