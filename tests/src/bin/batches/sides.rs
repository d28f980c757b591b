//! What is compared: the call on several frames, and the one on a single frame.

use crate::lent::Lent;
use reference::batch;
use reference::entry;
use reference::receive::Frame;

/// The buffers of a call on several frames.
pub struct Call<'a> {
    pub state: &'a mut Lent,
    pub records: &'a mut Lent,
    pub results: &'a mut Lent,
    pub out: &'a mut Lent,
}

pub type Many = fn(&mut Call) -> u64;
pub type Single = fn(&mut [u8], &Frame, &mut [u8]) -> u64;

#[derive(Clone, Copy)]
pub struct Side {
    pub many: Many,
    pub single: Single,
}

impl Side {
    pub fn reference() -> Side {
        Side {
            many: receive_many,
            single: entry::receive,
        }
    }
}

pub fn receive_many(call: &mut Call) -> u64 {
    batch::receive_many(
        call.state.content_mut(),
        call.records.content(),
        call.results.content_mut(),
        call.out.content_mut(),
    )
}
