//! What is compared: the two calls of the archive, of the reference, or of a wrong variant.

use crate::lent::Lent;
use reference::captures::{capture, uncapture, Written};
use reference::entry::written;

#[derive(Clone, Copy)]
pub enum Call {
    #[cfg_attr(not(feature = "link"), allow(dead_code))]
    Linked(fn(&mut Lent, &mut Lent) -> u64),
    Reference(fn(&[u8], &mut [u8]) -> Written),
    /// One that gives its own word.
    Word(fn(&[u8], &mut [u8]) -> u64),
}

impl Call {
    pub fn make(self, input: &mut Lent, out: &mut Lent) -> u64 {
        match self {
            Call::Linked(call) => call(input, out),
            Call::Reference(call) => written(call(input.content(), out.content_mut())),
            Call::Word(call) => call(input.content(), out.content_mut()),
        }
    }
}

#[derive(Clone, Copy)]
pub struct Side {
    pub capture: Call,
    pub uncapture: Call,
}

pub const REFERENCE: Side = Side {
    capture: Call::Reference(capture),
    uncapture: Call::Reference(uncapture),
};
