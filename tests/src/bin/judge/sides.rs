//! What is compared: the call of the archive, of the reference, or of a wrong variant.

use crate::lent::Lent;
use reference::judge::judge;

#[derive(Clone, Copy)]
pub enum Side {
    #[cfg_attr(not(feature = "link"), allow(dead_code))]
    Linked(fn(&mut Lent, &mut Lent) -> u64),
    Word(fn(&[u8], &[u8]) -> u64),
}

pub const REFERENCE: Side = Side::Word(|list, capture| judge(list, capture).word());

impl Side {
    /// Judges a capture under a list of subscriptions.
    pub fn judge(self, list: &mut Lent, capture: &mut Lent) -> u64 {
        match self {
            Side::Linked(call) => call(list, capture),
            Side::Word(call) => call(list.content(), capture.content()),
        }
    }
}
