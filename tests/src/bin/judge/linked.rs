//! The archive's call.

use crate::lent::Lent;
use crate::sides::Side;

#[link(name = "tecelume", kind = "static")]
extern "C" {
    fn tecelume_judge_word(
        subscriptions: *const u8,
        subscriptions_length: usize,
        capture: *const u8,
        capture_length: usize,
    ) -> u64;
}

pub const ARCHIVE: Side = Side::Linked(judge);

fn judge(list: &mut Lent, capture: &mut Lent) -> u64 {
    unsafe {
        tecelume_judge_word(
            list.pointer(),
            list.length(),
            capture.pointer(),
            capture.length(),
        )
    }
}
