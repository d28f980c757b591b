//! The archive's two calls.

use crate::lent::Lent;
use crate::sides::{Call, Side};

#[link(name = "tecelume", kind = "static")]
extern "C" {
    fn tecelume_capture_word(
        log: *const u8,
        log_length: usize,
        out: *mut u8,
        out_length: usize,
    ) -> u64;
    fn tecelume_uncapture_word(
        capture: *const u8,
        capture_length: usize,
        out: *mut u8,
        out_length: usize,
    ) -> u64;
}

pub const ARCHIVE: Side = Side {
    capture: Call::Linked(capture),
    uncapture: Call::Linked(uncapture),
};

fn capture(log: &mut Lent, out: &mut Lent) -> u64 {
    unsafe { tecelume_capture_word(log.pointer(), log.length(), out.pointer(), out.length()) }
}

fn uncapture(capture: &mut Lent, out: &mut Lent) -> u64 {
    unsafe {
        tecelume_uncapture_word(
            capture.pointer(),
            capture.length(),
            out.pointer(),
            out.length(),
        )
    }
}
