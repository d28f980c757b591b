//! The archive's conversions, called as C would call them.

use crate::Side;

#[link(name = "bench_entries", kind = "static")]
extern "C" {
    fn bench_widen(half: u16) -> u32;
    fn bench_narrow(single: u32) -> u16;
    fn bench_to_f32(half: u16) -> f32;
    fn bench_from_f32(single: f32) -> u16;
}

pub const ARCHIVE: Side = Side {
    widen: |half| unsafe { bench_widen(half) },
    narrow: |single| unsafe { bench_narrow(single) },
    to_f32: |half| unsafe { bench_to_f32(half) }.to_bits(),
    from_f32: |single| unsafe { bench_from_f32(f32::from_bits(single)) },
};
