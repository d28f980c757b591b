//! The archive's call.

use crate::calls::Buffers;

#[link(name = "tecelume", kind = "static")]
extern "C" {
    fn tecelume_signatures_word(
        source: *const u8,
        source_length: usize,
        lengths: *const u8,
        lengths_length: usize,
        out: *mut u8,
        out_length: usize,
        records: *mut u8,
        records_length: usize,
    ) -> u64;
}

pub fn call(buffers: &mut Buffers) -> u64 {
    unsafe {
        tecelume_signatures_word(
            buffers.source.pointer(),
            buffers.source.length(),
            buffers.lengths.pointer(),
            buffers.lengths.length(),
            buffers.out.pointer(),
            buffers.out.length(),
            buffers.records.pointer(),
            buffers.records.length(),
        )
    }
}
