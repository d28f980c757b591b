//! The archive's calls.

use crate::sides::{Call, Side};
use reference::receive::Frame;

#[link(name = "tecelume", kind = "static")]
extern "C" {
    fn tecelume_receive_many_word(
        state: *mut u8,
        state_len: usize,
        records: *const u8,
        records_len: usize,
        results: *mut u8,
        results_len: usize,
        out: *mut u8,
        out_len: usize,
    ) -> u64;

    fn tecelume_receive_word(
        state: *mut u8,
        state_len: usize,
        id: u32,
        frame: *const u8,
        frame_len: usize,
        interface: u32,
        time: u64,
        out: *mut u8,
        out_len: usize,
    ) -> u64;
}

pub fn side() -> Side {
    Side {
        many: receive_many,
        single: receive,
    }
}

fn receive_many(call: &mut Call) -> u64 {
    unsafe {
        tecelume_receive_many_word(
            call.state.pointer(),
            call.state.length(),
            call.records.pointer(),
            call.records.length(),
            call.results.pointer(),
            call.results.length(),
            call.out.pointer(),
            call.out.length(),
        )
    }
}

fn receive(state: &mut [u8], frame: &Frame, out: &mut [u8]) -> u64 {
    unsafe {
        tecelume_receive_word(
            state.as_mut_ptr(),
            state.len(),
            frame.id,
            frame.data.as_ptr(),
            frame.data.len(),
            frame.interface,
            frame.time,
            out.as_mut_ptr(),
            out.len(),
        )
    }
}
