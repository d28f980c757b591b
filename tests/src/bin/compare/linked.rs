//! The archive's entry points, called as C would call them.

use crate::entry_points::{
    Allocating, Arrival, Departure, EntryPoints, Question, Reception, Sending,
};
use crate::lent::Lent;

#[link(name = "tecelume", kind = "static")]
extern "C" {
    fn tecelume_version() -> u32;
    fn tecelume_receiver_size() -> u64;
    fn tecelume_setup(
        state: *mut u8,
        state_length: usize,
        own: u32,
        subscriptions: *const u8,
        subscriptions_length: usize,
    ) -> u32;
    fn tecelume_receive_word(
        state: *mut u8,
        state_length: usize,
        id: u32,
        frame: *const u8,
        frame_length: usize,
        interface: u32,
        time: u64,
        out: *mut u8,
        out_length: usize,
    ) -> u64;
    fn tecelume_map_size() -> u64;
    fn tecelume_map_setup(map: *mut u8, map_length: usize) -> u32;
    fn tecelume_send_word(
        map: *mut u8,
        map_length: usize,
        own: u32,
        transfer_type: u32,
        type_id: u32,
        destination: u32,
        priority: u32,
        payload: *const u8,
        payload_length: usize,
        signature: u64,
        time: u64,
        transfer_id: u32,
        discriminator: u32,
        out: *mut u8,
        out_length: usize,
    ) -> u64;
    fn tecelume_allocator_size() -> u64;
    fn tecelume_allocator_setup(state: *mut u8, state_length: usize) -> u32;
    fn tecelume_allocate_word(
        state: *mut u8,
        state_length: usize,
        own: u32,
        marks_low: u64,
        marks_high: u64,
        source: u32,
        payload: *const u8,
        payload_length: usize,
        time: u64,
        out: *mut u8,
        out_length: usize,
    ) -> u64;
    fn tecelume_signature(kind: u32, type_id: u32) -> u64;
}

pub const ARCHIVE: EntryPoints = EntryPoints {
    version: || unsafe { tecelume_version() },
    reception: Reception {
        size: || unsafe { tecelume_receiver_size() },
        setup,
        receive,
    },
    sending: Sending {
        size: || unsafe { tecelume_map_size() },
        setup: |map| unsafe { tecelume_map_setup(map.pointer(), map.length()) },
        send,
    },
    allocating: Allocating {
        size: || unsafe { tecelume_allocator_size() },
        setup: |state| unsafe { tecelume_allocator_setup(state.pointer(), state.length()) },
        allocate,
    },
    signature: |kind, type_id| unsafe { tecelume_signature(kind, type_id) },
    serialization: None,
};

fn setup(state: &mut Lent, own: u32, list: &mut Lent) -> u32 {
    unsafe {
        tecelume_setup(
            state.pointer(),
            state.length(),
            own,
            list.pointer(),
            list.length(),
        )
    }
}

fn receive(call: &mut Arrival) -> u64 {
    unsafe {
        tecelume_receive_word(
            call.state.pointer(),
            call.state.length(),
            call.id,
            call.data.pointer(),
            call.data.length(),
            call.interface,
            call.time,
            call.out.pointer(),
            call.out.length(),
        )
    }
}

fn send(call: &mut Departure) -> u64 {
    let numbers = &call.numbers;
    unsafe {
        tecelume_send_word(
            call.map.pointer(),
            call.map.length(),
            numbers.own,
            numbers.transfer_type,
            numbers.type_id,
            numbers.destination,
            numbers.priority,
            call.payload.pointer(),
            call.payload.length(),
            numbers.signature,
            numbers.time,
            numbers.transfer_id,
            numbers.discriminator,
            call.out.pointer(),
            call.out.length(),
        )
    }
}

fn allocate(call: &mut Question) -> u64 {
    let context = &call.context;
    unsafe {
        tecelume_allocate_word(
            call.state.pointer(),
            call.state.length(),
            context.own,
            context.marks[0],
            context.marks[1],
            context.source,
            call.payload.pointer(),
            call.payload.length(),
            context.time,
            call.out.pointer(),
            call.out.length(),
        )
    }
}
