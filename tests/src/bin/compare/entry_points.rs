//! The entry points under comparison as tables of functions, and the reference's own tables.

use crate::lent::Lent;
use reference::allocator::{self, Request};
use reference::codec::{Decode, Encode};
use reference::definitions;
use reference::entry;
use reference::map;
use reference::messages;
use reference::receive::Frame;
use reference::send::Outgoing;
use reference::state;

/// State, own ID, subscriptions.
type Setup = fn(&mut Lent, u32, &mut Lent) -> u32;
pub type Receive = fn(&mut Arrival) -> u64;
pub type Send = fn(&mut Departure) -> u64;
pub type Allocate = fn(&mut Question) -> u64;
/// Kind, type ID.
pub type Signature = fn(u32, u32) -> u64;

#[derive(Clone, Copy)]
pub struct Reception {
    pub size: fn() -> u64,
    pub setup: Setup,
    pub receive: Receive,
}

#[derive(Clone, Copy)]
pub struct Sending {
    pub size: fn() -> u64,
    pub setup: fn(&mut Lent) -> u32,
    pub send: Send,
}

#[derive(Clone, Copy)]
pub struct Allocating {
    pub size: fn() -> u64,
    pub setup: fn(&mut Lent) -> u32,
    pub allocate: Allocate,
}

#[derive(Clone, Copy)]
pub struct Serialization {
    pub decode: Decode,
    pub encode: Encode,
}

/// What one side offers. Messages have no entry points in C.
#[derive(Clone, Copy)]
pub struct EntryPoints {
    pub version: fn() -> u32,
    pub reception: Reception,
    pub sending: Sending,
    pub allocating: Allocating,
    pub signature: Signature,
    pub serialization: Option<Serialization>,
}

/// The arguments of receive.
pub struct Arrival<'a> {
    pub state: &'a mut Lent,
    pub id: u32,
    pub data: &'a mut Lent,
    pub interface: u32,
    pub time: u64,
    pub out: &'a mut Lent,
}

/// The arguments of send.
pub struct Departure<'a> {
    pub map: &'a mut Lent,
    pub numbers: Numbers,
    pub payload: &'a mut Lent,
    pub out: &'a mut Lent,
}

/// All of a send but its buffers.
#[derive(Clone, Copy, Debug)]
pub struct Numbers {
    pub own: u32,
    pub transfer_type: u32,
    pub type_id: u32,
    pub destination: u32,
    pub priority: u32,
    pub signature: u64,
    pub time: u64,
    pub transfer_id: u32,
    pub discriminator: u32,
}

impl Numbers {
    pub fn with_payload<'a>(&self, payload: &'a [u8]) -> Outgoing<'a> {
        Outgoing {
            own: self.own,
            transfer_type: self.transfer_type,
            type_id: self.type_id,
            destination: self.destination,
            priority: self.priority,
            payload,
            signature: self.signature,
            time: self.time,
            transfer_id: self.transfer_id,
            discriminator: self.discriminator,
        }
    }
}

/// The arguments of allocate.
pub struct Question<'a> {
    pub state: &'a mut Lent,
    pub context: Context,
    pub payload: &'a mut Lent,
    pub out: &'a mut Lent,
}

/// All of an allocate call but its buffers.
#[derive(Clone, Copy, Debug)]
pub struct Context {
    pub own: u32,
    pub marks: [u64; 2],
    pub source: u32,
    pub time: u64,
}

impl Context {
    pub fn with_payload<'a>(&self, payload: &'a [u8]) -> Request<'a> {
        Request {
            own: self.own,
            marks: self.marks,
            source: self.source,
            payload,
            time: self.time,
        }
    }
}

/// The reference itself, over lent bytes alone.
pub const REFERENCE: EntryPoints = EntryPoints {
    version: || entry::VERSION,
    reception: Reception {
        size: || state::SIZE as u64,
        setup: |state, own, list| entry::setup(state.content_mut(), own, list.content()),
        receive,
    },
    sending: Sending {
        size: || map::SIZE as u64,
        setup: |map| entry::map_setup(map.content_mut()),
        send,
    },
    allocating: Allocating {
        size: || allocator::SIZE as u64,
        setup: |state| entry::allocator_setup(state.content_mut()),
        allocate,
    },
    signature: definitions::signature,
    serialization: Some(Serialization {
        decode: messages::decode,
        encode: messages::encode,
    }),
};

pub fn receive(call: &mut Arrival) -> u64 {
    let frame = Frame {
        id: call.id,
        data: call.data.content(),
        interface: call.interface,
        time: call.time,
    };
    entry::receive(call.state.content_mut(), &frame, call.out.content_mut())
}

/// The number of frames in a send's result word.
pub fn frames_in(word: u64) -> u64 {
    word >> 8 & 127
}

pub fn send(call: &mut Departure) -> u64 {
    let outgoing = call.numbers.with_payload(call.payload.content());
    entry::send(call.map.content_mut(), &outgoing, call.out.content_mut())
}

pub fn allocate(call: &mut Question) -> u64 {
    let request = call.context.with_payload(call.payload.content());
    entry::allocate(call.state.content_mut(), &request, call.out.content_mut())
}
