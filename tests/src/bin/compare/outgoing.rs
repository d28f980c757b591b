//! Calls to send at random: allowed ones of each kind, and each reason of 14 put into one.

use crate::entry_points::Numbers;
use crate::random::Random;
use crate::traffic::payload_length;
use reference::frame::TransferType;
use reference::map::Descriptor;
use reference::receive::LONGEST_PAYLOAD;

/// A call to send but its buffers' bytes.
#[derive(Debug)]
pub struct Call {
    pub numbers: Numbers,
    pub payload: usize,
}

pub type Reason = (&'static str, fn(&mut Random, &mut Call));

pub const REASONS: [Reason; 13] = [
    ("14: own ID over 127", |random, call| {
        call.numbers.own = random.pick(&[128, 255, 256, u32::MAX]);
    }),
    ("14: transfer type unknown", |random, call| {
        call.numbers.transfer_type = random.pick(&[3, 4, 256, 1 << 16, u32::MAX]);
    }),
    ("14: message type over 65535", |random, call| {
        call.become_message();
        call.numbers.type_id = random.pick(&[65536, 65537, u32::MAX]);
    }),
    ("14: service type over 255", |random, call| {
        call.become_service(random);
        call.numbers.type_id = random.pick(&[256, 257, 65535, 65536, u32::MAX]);
    }),
    ("14: message to a node", |random, call| {
        call.become_message();
        call.numbers.destination = random.pick(&[1, 127, 128, 256, u32::MAX]);
    }),
    ("14: service to node 0", |random, call| {
        call.become_service(random);
        call.numbers.destination = 0;
    }),
    ("14: service to a node over 127", |random, call| {
        call.become_service(random);
        call.numbers.destination = random.pick(&[128, 129, 255, 256, 257, u32::MAX]);
    }),
    ("14: priority over 31", |random, call| {
        call.numbers.priority = random.pick(&[32, 255, 256, u32::MAX]);
    }),
    ("14: transfer ID of a response over 31", |random, call| {
        call.become_service(random);
        call.numbers.transfer_type = TransferType::Response.number();
        call.numbers.transfer_id = random.pick(&[32, 255, 256, u32::MAX]);
    }),
    ("14: discriminator over 16383", |random, call| {
        call.become_anonymous(random);
        call.numbers.discriminator = random.pick(&[16384, 65535, 65536, u32::MAX]);
    }),
    ("14: anonymous with a type over 3", |random, call| {
        call.become_anonymous(random);
        call.numbers.type_id = random.pick(&[4, 5, 256, 65535]);
    }),
    ("14: anonymous with a payload over 7", |random, call| {
        call.become_anonymous(random);
        call.payload = random.pick(&[8, 9, 100, LONGEST_PAYLOAD, LONGEST_PAYLOAD + 1, 600]);
    }),
    ("14: anonymous service", |random, call| {
        call.become_service(random);
        call.numbers.own = 0;
    }),
];

impl Call {
    /// A call that 14 does not refuse, on one of the descriptors or as a response.
    pub fn allowed(random: &mut Random, descriptor: Descriptor, time: u64) -> Call {
        let mut call = Call {
            numbers: Numbers {
                own: random.pick(&[1, 1, 9, 127]),
                transfer_type: descriptor.transfer_type.number(),
                type_id: descriptor.type_id.into(),
                destination: descriptor.destination.into(),
                priority: random.below(32) as u32,
                signature: random.next(),
                time,
                transfer_id: random.next() as u32,
                discriminator: random.next() as u32,
            },
            payload: length(random),
        };
        let message = descriptor.transfer_type == TransferType::Message;
        if !message && random.once_in(4) {
            call.numbers.transfer_type = TransferType::Response.number();
            call.numbers.transfer_id %= 32;
        }
        if message && descriptor.type_id < 4 && random.coin() {
            call.become_anonymous(random);
            call.numbers.type_id = descriptor.type_id.into();
        }
        call
    }

    fn become_message(&mut self) {
        self.numbers.transfer_type = TransferType::Message.number();
        self.numbers.own = self.numbers.own.max(1);
        self.numbers.destination = 0;
    }

    fn become_service(&mut self, random: &mut Random) {
        self.numbers.transfer_type = random.between(1, 2) as u32;
        self.numbers.own = self.numbers.own.max(1);
        self.numbers.type_id %= 256;
        self.numbers.destination = random.between(1, 127) as u32;
        self.numbers.transfer_id %= 32;
    }

    fn become_anonymous(&mut self, random: &mut Random) {
        self.become_message();
        self.numbers.own = 0;
        self.numbers.type_id = random.below(4) as u32;
        self.numbers.discriminator %= 16384;
        self.payload = random.index(8);
    }
}

fn length(random: &mut Random) -> usize {
    let long = random.once_in(6);
    payload_length(random, long)
}
