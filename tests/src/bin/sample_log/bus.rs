//! A bus that is written down: what its nodes send, in the order of time.

use reference::definitions as types;
use reference::logs::Line;
use reference::map::Map;
use reference::messages::{encode, Message};
use reference::send::{send, Outgoing, SentFrame};
use std::collections::BTreeMap;

#[derive(Default)]
pub struct Bus {
    maps: BTreeMap<u32, Map>,
    /// Time in milliseconds, and the line.
    lines: Vec<(u64, Vec<u8>)>,
}

/// What a payload is sent as.
#[derive(Clone, Copy)]
pub struct Topic {
    pub transfer_type: u32,
    pub type_id: u16,
    pub destination: u32,
    pub priority: u32,
    pub signature: u64,
}

pub fn message(type_id: u16, priority: u32) -> Topic {
    Topic {
        transfer_type: 0,
        type_id,
        destination: 0,
        priority,
        signature: types::signature(0, type_id.into()),
    }
}

pub fn request(type_id: u16, destination: u32) -> Topic {
    Topic {
        transfer_type: 1,
        type_id,
        destination,
        priority: 16,
        signature: types::signature(1, type_id.into()),
    }
}

pub fn response(type_id: u16, destination: u32) -> Topic {
    Topic {
        transfer_type: 2,
        ..request(type_id, destination)
    }
}

impl Bus {
    /// The frames of a payload from a node, and the transfer ID; a response has its request's.
    pub fn frames(
        &mut self,
        time: u64,
        own: u32,
        topic: Topic,
        payload: &[u8],
        id: u8,
    ) -> (Vec<SentFrame>, u8) {
        let outgoing = Outgoing {
            own,
            transfer_type: topic.transfer_type,
            type_id: topic.type_id.into(),
            destination: topic.destination,
            priority: topic.priority,
            payload,
            signature: topic.signature,
            time: time * 1000,
            transfer_id: id.into(),
            discriminator: 0,
        };
        let map = self.maps.entry(own).or_default();
        let sent = send(map, &outgoing, usize::MAX).expect("what can be sent");
        (sent.frames, sent.transfer_id)
    }

    pub fn say(&mut self, time: u64, own: u32, topic: Topic, said: &Message) -> u8 {
        self.answer(time, own, topic, said, 0)
    }

    pub fn answer(&mut self, time: u64, own: u32, topic: Topic, said: &Message, id: u8) -> u8 {
        let (frames, id) = self.frames(time, own, topic, &payload(said), id);
        self.put(time, &frames);
        id
    }

    /// Frames take half a millisecond each.
    pub fn put(&mut self, time: u64, frames: &[SentFrame]) {
        for (place, frame) in frames.iter().enumerate() {
            let time = time + place as u64 / 2;
            let line = Line {
                id: frame.id,
                data: frame.data.clone(),
                time: time * 1000,
            };
            self.lines.push((time, line.text()));
        }
    }

    /// Any line.
    pub fn raw(&mut self, time: u64, line: &[u8]) {
        self.lines.push((time, line.to_vec()));
    }

    pub fn log(mut self) -> Vec<u8> {
        self.lines.sort_by_key(|(time, _)| *time);
        self.lines.into_iter().flat_map(|(_, line)| line).collect()
    }
}

pub fn payload(said: &Message) -> Vec<u8> {
    let mut out = [0; 512];
    let length = encode(said, &mut out).expect("what can be written");
    out[..length].to_vec()
}
