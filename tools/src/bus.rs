//! The receivers that listen to a bus.

use crate::failure::Failure;
use crate::frame::Frame;
use crate::library::{sentence, Answer, Receiver};
use crate::types::Types;

/// Whose ears.
#[derive(Clone, Copy, Debug, PartialEq, Eq)]
pub enum Own {
    /// One node's, as the log program's.
    Node(u32),
    /// Every node's: a receiver for each destination of a service, so that each answers as that node would; messages go to one more, which has no ID
    /// of its own.
    Every,
}

pub struct Bus {
    own: Own,
    subscriptions: Vec<u8>,
    first: Box<Receiver>,
    /// By node ID, from the first frame on that is for the node.
    by_destination: Vec<Option<Box<Receiver>>>,
}

impl Bus {
    pub fn new(own: Own, types: &Types) -> Result<Bus, Failure> {
        let subscriptions = types.records();
        let node = match own {
            Own::Node(node) => node,
            Own::Every => 0,
        };
        Ok(Bus {
            own,
            first: receiver(node, &subscriptions)?,
            subscriptions,
            by_destination: (0..128).map(|_| None).collect(),
        })
    }

    pub fn receive(&mut self, frame: &Frame) -> Result<Answer<'_>, Failure> {
        let destination = match (self.own, frame.stream()) {
            (Own::Every, Some(stream)) => stream.destination,
            _ => 0,
        };
        if destination == 0 {
            return Ok(self.first.receive(frame));
        }
        let place = &mut self.by_destination[usize::from(destination)];
        let receiver = match place {
            Some(receiver) => receiver,
            None => place.insert(receiver(destination.into(), &self.subscriptions)?),
        };
        Ok(receiver.receive(frame))
    }
}

fn receiver(own: u32, subscriptions: &[u8]) -> Result<Box<Receiver>, Failure> {
    let refused = |number| Failure::Refused(format!("{number} {}", sentence(number)));
    Receiver::new(own, subscriptions).map_err(refused)
}
