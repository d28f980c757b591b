//! The receiver: setup and the reception of one frame (RULES 3, 4 and 13).

use crate::blocks;
use crate::frame::{largest_type, priority_of, Stream, Tail, FRAME_PAYLOAD, ID_END, LONGEST_FRAME};
use crate::session::{Piece, Reason, Session, Step, MOST_GATHERED};

pub const LARGEST_NODE: u32 = 127;
pub const MOST_SUBSCRIPTIONS: usize = 64;
pub const PLACES: usize = 32;
/// A frame comes by one of the interfaces below this number.
pub const INTERFACES: u8 = 3;
/// The room every frame past the other checks needs.
pub const LONGEST_PAYLOAD: usize = 512;

#[derive(Clone, Copy, Debug, PartialEq, Eq)]
pub struct Subscription {
    pub service: bool,
    pub type_id: u16,
    pub signature: u64,
}

impl Subscription {
    /// A subscription from the numbers a caller gives; none if kind or type is out of range.
    pub fn of_numbers(kind: u32, type_id: u32, signature: u64) -> Option<Subscription> {
        let service = kind == 1;
        if kind > 1 || type_id > largest_type(service) {
            return None;
        }
        Some(Subscription {
            service,
            type_id: type_id as u16,
            signature,
        })
    }

    pub fn same_type(&self, other: &Subscription) -> bool {
        self.service == other.service && self.type_id == other.type_id
    }
}

#[derive(Clone, Debug, PartialEq, Eq)]
pub struct Receiver {
    pub own: u8,
    pub subscriptions: Vec<Subscription>,
    pub places: Vec<Option<Session>>,
}

/// A frame as it came: when, and by which interface.
#[derive(Clone, Copy, Debug)]
pub struct Frame<'a> {
    pub id: u32,
    pub data: &'a [u8],
    pub interface: u32,
    pub time: u64,
}

/// A transfer as it is handed out; priority and transfer ID are the closing frame's.
#[derive(Clone, Debug, PartialEq, Eq)]
pub struct Transfer {
    pub payload: Vec<u8>,
    pub stream: Stream,
    pub priority: u8,
    pub transfer_id: u8,
}

#[derive(Clone, Debug, PartialEq, Eq)]
pub enum Answer {
    Taken,
    HandedOut(Transfer),
    IdTooLarge,
    DataLength,
    UnnamedService,
    TailShape,
    OtherNode,
    NoSubscription,
    OutputTooSmall,
    TableFull,
    PayloadTooLong,
    ChecksumDiffers,
    NoInterface,
    NoBlock,
    PassedOver(Reason),
}

impl Answer {
    pub fn number(&self) -> u32 {
        match self {
            Answer::Taken => 0,
            Answer::HandedOut(_) => 1,
            Answer::IdTooLarge => 2,
            Answer::DataLength => 3,
            Answer::UnnamedService => 4,
            Answer::TailShape => 5,
            Answer::OtherNode => 6,
            Answer::NoSubscription => 7,
            Answer::OutputTooSmall => 8,
            Answer::TableFull => 9,
            Answer::PayloadTooLong => 11,
            Answer::ChecksumDiffers => 12,
            Answer::NoInterface => 19,
            Answer::NoBlock => 26,
            Answer::PassedOver(Reason::NoTransfer) => 30,
            Answer::PassedOver(Reason::WrongToggle) => 31,
            Answer::PassedOver(Reason::WrongTransfer) => 32,
            Answer::PassedOver(Reason::RepeatedStart) => 33,
            Answer::PassedOver(Reason::OtherInterface) => 34,
        }
    }
}

/// What a frame that passed the checks says.
struct Head<'a> {
    stream: Stream,
    priority: u8,
    piece: Piece<'a>,
}

impl Head<'_> {
    fn hand_out(&self, payload: Vec<u8>) -> Answer {
        Answer::HandedOut(Transfer {
            payload,
            stream: self.stream,
            priority: self.priority,
            transfer_id: self.piece.tail.transfer_id,
        })
    }
}

impl Receiver {
    /// A receiver with no sessions; none if 13 refuses the setup.
    pub fn setup(own: u32, subscriptions: Vec<Subscription>) -> Option<Receiver> {
        if own > LARGEST_NODE || !allowed(&subscriptions) {
            return None;
        }
        Some(Receiver {
            own: own as u8,
            subscriptions,
            places: vec![None; PLACES],
        })
    }

    /// Receives one frame, with `room` bytes to hand a payload out into.
    pub fn receive(&mut self, frame: &Frame, room: usize) -> Answer {
        let head = match self.check(frame, room) {
            Ok(head) => head,
            Err(refusal) => return refusal,
        };
        if head.stream.is_anonymous() {
            return head.hand_out(head.piece.payload.to_vec());
        }
        match self.place_for(&head) {
            Ok(place) => match self.accept(place, &head.piece) {
                Step::Taken => Answer::Taken,
                Step::Closed(payload) => head.hand_out(payload),
                Step::PassedOver(reason) => Answer::PassedOver(reason),
                Step::TooLong => Answer::PayloadTooLong,
                Step::NoBlock => Answer::NoBlock,
                Step::ChecksumDiffers => Answer::ChecksumDiffers,
            },
            Err(refusal) => refusal,
        }
    }

    /// The frame checks 2, 3, 19 and 4 to 8, in that order.
    fn check<'a>(&self, frame: &Frame<'a>, room: usize) -> Result<Head<'a>, Answer> {
        if frame.id >= ID_END {
            return Err(Answer::IdTooLarge);
        }
        if frame.data.is_empty() || frame.data.len() > LONGEST_FRAME {
            return Err(Answer::DataLength);
        }
        if frame.interface >= u32::from(INTERFACES) {
            return Err(Answer::NoInterface);
        }
        let stream = Stream::of_id(frame.id);
        let service = stream.transfer_type.is_service();
        if service && (stream.source == 0 || stream.destination == 0) {
            return Err(Answer::UnnamedService);
        }
        let (&last, payload) = frame.data.split_last().expect("checked for 3");
        let tail = Tail::of_byte(last);
        if !well_shaped(tail, payload.len(), stream.is_anonymous()) {
            return Err(Answer::TailShape);
        }
        if service && stream.destination != self.own {
            return Err(Answer::OtherNode);
        }
        let signature = self.signature(&stream).ok_or(Answer::NoSubscription)?;
        if room < LONGEST_PAYLOAD {
            return Err(Answer::OutputTooSmall);
        }
        Ok(Head {
            stream,
            priority: priority_of(frame.id),
            piece: Piece {
                tail,
                payload,
                interface: frame.interface as u8,
                time: frame.time,
                signature,
            },
        })
    }

    /// The signature subscribed to for a stream; request and response share one.
    pub fn signature(&self, stream: &Stream) -> Option<u64> {
        let service = stream.transfer_type.is_service();
        self.subscriptions
            .iter()
            .find(|one| one.service == service && one.type_id == stream.type_id)
            .map(|one| one.signature)
    }

    /// The place of the stream's session, made if the frame is a start and a place is to be had.
    fn place_for(&mut self, head: &Head) -> Result<usize, Answer> {
        let (stream, piece) = (head.stream, &head.piece);
        match self.place_of(&stream) {
            Some(place) => Ok(place),
            None if !piece.tail.start => Err(Answer::PassedOver(Reason::NoTransfer)),
            None => {
                let place = self.free_place(piece.time).ok_or(Answer::TableFull)?;
                let transfer_id = piece.tail.transfer_id;
                let session = Session::new(stream, transfer_id, piece.interface, piece.time);
                self.places[place] = Some(session);
                Ok(place)
            }
        }
    }

    /// What the session in a place makes of a frame of its stream.
    fn accept(&mut self, place: usize, piece: &Piece) -> Step {
        let session = self.session(place);
        if let Some(reason) = session.meet(piece) {
            return Step::PassedOver(reason);
        }
        if piece.tail.start {
            session.time = piece.time;
        }
        let count = session.gathered.len() + piece.payload.len();
        if count > MOST_GATHERED {
            session.end();
            return Step::TooLong;
        }
        if !piece.tail.is_single() && !self.provide(place, blocks::needed(count), piece.time) {
            self.session(place).end();
            return Step::NoBlock;
        }
        self.session(place).add(piece)
    }

    /// Gives the session in a place so many blocks in all; false if they are not to be had.
    fn provide(&mut self, place: usize, needed: usize, time: u64) -> bool {
        while self.session(place).blocks.len() < needed {
            match blocks::take(&mut self.places, time) {
                Some(block) => self.session(place).blocks.push(block),
                None => return false,
            }
        }
        true
    }

    fn session(&mut self, place: usize) -> &mut Session {
        self.places[place].as_mut().expect("a place in use")
    }

    pub fn place_of(&self, stream: &Stream) -> Option<usize> {
        let holds = |place: &Option<Session>| matches!(place, Some(one) if one.stream == *stream);
        self.places.iter().position(holds)
    }

    /// The lowest empty place, else the lowest old session's.
    pub fn free_place(&self, time: u64) -> Option<usize> {
        let old = |place: &Option<Session>| matches!(place, Some(one) if one.is_old(time));
        let empty = self.places.iter().position(Option::is_none);
        empty.or_else(|| self.places.iter().position(old))
    }
}

/// What 5 refuses, the other way round; `payload` counts the bytes before the tail.
pub fn well_shaped(tail: Tail, payload: usize, anonymous: bool) -> bool {
    !(tail.start && tail.toggle)
        && !(anonymous && !(tail.start && tail.end))
        && (tail.end || payload == FRAME_PAYLOAD)
        && !(tail.end && !tail.start && payload == 0)
}

fn allowed(subscriptions: &[Subscription]) -> bool {
    subscriptions.len() <= MOST_SUBSCRIPTIONS && all_differ(subscriptions)
}

/// No kind and type twice.
pub fn all_differ(subscriptions: &[Subscription]) -> bool {
    subscriptions.iter().enumerate().all(|(index, one)| {
        subscriptions[..index]
            .iter()
            .all(|other| !one.same_type(other))
    })
}
