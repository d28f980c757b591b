//! Names for what a frame met in the receiver, so that the counts show which rules were driven.

use crate::traffic::Call;
use reference::frame::{forward_distance, Stream, Tail, ID_END, TRANSFER_IDS};
use reference::receive::{Answer, Receiver, LONGEST_PAYLOAD};
use reference::session::{Piece, Reason, Restart, Session, FAR_AHEAD, SWITCH_DELAY, TIMEOUT};

pub const CASES: [&str; 70] = [
    "0: new session in an empty place",
    "0: new session in an old one's place",
    "0: old session restarted by a start",
    "0: session with bytes in hand restarted by a start",
    "0: start of the expected transfer",
    "0: start out of order, nothing in hand",
    "0: later frame",
    "1: anonymous",
    "1: anonymous, not by interface 0",
    "1: single frame, new session in an empty place",
    "1: single frame, new session in an old one's place",
    "1: single frame, session there",
    "1: several frames",
    "1: several frames, 512 bytes",
    "1: several frames, no payload",
    "1: transfer ID 31, 0 expected next",
    "4: source 0",
    "4: destination 0",
    "5: start with toggle 1",
    "5: anonymous, not both start and end",
    "5: not an end, fewer than 8 bytes",
    "5: end without start, only the tail",
    "6: no own ID",
    "6: other node",
    "8: none lent",
    "8: 511 lent",
    "9: oldest session of age 2,000,000",
    "9: all sessions younger",
    "11: at an end",
    "11: before an end",
    "12: checksum differs",
    "19: interface 3",
    "19: interface over 3",
    "19: service with source or destination 0",
    "30: no session",
    "30: old session",
    "30: old session, another interface",
    "30: nothing in hand, expected ID",
    "30: nothing in hand, another ID",
    "31: not an end",
    "31: an end",
    "32: start, nothing in hand",
    "32: start, bytes in hand",
    "32: no start, right toggle",
    "32: no start, wrong toggle",
    "33: toggle 0 in hand",
    "33: toggle 1 in hand",
    "33: single frame",
    "34: start, expected ID, nothing in hand",
    "34: start, expected ID, bytes in hand",
    "34: start, another ID",
    "34: no start, all else fits",
    "34: no start, nothing in hand",
    "34: no start, another ID or toggle",
    "restart: old",
    "restart: out of order by the followed interface",
    "restart: after the delay, by the followed interface",
    "switch: old",
    "switch: after the delay",
    "switch: age 1,000,001",
    "switch: 15 ahead",
    "no switch: age exactly 1,000,000",
    "no switch: 16 ahead",
    "no switch: 17 ahead",
    "no switch: one behind, after the delay",
    "new session in the place of one of age 2,000,001",
    "age exactly 2,000,000",
    "age 2,000,001",
    "earlier than its session",
    "start taken earlier than its session",
];

/// The frame, and what it finds; taken down before it is received.
pub struct Found {
    stream: Stream,
    tail: Tail,
    payload: usize,
    room: usize,
    interface: u32,
    named: bool,
    session: Option<Seen>,
    empty_place: bool,
    /// The greatest age in the table.
    oldest: u64,
}

struct Seen {
    age: Option<u64>,
    in_hand: usize,
    toggle: bool,
    expected_id: u8,
    follows: u32,
    restart: Option<Restart>,
}

impl Found {
    pub fn new(receiver: &Receiver, call: &Call) -> Found {
        let stream = Stream::of_id(call.id % ID_END);
        let tail = Tail::of_byte(call.data.last().copied().unwrap_or(0));
        let piece = Piece {
            tail,
            payload: &[],
            interface: call.interface as u8,
            time: call.time,
            signature: 0,
        };
        let place = receiver.place_of(&stream);
        let session = place.and_then(|place| receiver.places[place].as_ref());
        Found {
            stream,
            tail,
            payload: call.data.len().saturating_sub(1),
            room: call.room,
            interface: call.interface,
            named: receiver.own != 0,
            session: session.map(|session| Seen::new(session, &piece)),
            empty_place: receiver.places.iter().any(Option::is_none),
            oldest: oldest_age(receiver, call.time),
        }
    }

    /// The cases that a frame with this answer belongs to.
    pub fn cases(&self, answer: &Answer) -> Vec<&'static str> {
        let mut cases = vec![self.case(answer)];
        if let (Answer::HandedOut(transfer), Some(_)) = (answer, &self.session) {
            if transfer.transfer_id == TRANSFER_IDS - 1 {
                cases.push("1: transfer ID 31, 0 expected next");
            }
        }
        if let (true, Some(seen)) = (past_the_checks(answer), &self.session) {
            cases.push(self.restart_case(seen));
            cases.extend(self.switch_cases(seen));
        }
        if past_the_checks(answer) {
            cases.push(self.age_case(answer));
        }
        let service = self.stream.transfer_type.is_service();
        let unnamed = self.stream.source == 0 || self.stream.destination == 0;
        if *answer == Answer::NoInterface && service && unnamed {
            cases.push("19: service with source or destination 0");
        }
        cases.retain(|case| !case.is_empty());
        cases
    }

    fn case(&self, answer: &Answer) -> &'static str {
        match answer {
            Answer::Taken => self.taken(),
            Answer::HandedOut(transfer) => self.handed_out(transfer.payload.len()),
            Answer::UnnamedService if self.stream.source == 0 => "4: source 0",
            Answer::UnnamedService => "4: destination 0",
            Answer::TailShape => self.shape(),
            Answer::OtherNode if self.named => "6: other node",
            Answer::OtherNode => "6: no own ID",
            Answer::OutputTooSmall if self.room == 0 => "8: none lent",
            Answer::OutputTooSmall if self.room == 511 => "8: 511 lent",
            Answer::TableFull if self.oldest == TIMEOUT => "9: oldest session of age 2,000,000",
            Answer::TableFull => "9: all sessions younger",
            Answer::PassedOver(reason) => self.passed_over(*reason),
            Answer::PayloadTooLong if self.tail.end => "11: at an end",
            Answer::PayloadTooLong => "11: before an end",
            Answer::ChecksumDiffers => "12: checksum differs",
            Answer::NoInterface if self.interface == 3 => "19: interface 3",
            Answer::NoInterface => "19: interface over 3",
            _ => "",
        }
    }

    fn taken(&self) -> &'static str {
        match &self.session {
            None if self.empty_place => "0: new session in an empty place",
            None => "0: new session in an old one's place",
            Some(_) if !self.tail.start => "0: later frame",
            Some(seen) if seen.is_old() => "0: old session restarted by a start",
            Some(seen) if seen.in_hand > 0 => "0: session with bytes in hand restarted by a start",
            Some(seen) if seen.expected_id == self.tail.transfer_id => {
                "0: start of the expected transfer"
            }
            Some(_) => "0: start out of order, nothing in hand",
        }
    }

    fn handed_out(&self, length: usize) -> &'static str {
        match &self.session {
            _ if self.stream.is_anonymous() && self.interface == 0 => "1: anonymous",
            _ if self.stream.is_anonymous() => "1: anonymous, not by interface 0",
            _ if !self.tail.start && length == LONGEST_PAYLOAD => "1: several frames, 512 bytes",
            _ if !self.tail.start && length == 0 => "1: several frames, no payload",
            _ if !self.tail.start => "1: several frames",
            Some(_) => "1: single frame, session there",
            None if self.empty_place => "1: single frame, new session in an empty place",
            None => "1: single frame, new session in an old one's place",
        }
    }

    fn shape(&self) -> &'static str {
        if self.tail.start && self.tail.toggle {
            "5: start with toggle 1"
        } else if self.stream.is_anonymous() && !(self.tail.start && self.tail.end) {
            "5: anonymous, not both start and end"
        } else if !self.tail.end && self.payload < 7 {
            "5: not an end, fewer than 8 bytes"
        } else {
            "5: end without start, only the tail"
        }
    }

    /// Which of a reason's cases, those apart in which a later reason applies as well.
    fn passed_over(&self, reason: Reason) -> &'static str {
        let Some(seen) = &self.session else {
            return "30: no session";
        };
        let (start, in_hand) = (self.tail.start, seen.in_hand > 0);
        let id_fits = seen.expected_id == self.tail.transfer_id;
        let toggle_fits = seen.toggle == self.tail.toggle;
        match reason {
            Reason::NoTransfer => self.without_transfer(seen, id_fits),
            Reason::WrongToggle if self.tail.end => "31: an end",
            Reason::WrongToggle => "31: not an end",
            Reason::WrongTransfer if start && in_hand => "32: start, bytes in hand",
            Reason::WrongTransfer if start => "32: start, nothing in hand",
            Reason::WrongTransfer if toggle_fits => "32: no start, right toggle",
            Reason::WrongTransfer => "32: no start, wrong toggle",
            Reason::RepeatedStart if self.tail.end => "33: single frame",
            Reason::RepeatedStart if seen.toggle => "33: toggle 1 in hand",
            Reason::RepeatedStart => "33: toggle 0 in hand",
            Reason::OtherInterface if start && !id_fits => "34: start, another ID",
            Reason::OtherInterface if start && in_hand => "34: start, expected ID, bytes in hand",
            Reason::OtherInterface if start => "34: start, expected ID, nothing in hand",
            Reason::OtherInterface if !in_hand => "34: no start, nothing in hand",
            Reason::OtherInterface if id_fits && toggle_fits => "34: no start, all else fits",
            Reason::OtherInterface => "34: no start, another ID or toggle",
        }
    }

    fn without_transfer(&self, seen: &Seen, id_fits: bool) -> &'static str {
        match (seen.is_old(), id_fits) {
            (true, _) if seen.follows != self.interface => "30: old session, another interface",
            (true, _) => "30: old session",
            (false, true) => "30: nothing in hand, expected ID",
            (false, false) => "30: nothing in hand, another ID",
        }
    }

    /// The term of the restart rule that applies.
    fn restart_case(&self, seen: &Seen) -> &'static str {
        match (seen.restart, seen.follows == self.interface) {
            (Some(Restart::Old), true) => "restart: old",
            (Some(Restart::Old), false) => "switch: old",
            (Some(Restart::OutOfOrder), _) => "restart: out of order by the followed interface",
            (Some(Restart::AfterDelay), true) => {
                "restart: after the delay, by the followed interface"
            }
            (Some(Restart::AfterDelay), false) => "switch: after the delay",
            (None, _) => "",
        }
    }

    /// The edges of a start by another interface that finds a session not old.
    fn switch_cases(&self, seen: &Seen) -> [&'static str; 2] {
        const BEHIND: u8 = TRANSFER_IDS - 1;
        const CLOSE: u8 = FAR_AHEAD - 1;
        const FARTHER: u8 = FAR_AHEAD + 1;
        let age = seen.age.unwrap_or(0);
        let ahead = forward_distance(seen.expected_id, self.tail.transfer_id);
        if seen.follows == self.interface || !self.tail.start || seen.is_old() {
            return ["", ""];
        }
        [
            match age {
                SWITCH_DELAY if ahead < FAR_AHEAD => "no switch: age exactly 1,000,000",
                age if age == SWITCH_DELAY + 1 && ahead < FAR_AHEAD => "switch: age 1,000,001",
                _ => "",
            },
            match ahead {
                _ if age <= SWITCH_DELAY => "",
                CLOSE => "switch: 15 ahead",
                FAR_AHEAD => "no switch: 16 ahead",
                FARTHER => "no switch: 17 ahead",
                BEHIND => "no switch: one behind, after the delay",
                _ => "",
            },
        ]
    }

    fn age_case(&self, answer: &Answer) -> &'static str {
        let taken = matches!(answer.number(), 0 | 1);
        match self.session.as_ref().map(|seen| seen.age) {
            Some(Some(age)) if age == TIMEOUT => "age exactly 2,000,000",
            Some(Some(age)) if age == TIMEOUT + 1 => "age 2,000,001",
            Some(None) if taken && self.tail.start => "start taken earlier than its session",
            Some(None) => "earlier than its session",
            None if taken && !self.empty_place && self.oldest == TIMEOUT + 1 => {
                "new session in the place of one of age 2,000,001"
            }
            _ => "",
        }
    }
}

/// Whether the frame came to the session rules.
fn past_the_checks(answer: &Answer) -> bool {
    matches!(answer.number(), 0 | 1 | 11 | 12 | 26 | 30..=34)
}

fn oldest_age(receiver: &Receiver, time: u64) -> u64 {
    let sessions = receiver.places.iter().flatten();
    let ages = sessions.map(|session| time.saturating_sub(session.time));
    ages.max().unwrap_or(0)
}

impl Seen {
    fn new(session: &Session, piece: &Piece) -> Seen {
        Seen {
            age: piece.time.checked_sub(session.time),
            in_hand: session.gathered.len(),
            toggle: session.toggle,
            expected_id: session.expected_id,
            follows: session.follows.into(),
            restart: session.restart(piece),
        }
    }

    fn is_old(&self) -> bool {
        self.age.is_some_and(|age| age > TIMEOUT)
    }
}
