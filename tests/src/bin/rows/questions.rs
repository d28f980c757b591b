//! Payloads, whole and damaged, and rows with numbers at the edges of their fields.

use crate::random::Random;
use crate::MOST_ROOM;
use reference::codec::type_name;
use reference::messages::MessageType;
use reference::rows;

/// To read, if there is a payload, or to write.
pub struct Question {
    pub message_type: MessageType,
    pub payload: Option<Vec<u8>>,
    pub places: usize,
    pub row: Vec<u64>,
    pub lists: Vec<Vec<u8>>,
    pub room: usize,
}

/// What a number of a row is.
#[derive(Clone, Copy)]
enum Kind {
    /// unsigned, of so many bits
    Count(u32),
    Signed(u32),
    Float,
    /// of so many cases; the number of the case comes after it
    Tag(u64),
    /// not looked at in writing
    Ignored,
}

use Kind::{Count, Float, Ignored, Signed, Tag};

/// The numbers of a row (RULES 10, 13.5), those that repeat by their number.
fn kinds(message_type: MessageType) -> Vec<Kind> {
    let status = [Count(32), Count(2), Count(3), Ignored, Count(16)];
    let value = [Tag(5), Signed(64), Ignored, Ignored];
    let list = [Ignored, Ignored];
    match message_type {
        MessageType::NodeStatus => status.to_vec(),
        MessageType::NodeInfoRequest => vec![],
        MessageType::NodeInfoResponse => {
            let software = [Count(8), Count(8), Count(8), Count(32), Count(64)];
            let hardware = [Count(8), Count(8)];
            [&status[..], &software, &hardware, &list, &list, &list].concat()
        }
        MessageType::Allocation => [&[Count(7), Count(1)][..], &list].concat(),
        MessageType::KeyValue => [&[Float][..], &list].concat(),
        MessageType::LogMessage => [&[Count(3)][..], &list, &list].concat(),
        MessageType::BatteryInfo => {
            let others = [Count(11), Count(7), Count(7), Count(7), Count(8), Count(32)];
            [&[Float; 7][..], &others, &list].concat()
        }
        // the count has a rule of its own
        MessageType::RawCommand => [&[Ignored][..], &[Signed(14); 20]].concat(),
        MessageType::GetSetRequest => [&[Count(13)][..], &value, &list].concat(),
        MessageType::GetSetResponse => {
            let number = [Tag(3), Signed(64)];
            [&value[..], &value, &number, &number, &list].concat()
        }
        MessageType::OpcodeRequest => vec![Count(8), Signed(48)],
        MessageType::OpcodeResponse => vec![Signed(48), Count(1)],
    }
}

/// The longest lists.
fn longest(message_type: MessageType) -> &'static [usize] {
    match message_type {
        MessageType::NodeInfoResponse => &[16, 255, 80],
        MessageType::Allocation => &[16],
        MessageType::KeyValue => &[58],
        MessageType::LogMessage => &[31, 90],
        MessageType::BatteryInfo => &[31],
        MessageType::GetSetRequest => &[128, 92],
        MessageType::GetSetResponse => &[128, 128, 92],
        _ => &[],
    }
}

/// Every answer that there is, by way and type.
pub fn answers() -> Vec<(&'static str, &'static str, u32)> {
    let mut all = Vec::new();
    for message_type in MessageType::ALL {
        let reads: &[u32] = match message_type {
            MessageType::NodeInfoRequest => &[0, 16],
            MessageType::NodeInfoResponse => &[0, 8, 15, 16, 17],
            MessageType::RawCommand => &[0, 8, 16, 25],
            MessageType::GetSetRequest | MessageType::GetSetResponse => &[0, 8, 15, 16, 27],
            MessageType::OpcodeResponse => &[0, 8, 15, 16, 25],
            _ => &[0, 8, 15, 16],
        };
        let writes: &[u32] = match message_type {
            MessageType::NodeInfoRequest => &[0],
            MessageType::GetSetRequest | MessageType::GetSetResponse => &[0, 8, 15, 17, 27],
            MessageType::NodeStatus | MessageType::OpcodeRequest | MessageType::OpcodeResponse => {
                &[0, 8, 15]
            }
            _ => &[0, 8, 15, 17],
        };
        let name = type_name(message_type);
        all.extend(reads.iter().map(|&number| ("read", name, number)));
        all.extend(writes.iter().map(|&number| ("write", name, number)));
    }
    all
}

pub struct Questions {
    random: Random,
}

impl Questions {
    pub fn new(seed: u64) -> Questions {
        Questions {
            random: Random::new(seed),
        }
    }

    /// The types take turns; of each, payloads are cut at every length in turn.
    pub fn reading(&mut self, call: u64) -> Question {
        let message_type = MessageType::ALL[(call % 12) as usize];
        let mut payload = self.message(message_type);
        let turn = (call / 12) as usize;
        match turn % 8 {
            0..3 => (),
            3 | 4 => payload.truncate(turn / 8 % (payload.len() + 1)),
            5 => {
                let more = self.random.pick(&[1, 2, 3, 40, 90]);
                payload.extend(self.random.bytes(more));
            }
            6 => self.damage(&mut payload),
            _ => {
                let length = self.random.between(0, 60) as usize;
                payload = self.random.bytes(length);
            }
        }
        let numbers = rows::numbers(message_type);
        let places = match self.random.below(12) {
            0 => self.random.index(numbers + 1),
            1..4 => numbers + self.random.index(4),
            _ => numbers,
        };
        Question {
            message_type,
            payload: Some(payload),
            places,
            row: vec![],
            lists: vec![],
            room: 0,
        }
    }

    /// A payload that is read, or nearly.
    fn message(&mut self, message_type: MessageType) -> Vec<u8> {
        let (row, lists) = (self.row(message_type, 9), self.lists(message_type, 9));
        let parts: Vec<&[u8]> = lists.iter().map(Vec::as_slice).collect();
        let mut out = [0; MOST_ROOM];
        match rows::encode(message_type, &row, &parts, &mut out) {
            Ok(length) => out[..length].to_vec(),
            Err(_) => self.message(message_type),
        }
    }

    /// A bit or a byte, often in front, where lengths and tags are.
    fn damage(&mut self, payload: &mut [u8]) {
        if payload.is_empty() {
            return;
        }
        let at = match self.random.below(3) {
            0 => self.random.index(payload.len().min(3)),
            1 => payload.len() - 1,
            _ => self.random.index(payload.len()),
        };
        payload[at] ^= if self.random.coin() {
            1 << self.random.index(8)
        } else {
            self.random.byte() | 1
        };
    }

    pub fn writing(&mut self, call: u64) -> Question {
        let message_type = MessageType::ALL[(call % 12) as usize];
        let usual = self.random.pick(&[1, 3, 9]);
        let mut row = self.row(message_type, usual);
        let lists = self.lists(message_type, usual);
        match self.random.below(16) {
            0 => row.truncate(self.random.index(row.len() + 1)),
            1 | 2 => {
                let more = self.random.between(1, 3);
                row.extend((0..more).map(|_| self.random.next()));
            }
            _ => (),
        }
        let parts: Vec<&[u8]> = lists.iter().map(Vec::as_slice).collect();
        let length = rows::encode(message_type, &row, &parts, &mut [0; MOST_ROOM]).unwrap_or(0);
        let room = match self.random.below(8) {
            0 => self.random.index(length + 1),
            1 => length.saturating_sub(1),
            2 | 3 => length,
            4 => length + 1,
            _ => MOST_ROOM - self.random.index(80),
        };
        Question {
            message_type,
            payload: None,
            places: 0,
            row,
            lists,
            room,
        }
    }

    /// `usual` is how often a number is one that its field holds, in ten.
    fn row(&mut self, message_type: MessageType, usual: u64) -> Vec<u64> {
        let mut tag = None;
        let kinds = kinds(message_type);
        let mut row: Vec<u64> = Vec::with_capacity(kinds.len());
        for kind in kinds {
            let fits = self.random.below(10) < usual;
            let number = match (kind, tag.take()) {
                (Tag(cases), _) => {
                    let number = if fits {
                        self.random.below(cases)
                    } else {
                        self.tag(cases)
                    };
                    tag = Some(number);
                    number
                }
                (_, Some(tag)) => self.case(tag, fits),
                (Count(bits), _) if fits => self.random.next() >> (64 - bits),
                (Count(bits), _) => self.edge(bits, 0),
                (Signed(bits), _) if fits => ((self.random.next() as i64) >> (64 - bits)) as u64,
                (Signed(bits), _) => self.edge(bits - 1, 1),
                (Float, _) => self.float(fits),
                (Ignored, _) => self.random.next() >> self.random.below(64),
            };
            row.push(number);
        }
        if message_type == MessageType::RawCommand {
            row[0] = match self.random.below(10) < usual {
                true => self.random.below(21),
                false => self.random.pick(&[20, 21, 22, 1 << 32, 1 << 63, u64::MAX]),
            };
        }
        row
    }

    /// What is given for the case of that tag. With another tag it must not matter.
    fn case(&mut self, tag: u64, fits: bool) -> u64 {
        match tag {
            1 => self.random.next(),
            2 => self.float(fits),
            3 if fits => self.random.byte().into(),
            3 => self.edge(8, 0),
            _ => self.random.pick(&[0, 1 << 32, u64::MAX]),
        }
    }

    /// Around the ends of a field of so many bits, below zero too if it has a sign.
    fn edge(&mut self, bits: u32, sign: u32) -> u64 {
        let end = 1u64.checked_shl(bits).unwrap_or(0);
        let near = [
            0,
            1,
            end.wrapping_sub(2),
            end.wrapping_sub(1),
            end,
            end.wrapping_add(1),
        ];
        let far = [
            1 << 31,
            u64::from(u32::MAX),
            1 << 32,
            (1 << 63) - 1,
            1 << 63,
            (1 << 63) + 1,
            u64::MAX - 1,
            u64::MAX,
        ];
        let number = match self.random.below(3) {
            0 => self.random.pick(&far),
            1 => self.random.next() >> self.random.below(64),
            _ => self.random.pick(&near),
        };
        if sign == 1 && self.random.coin() {
            return number.wrapping_neg();
        }
        number
    }

    fn tag(&mut self, cases: u64) -> u64 {
        self.random.pick(&[
            cases,
            cases + 1,
            3,
            4,
            5,
            7,
            8,
            256,
            (1 << 32) + 1,
            1 << 63,
            u64::MAX,
        ])
    }

    /// Everyday floats, all patterns, NaNs of every sort; more than 32 bits if it is not to fit.
    fn float(&mut self, fits: bool) -> u64 {
        let pattern = match self.random.below(6) {
            0 => self.random.next() as u32,
            1 => self.random.pick(&[
                0,
                1 << 31,
                0x7F80_0000,
                0xFF80_0000,
                0x7FC0_0000,
                0x7F80_0001,
                0xFFFF_FFFF,
            ]),
            2 => {
                (self.random.next() as u32 | 0x7F80_0000)
                    & if self.random.coin() {
                        u32::MAX
                    } else {
                        0x7FBF_FFFF
                    }
            }
            3 => {
                (0x3300_0000 + self.random.below(0x1480_0000) as u32) & 0xFFFF_F000
                    | self.random.pick(&[0, 1, 0xFFF])
            }
            _ => (self.random.below(2_000_000) as f32 / 1000.0 - 700.0).to_bits(),
        };
        let number = u64::from(pattern);
        if fits || self.random.coin() {
            return number;
        }
        number | 1 << self.random.between(32, 63)
    }

    fn lists(&mut self, message_type: MessageType, usual: u64) -> Vec<Vec<u8>> {
        let info = message_type == MessageType::NodeInfoResponse;
        let longest = longest(message_type).iter().enumerate();
        longest
            .map(|(at, &most)| self.list(most, info && at == 0, info && at == 2, usual))
            .collect()
    }

    /// A list of at most so many bytes, of just so many if it is fixed, or a node name.
    fn list(&mut self, most: usize, fixed: bool, name: bool, usual: u64) -> Vec<u8> {
        let fits = self.random.below(10) < usual;
        let some = self.random.index(most + 1);
        let length = match (fits, fixed, name) {
            (true, true, _) => most,
            (true, _, true) => some.max(1),
            (true, _, _) => self.random.pick(&[0, most, some, some]),
            (false, _, _) => self
                .random
                .pick(&[0, 1, most - 1, most, most + 1, most + 20]),
        };
        if name && (fits || self.random.coin()) {
            return self.name(length);
        }
        self.random.bytes(length)
    }

    fn name(&mut self, length: usize) -> Vec<u8> {
        let letters = b"abcdefghijklmnopqrstuvwxyz0123456789.-_";
        let mut name: Vec<u8> = (0..length).map(|_| self.random.pick(letters)).collect();
        if length > 0 && self.random.once_in(12) {
            name[self.random.index(length)] = self.random.pick(b"A /:`{^,\0\xFF");
        }
        name
    }
}
