//! Frames, and the streams that their IDs name (RULES 2).

use crate::library::header::STAMPED_SIZE;

#[derive(Clone, Copy, Debug, PartialEq, Eq)]
pub struct Frame {
    /// Microseconds.
    pub time: u64,
    pub id: u32,
    /// 0 to 2; the receiver answers 19 to any other.
    pub interface: u32,
    pub length: u8,
    pub bytes: [u8; 8],
}

impl Frame {
    pub fn data(&self) -> &[u8] {
        &self.bytes[..usize::from(self.length)]
    }

    /// Of a record of a capture (RULES 18.1) whose length is at most 8.
    pub fn of_record(record: &[u8]) -> Frame {
        debug_assert_eq!(record.len(), STAMPED_SIZE);
        Frame {
            time: u64::from_le_bytes(record[..8].try_into().expect("8 bytes")),
            id: u32::from_le_bytes(record[8..12].try_into().expect("4 bytes")),
            interface: 0,
            length: record[12].min(8),
            bytes: record[13..].try_into().expect("8 bytes"),
        }
    }

    /// Its stream; none if the ID has more than 29 bits.
    pub fn stream(&self) -> Option<Stream> {
        (self.id < 1 << 29).then(|| Stream::of_id(self.id))
    }
}

#[derive(Clone, Copy, Debug, PartialEq, Eq, Hash, PartialOrd, Ord)]
pub enum TransferType {
    Message,
    Request,
    Response,
}

impl TransferType {
    /// Of a result word.
    pub fn of_number(number: u32) -> TransferType {
        match number {
            0 => TransferType::Message,
            1 => TransferType::Request,
            _ => TransferType::Response,
        }
    }

    pub fn is_service(self) -> bool {
        self != TransferType::Message
    }

    pub fn name(self) -> &'static str {
        match self {
            TransferType::Message => "message",
            TransferType::Request => "request",
            TransferType::Response => "response",
        }
    }
}

#[derive(Clone, Copy, Debug, PartialEq, Eq, Hash, PartialOrd, Ord)]
pub struct Stream {
    pub transfer_type: TransferType,
    pub type_id: u16,
    pub source: u8,
    /// 0 of a message.
    pub destination: u8,
}

impl Stream {
    /// RULES 2.4.
    pub fn of_id(id: u32) -> Stream {
        let source = (id & 127) as u8;
        let service = id & 128 != 0;
        if service {
            let request = id & 1 << 15 != 0;
            return Stream {
                transfer_type: if request {
                    TransferType::Request
                } else {
                    TransferType::Response
                },
                type_id: (id >> 16 & 255) as u16,
                source,
                destination: (id >> 8 & 127) as u8,
            };
        }
        let type_bits = if source == 0 { 3 } else { 65535 };
        Stream {
            transfer_type: TransferType::Message,
            type_id: (id >> 8 & type_bits) as u16,
            source,
            destination: 0,
        }
    }
}
