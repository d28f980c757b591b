//! A frame's parts: the stream and priority in its ID, and the tail byte (RULES 2).

/// IDs have 29 bits.
pub const ID_END: u32 = 1 << 29;
/// Data bytes of a frame, the tail included.
pub const LONGEST_FRAME: usize = 8;
/// Payload bytes in a frame.
pub const FRAME_PAYLOAD: usize = LONGEST_FRAME - 1;
pub const LARGEST_PRIORITY: u32 = 31;
/// Two bits of an anonymous message's ID are its type.
pub const LARGEST_ANONYMOUS_TYPE: u32 = 3;
/// Transfer IDs go from 0 to one less than this, and then from 0 again.
pub const TRANSFER_IDS: u8 = 32;

#[derive(Clone, Copy, Debug, PartialEq, Eq)]
pub enum TransferType {
    Message,
    Request,
    Response,
}

impl TransferType {
    pub fn number(self) -> u32 {
        match self {
            TransferType::Message => 0,
            TransferType::Request => 1,
            TransferType::Response => 2,
        }
    }

    pub fn of_number(number: u32) -> Option<TransferType> {
        match number {
            0 => Some(TransferType::Message),
            1 => Some(TransferType::Request),
            2 => Some(TransferType::Response),
            _ => None,
        }
    }

    pub fn is_service(self) -> bool {
        self != TransferType::Message
    }
}

/// The largest type ID of messages or of services.
pub fn largest_type(service: bool) -> u32 {
    if service {
        255
    } else {
        65535
    }
}

/// A transfer descriptor: frames with equal ones belong together, whatever their priority.
#[derive(Clone, Copy, Debug, PartialEq, Eq)]
pub struct Stream {
    pub transfer_type: TransferType,
    pub type_id: u16,
    pub source: u8,
    pub destination: u8,
}

impl Stream {
    /// The stream that a 29-bit ID names. Source 0 leaves a message two bits of type.
    pub fn of_id(id: u32) -> Stream {
        let source = (id & 127) as u8;
        if id & 128 != 0 {
            return Stream {
                transfer_type: if id & 1 << 15 != 0 {
                    TransferType::Request
                } else {
                    TransferType::Response
                },
                type_id: (id >> 16 & 255) as u16,
                source,
                destination: (id >> 8 & 127) as u8,
            };
        }
        Stream {
            transfer_type: TransferType::Message,
            type_id: (id >> 8 & largest_message(source)) as u16,
            source,
            destination: 0,
        }
    }

    /// The ID of this stream's frames; only an anonymous one carries the discriminator.
    pub fn id(&self, priority: u8, discriminator: u16) -> u32 {
        let type_id = u32::from(self.type_id);
        let middle = match self.transfer_type {
            TransferType::Message if self.source == 0 => {
                u32::from(discriminator) << 10 | type_id << 8
            }
            TransferType::Message => type_id << 8,
            TransferType::Request => type_id << 16 | 1 << 15 | self.service_bits(),
            TransferType::Response => type_id << 16 | self.service_bits(),
        };
        u32::from(priority) << 24 | middle | u32::from(self.source)
    }

    fn service_bits(&self) -> u32 {
        u32::from(self.destination) << 8 | 128
    }

    pub fn is_anonymous(&self) -> bool {
        !self.transfer_type.is_service() && self.source == 0
    }
}

/// The largest type of messages from a source.
fn largest_message(source: u8) -> u32 {
    if source == 0 {
        LARGEST_ANONYMOUS_TYPE
    } else {
        largest_type(false)
    }
}

pub fn priority_of(id: u32) -> u8 {
    (id >> 24 & LARGEST_PRIORITY) as u8
}

/// The last data byte.
#[derive(Clone, Copy, Debug, PartialEq, Eq)]
pub struct Tail {
    pub start: bool,
    pub end: bool,
    pub toggle: bool,
    pub transfer_id: u8,
}

impl Tail {
    pub fn of_byte(byte: u8) -> Tail {
        Tail {
            start: byte & 128 != 0,
            end: byte & 64 != 0,
            toggle: byte & 32 != 0,
            transfer_id: byte % TRANSFER_IDS,
        }
    }

    /// Whether the frame is a transfer of its own.
    pub fn is_single(&self) -> bool {
        self.start && self.end
    }

    pub fn byte(&self) -> u8 {
        u8::from(self.start) << 7
            | u8::from(self.end) << 6
            | u8::from(self.toggle) << 5
            | self.transfer_id
    }
}

/// The transfer ID after this one: 31 goes back to 0.
pub fn next_transfer_id(transfer_id: u8) -> u8 {
    (transfer_id + 1) % TRANSFER_IDS
}

/// How many times `a` must rise to reach `b` (RULES 4.4).
pub fn forward_distance(a: u8, b: u8) -> u8 {
    (b + TRANSFER_IDS - a) % TRANSFER_IDS
}
