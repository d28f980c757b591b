//! The proved library, dist/tecelume.c, through its entries for callers in other languages.

use crate::frame::{Frame, Stream, TransferType};

pub mod header {
    //! Version, sizes and sentences of dist/tecelume.h.
    include!(concat!(env!("OUT_DIR"), "/header.rs"));
}

use header::*;

/// The numbers that this program looks at; the header names them all.
pub const SUCCESS: u32 = 0;
pub const TAKEN: u32 = 0;
pub const HANDED_OUT: u32 = 1;
pub const OTHER_NODE: u32 = 6;
pub const NO_SUBSCRIPTION: u32 = 7;
pub const LINE_NOT_WELL_FORMED: u32 = 18;
pub const NO_CAPTURE: u32 = 22;
pub const NOT_CARRIED: u32 = 23;
pub const NOT_IN_GRAMMAR: u32 = 40;

extern "C" {
    fn tecelume_version() -> u32;
    fn tecelume_signature(kind: u32, type_id: u32) -> u64;
    fn tecelume_setup(
        state: *mut u8,
        state_len: usize,
        own: u32,
        subscriptions: *const u8,
        subscriptions_len: usize,
    ) -> u32;
    fn tecelume_receive_word(
        state: *mut u8,
        state_len: usize,
        id: u32,
        frame: *const u8,
        frame_len: usize,
        interface_number: u32,
        time: u64,
        out: *mut u8,
        out_len: usize,
    ) -> u64;
    fn tecelume_signatures_word(
        source: *const u8,
        source_len: usize,
        lengths: *const u8,
        lengths_len: usize,
        out: *mut u8,
        out_len: usize,
        records: *mut u8,
        records_len: usize,
    ) -> u64;
    fn tecelume_capture_word(log: *const u8, log_len: usize, out: *mut u8, out_len: usize) -> u64;
}

/// Header and library go together.
pub fn is_of_header() -> bool {
    let version = VERSION_MAJOR * 0x10000 + VERSION_MINOR * 0x100 + VERSION_PATCH;
    unsafe { tecelume_version() == version }
}

/// What the header says of a number.
pub fn sentence(number: u32) -> &'static str {
    let known = SENTENCES.iter().find(|(known, _)| *known == number);
    known.map_or("unknown number", |(_, sentence)| sentence)
}

fn number(word: u64) -> u32 {
    (word & 255) as u32
}

/// The signature of a standard type, or none.
pub fn signature(service: bool, type_id: u32) -> Option<u64> {
    let signature = unsafe { tecelume_signature(service.into(), type_id) };
    (signature != 0).then_some(signature)
}

/// A subscription record.
pub fn subscription(service: bool, type_id: u32, signature: u64) -> [u8; SUBSCRIPTION_SIZE] {
    let mut record = [0; SUBSCRIPTION_SIZE];
    record[0] = service.into();
    record[1..5].copy_from_slice(&type_id.to_le_bytes());
    record[5..].copy_from_slice(&signature.to_le_bytes());
    record
}

/// A transfer that was handed out.
pub struct Transfer<'a> {
    pub time: u64,
    pub interface: u32,
    pub stream: Stream,
    pub priority: u32,
    pub transfer_id: u32,
    pub payload: &'a [u8],
}

pub enum Answer<'a> {
    Taken,
    HandedOut(Transfer<'a>),
    Refused(u32),
}

/// A receiver of one node. Its state is the library's; the payload of the last transfer is beside it.
pub struct Receiver {
    state: [u8; RECEIVER_SIZE],
    out: [u8; OUTPUT_SIZE],
}

impl Receiver {
    /// With subscription records one after another; or the number of the refusal.
    pub fn new(own: u32, subscriptions: &[u8]) -> Result<Box<Receiver>, u32> {
        let mut receiver = Box::new(Receiver {
            state: [0; RECEIVER_SIZE],
            out: [0; OUTPUT_SIZE],
        });
        let state = &mut receiver.state;
        let answer = unsafe {
            tecelume_setup(
                state.as_mut_ptr(),
                state.len(),
                own,
                subscriptions.as_ptr(),
                subscriptions.len(),
            )
        };
        match answer {
            SUCCESS => Ok(receiver),
            refusal => Err(refusal),
        }
    }

    pub fn receive(&mut self, frame: &Frame) -> Answer<'_> {
        let data = frame.data();
        let word = unsafe {
            tecelume_receive_word(
                self.state.as_mut_ptr(),
                self.state.len(),
                frame.id,
                data.as_ptr(),
                data.len(),
                frame.interface,
                frame.time,
                self.out.as_mut_ptr(),
                self.out.len(),
            )
        };
        // RULES 13.3
        let bits = |from: u32, count: u32| (word >> from & ((1 << count) - 1)) as u32;
        match number(word) {
            TAKEN => Answer::Taken,
            HANDED_OUT => Answer::HandedOut(Transfer {
                time: frame.time,
                interface: frame.interface,
                stream: Stream {
                    transfer_type: TransferType::of_number(bits(18, 2)),
                    type_id: bits(20, 16) as u16,
                    source: bits(36, 7) as u8,
                    destination: bits(43, 7) as u8,
                },
                priority: bits(50, 5),
                transfer_id: bits(55, 5),
                payload: &self.out[..bits(8, 10) as usize],
            }),
            refusal => Answer::Refused(refusal),
        }
    }
}

/// Why type definitions were refused: the number, and with 40 the definition and the line, both from 1.
#[derive(Debug)]
pub struct DefinitionRefusal {
    pub number: u32,
    pub definition: usize,
    pub line: usize,
}

/// The signatures of type definitions, each a full name and a text, in the order given.
pub fn signatures(definitions: &[(&str, &[u8])]) -> Result<Vec<u64>, DefinitionRefusal> {
    // length of the form, signature
    const SIGNED_SIZE: usize = 12;
    let (mut source, mut lengths) = (Vec::new(), Vec::new());
    for (name, text) in definitions {
        for part in [name.as_bytes(), text] {
            source.extend_from_slice(part);
            let length = u32::try_from(part.len()).unwrap_or(u32::MAX);
            lengths.extend_from_slice(&length.to_le_bytes());
        }
    }
    // A form may be longer than its text: each word may become a longer one. The call says if this is not enough.
    let mut forms = vec![0; 64 * source.len() + 64];
    let mut records = vec![0; SIGNED_SIZE * definitions.len()];
    let word = unsafe {
        tecelume_signatures_word(
            source.as_ptr(),
            source.len(),
            lengths.as_ptr(),
            lengths.len(),
            forms.as_mut_ptr(),
            forms.len(),
            records.as_mut_ptr(),
            records.len(),
        )
    };
    if number(word) != SUCCESS {
        let place = number(word) == NOT_IN_GRAMMAR;
        return Err(DefinitionRefusal {
            number: number(word),
            definition: if place { (word >> 8 & 15) as usize } else { 0 },
            line: if place {
                (word >> 16 & 65535) as usize
            } else {
                0
            },
        });
    }
    let signature = |record: &[u8]| u64::from_le_bytes(record[4..].try_into().expect("8 bytes"));
    Ok(records.chunks(SIGNED_SIZE).map(signature).collect())
}

/// An entry that reads a message type to a row of numbers (RULES 13.5).
pub type Reader = unsafe extern "C" fn(*const u8, usize, *mut u64, usize) -> u32;

macro_rules! readers {
    ($($name:ident)*) => {
        extern "C" {
            $(pub fn $name(payload: *const u8, payload_len: usize, fields: *mut u64, fields_len: usize) -> u32;)*
        }
    };
}

readers! {
    tecelume_decode_node_status_fields
    tecelume_decode_get_node_info_request_fields
    tecelume_decode_get_node_info_response_fields
    tecelume_decode_allocation_fields
    tecelume_decode_key_value_fields
    tecelume_decode_log_message_fields
    tecelume_decode_battery_info_fields
    tecelume_decode_raw_command_fields
    tecelume_decode_get_set_request_fields
    tecelume_decode_get_set_response_fields
    tecelume_decode_execute_opcode_request_fields
    tecelume_decode_execute_opcode_response_fields
}

/// Reads a payload to a row; gives the number answered.
pub fn read(reader: Reader, payload: &[u8], row: &mut [u64]) -> u32 {
    unsafe { reader(payload.as_ptr(), payload.len(), row.as_mut_ptr(), row.len()) }
}

/// The frames of the lines of a log, each line with its line feed; or none if a line is not well formed. `records` is room that is used again.
/// It is the proved call that makes captures: its records are the frames.
pub fn frames_of_lines<'a>(
    lines: &[u8],
    count: usize,
    records: &'a mut Vec<u8>,
) -> Option<impl Iterator<Item = Frame> + 'a> {
    let room = STAMPED_SIZE * count + TRAILER_SIZE;
    if records.len() < room {
        records.resize(room, 0);
    }
    let word = unsafe {
        tecelume_capture_word(
            lines.as_ptr(),
            lines.len(),
            records.as_mut_ptr(),
            records.len(),
        )
    };
    let records = &records[..STAMPED_SIZE * count];
    (number(word) == SUCCESS).then(|| records.chunks(STAMPED_SIZE).map(Frame::of_record))
}

/// What the proved call says of a whole capture: 22, 23, or 0.
#[cfg(test)]
pub fn verdict_on_capture(capture: &[u8]) -> u32 {
    extern "C" {
        fn tecelume_uncapture_word(
            capture: *const u8,
            capture_len: usize,
            out: *mut u8,
            out_len: usize,
        ) -> u64;
    }
    // a line has at most 47 bytes
    let mut out = vec![0; 47 * (capture.len() / STAMPED_SIZE + 1)];
    let word = unsafe {
        tecelume_uncapture_word(capture.as_ptr(), capture.len(), out.as_mut_ptr(), out.len())
    };
    number(word)
}

#[cfg(test)]
mod tests {
    use super::*;

    #[test]
    fn sentences() {
        assert_eq!(sentence(5), "tail byte does not fit the frame");
        assert_eq!(
            sentence(43).split(',').next(),
            Some("more than 8 type definitions")
        );
        assert_eq!(sentence(10), "unknown number");
        assert!(is_of_header());
    }

    #[test]
    fn lines() {
        let mut records = Vec::new();
        let log = b"1.000 1001552A 01 C0\n999999999.999 FFFFFFFF\n";
        let frames: Vec<Frame> = frames_of_lines(log, 2, &mut records).unwrap().collect();
        assert_eq!(frames[0].time, 1_000_000);
        assert_eq!(frames[0].id, 0x1001552A);
        assert_eq!(frames[0].data(), [1, 0xC0]);
        assert_eq!(
            (frames[1].time, frames[1].id),
            (999_999_999_999_000, u32::MAX)
        );
        assert!(frames[1].data().is_empty());
        for wrong in [
            "\n",
            "1.000 1001552a\n",
            "1.000 1001552A \n",
            "1.000 1001552A\r\n",
            "1.000 1001552A",
        ] {
            assert!(
                frames_of_lines(wrong.as_bytes(), 1, &mut records).is_none(),
                "{wrong:?}"
            );
        }
    }

    #[test]
    fn definitions() {
        let empty: &[u8] = b"";
        let right: [(&str, &[u8]); 2] =
            [("acme.Zoom", b"Lens lens\n"), ("acme.Lens", b"uint8 x\n")];
        assert_eq!(signatures(&right).unwrap().len(), 2);
        let missing = signatures(&right[..1]).unwrap_err();
        assert_eq!(
            (missing.number, missing.definition, missing.line),
            (41, 0, 0)
        );
        let wrong = signatures(&[("acme.Lens", empty), ("acme.Zoom", b"\nuint8\n")]).unwrap_err();
        assert_eq!((wrong.number, wrong.definition, wrong.line), (40, 2, 2));
        // names that are much longer in the form than in the text
        let name = format!("{}.E", "n".repeat(78));
        let nested = format!("{}.F", "n".repeat(78));
        assert!(signatures(&[(&nested, b"E a\nE b\n"), (&name, empty)]).is_ok());
    }
}
