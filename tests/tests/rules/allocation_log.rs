//! The allocation log (RULES 15.3), which reception, sending and the log program are run on.

/// Time in milliseconds, ID and data of each frame.
pub const ALLOCATION_LOG: [(u64, u32, &[u8]); 10] = [
    (1117, 0x1EEE8100, b"\x01\x44\xC0\x8B\x63\x5E\x05\xC0"),
    (1117, 0x1E000101, b"\x00\x44\xC0\x8B\x63\x5E\x05\xC0"),
    (1406, 0x1EEBE500, b"\x00\xF4\xBC\x10\x96\xDF\x11\xC1"),
    (1406, 0x1E000101, b"\x05\xB0\x00\x44\xC0\x8B\x63\x81"),
    (1406, 0x1E000101, b"\x5E\x05\xF4\xBC\x10\x96\xDF\x21"),
    (1406, 0x1E000101, b"\x11\x41"),
    (1485, 0x1E41E100, b"\x00\xA8\xBA\x54\x47\xC2"),
    (1485, 0x1E000101, b"\x29\xBA\xFA\x44\xC0\x8B\x63\x82"),
    (1485, 0x1E000101, b"\x5E\x05\xF4\xBC\x10\x96\xDF\x22"),
    (1485, 0x1E000101, b"\x11\xA8\xBA\x54\x47\x42"),
];

pub const UNIQUE_ID: [u8; 16] =
    *b"\x44\xC0\x8B\x63\x5E\x05\xF4\xBC\x10\x96\xDF\x11\xA8\xBA\x54\x47";
