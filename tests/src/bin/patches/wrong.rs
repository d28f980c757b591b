//! Wrong corrections, each of which the trials must tell from the right one.

use crate::Patch;
use reference::crc::crc16;
use reference::entry::patch;

/// What is wrong, and the call.
pub fn all() -> [(&'static str, Patch); 9] {
    [
        ("old byte forgotten", |c, _, new, n| patch(c, 0, new, n)),
        ("new byte forgotten", |c, old, _, n| patch(c, old, 0, n)),
        ("bytes after counted one too few", |c, old, new, n| {
            patch(c, old, new, n.saturating_sub(1))
        }),
        ("bytes after counted from the front", |c, old, new, n| {
            patch(c, old, new, if n < 512 { 511 - n } else { n })
        }),
        ("the signature's checksum mixed in", |c, old, new, n| {
            patch(c ^ u32::from(crc16(&[0; 8])), old, new, n)
        }),
        ("the old checksum lost", |_, old, new, n| {
            patch(0, old, new, n)
        }),
        ("511 bytes after refused", |c, old, new, n| {
            patch(c, old, new, if n == 511 { 512 } else { n })
        }),
        ("512 bytes after accepted", |c, old, new, n| {
            patch(c, old, new, if n == 512 { 511 } else { n })
        }),
        ("the checksum's bytes exchanged", |c, old, new, n| {
            let word = patch(c, old, new, n);
            word & 255 | word >> 8 & 0xFF00 | (word & 0xFF00) << 8
        }),
    ]
}
