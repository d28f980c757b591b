//! Checksums, a bit at a time: CRC-16-CCITT-FALSE of a transfer (RULES 6) and the
//! CRC-64-WE signature hash with its extension (RULES 11).

/// CRC-16-CCITT-FALSE: polynomial 0x1021, start 0xFFFF, nothing reversed.
pub fn crc16(bytes: &[u8]) -> u16 {
    crc16_from(0xFFFF, bytes)
}

/// The checksum in front of a multi-frame transfer: the signature, lowest byte first, then the
/// payload.
pub fn transfer_checksum(signature: u64, payload: &[u8]) -> u16 {
    crc16_from(crc16(&signature.to_le_bytes()), payload)
}

/// The register after the bytes, from any start.
pub fn crc16_from(start: u16, bytes: &[u8]) -> u16 {
    bytes.iter().fold(start, |mut crc, &byte| {
        crc ^= u16::from(byte) << 8;
        for _ in 0..8 {
            let high = crc & 0x8000 != 0;
            crc <<= 1;
            if high {
                crc ^= 0x1021;
            }
        }
        crc
    })
}

/// The same by a table, a byte at a time: for files that are large.
pub fn crc16_by_table(start: u16, bytes: &[u8]) -> u16 {
    bytes.iter().fold(start, |crc, &byte| {
        crc << 8 ^ TABLE[usize::from((crc >> 8) as u8 ^ byte)]
    })
}

/// What eight shifts make of each byte in the highest bits.
static TABLE: [u16; 256] = {
    let mut table = [0; 256];
    let mut index = 0;
    while index < 256 {
        let (mut crc, mut bit) = ((index as u16) << 8, 0);
        while bit < 8 {
            crc = crc << 1 ^ if crc & 0x8000 != 0 { 0x1021 } else { 0 };
            bit += 1;
        }
        table[index] = crc;
        index += 1;
    }
    table
};

/// CRC-64-WE, the signature hash of a normalized definition.
pub fn hash(bytes: &[u8]) -> u64 {
    hash_from(0, bytes)
}

/// Extends a hash by another one: the other's bytes, then the hash's own, each lowest first.
pub fn extend(hash: u64, with: u64) -> u64 {
    hash_from(hash_from(hash, &with.to_le_bytes()), &hash.to_le_bytes())
}

/// Goes on from a hash already worked out; 0 is the hash of no bytes.
fn hash_from(start: u64, bytes: &[u8]) -> u64 {
    !bytes.iter().fold(!start, |mut crc, &byte| {
        crc ^= u64::from(byte) << 56;
        for _ in 0..8 {
            let high = crc >> 63 != 0;
            crc <<= 1;
            if high {
                crc ^= 0x42F0_E1EB_A9EA_3693;
            }
        }
        crc
    })
}
