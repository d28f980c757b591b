//! Checksums and signatures against the published numbers (RULES 11 and 15.1), what a checksum
//! catches (RULES 6.6), and its correction for a byte that is rewritten (RULES 6.7).

use reference::crc::{crc16, extend, hash, transfer_checksum};
use reference::definitions;
use reference::patch::patch;

#[test]
fn check_value_of_the_transfer_checksum() {
    assert_eq!(crc16(b"123456789"), 0x29B1);
    assert_eq!(crc16(b""), 0xFFFF);
}

#[test]
fn transfer_checksum_runs_over_signature_then_payload() {
    let signature = 0x0B2A_8126_20A1_1D40;
    let bytes = [0x40, 0x1D, 0xA1, 0x20, 0x26, 0x81, 0x2A, 0x0B, 1, 2, 3];
    assert_eq!(transfer_checksum(signature, &[1, 2, 3]), crc16(&bytes));
}

#[test]
fn allocation_log_checksums() {
    let second = b"\x00\x44\xC0\x8B\x63\x5E\x05\xF4\xBC\x10\x96\xDF\x11";
    let third = b"\xFA\x44\xC0\x8B\x63\x5E\x05\xF4\xBC\x10\x96\xDF\x11\xA8\xBA\x54\x47";
    let signature = definitions::allocation();
    assert_eq!(transfer_checksum(signature, second), 0xB005);
    assert_eq!(transfer_checksum(signature, third), 0xBA29);
}

/// Every burst of up to 16 bits that begins with the first bit, and the one of 17 that goes unseen.
#[test]
fn bursts_of_16_bits_are_caught_and_the_polynomial_is_not() {
    for signature in [0, 0x0B2A_8126_20A1_1D40, u64::MAX] {
        let whole = transfer_checksum(signature, &[0, 0, 0]);
        for burst in 1..=u16::MAX {
            let [high, low] = burst.to_be_bytes();
            assert_ne!(transfer_checksum(signature, &[high, low, 0]), whole);
        }
        assert_eq!(transfer_checksum(signature, &[0x01, 0x10, 0x21]), whole);
    }
}

/// Every byte of the allocation log's third reply, made every other: its checksum is 0xBA29.
#[test]
fn a_corrected_checksum_is_the_one_worked_out_afresh() {
    let reply = b"\xFA\x44\xC0\x8B\x63\x5E\x05\xF4\xBC\x10\x96\xDF\x11\xA8\xBA\x54\x47";
    for at in 0..reply.len() {
        for new in 0..=255 {
            let mut rewritten = *reply;
            rewritten[at] = new;
            let after = (reply.len() - 1 - at) as u64;
            let afresh = transfer_checksum(definitions::allocation(), &rewritten);
            assert_eq!(patch(0xBA29, reply[at], new, after), Ok(afresh));
        }
    }
}

#[test]
fn at_most_511_bytes_come_after_a_byte() {
    assert_eq!(patch(0x1234, 7, 7, 511), Ok(0x1234));
    assert_eq!(patch(0x1234, 7, 7, 512), Err(11));
    assert_eq!(patch(0x1234, 7, 7, u64::MAX), Err(11));
}

#[test]
fn check_value_of_the_signature_hash() {
    assert_eq!(hash(b"123456789"), 0x62EC_59E3_F1A4_F00A);
    assert_eq!(hash(b""), 0);
}

#[test]
fn extension_feeds_the_other_hash_then_the_saved_one() {
    let own = hash(b"own");
    let other = hash(b"other");
    let bytes = [b"own".as_slice(), &other.to_le_bytes(), &own.to_le_bytes()];
    assert_eq!(extend(own, other), hash(&bytes.concat()));
}

#[test]
fn signatures_of_the_public_set() {
    assert_eq!(definitions::node_status(), 0x0F08_68D0_C1A7_C6F1);
    assert_eq!(definitions::get_node_info(), 0xEE46_8A81_21C4_6A9E);
    assert_eq!(definitions::allocation(), 0x0B2A_8126_20A1_1D40);
    assert_eq!(definitions::key_value(), 0xE02F_25D6_E0C9_8AE0);
    assert_eq!(definitions::log_message(), 0xD654_A48E_0C04_9D75);
    assert_eq!(definitions::battery_info(), 0x249C_2654_8A71_1966);
    assert_eq!(definitions::raw_command(), 0x217F_5C87_D7EC_951D);
    assert_eq!(definitions::get_set(), 0xA7B6_22F9_39D1_A4D5);
    assert_eq!(definitions::execute_opcode(), 0x3B13_1AC5_EB69_D2CD);
}
