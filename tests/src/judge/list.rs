//! The list of subscriptions as text (RULES 19.11).

use super::subscribed;
use crate::entry::SUBSCRIPTION;
use crate::logs;

/// The subscription records of a list; none for a bad file.
pub fn read(text: &[u8]) -> Option<Vec<u8>> {
    let text = text.strip_suffix(b"\n").unwrap_or(text);
    let lines = text.split(|&byte| byte == b'\n');
    let asked = lines.filter(|line| !line.is_empty() && line[0] != b'#');
    let records: Option<Vec<_>> = asked.map(line).collect();
    let records = records?.concat();
    subscribed(&records).is_some().then_some(records)
}

/// `M 341 0F0868D0C1A7C6F1`
fn line(line: &[u8]) -> Option<[u8; SUBSCRIPTION]> {
    let words: Vec<&[u8]> = line.split(|&byte| byte == b' ').collect();
    let [kind, type_id, signature] = words[..] else {
        return None;
    };
    let kind = match kind {
        b"M" => 0,
        b"S" => 1,
        _ => return None,
    };
    Some(record(kind, decimal(type_id)?, hexadecimal(signature)?))
}

pub fn record(kind: u8, type_id: u32, signature: u64) -> [u8; SUBSCRIPTION] {
    let mut record = [kind; SUBSCRIPTION];
    record[1..5].copy_from_slice(&type_id.to_le_bytes());
    record[5..].copy_from_slice(&signature.to_le_bytes());
    record
}

/// A decimal number without a needless zero in front. One that has no room is too large for a type.
fn decimal(digits: &[u8]) -> Option<u32> {
    let needless = digits.len() > 1 && digits[0] == b'0';
    if needless || !digits.iter().all(u8::is_ascii_digit) {
        return None;
    }
    std::str::from_utf8(digits).ok()?.parse().ok()
}

/// 16 capital hexadecimal digits.
fn hexadecimal(digits: &[u8]) -> Option<u64> {
    let digit = |byte: &u8| matches!(byte, b'0'..=b'9' | b'A'..=b'F');
    if digits.len() != 16 || !digits.iter().all(digit) {
        return None;
    }
    u64::from_str_radix(std::str::from_utf8(digits).ok()?, 16).ok()
}

/// The log program's types, which are taken without a list.
pub fn standard() -> Vec<u8> {
    let types = logs::subscriptions().into_iter();
    let records = types.map(|one| record(one.service.into(), one.type_id.into(), one.signature));
    records.flatten().collect()
}
