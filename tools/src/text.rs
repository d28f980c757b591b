//! Text of a bus for people and for programs. Nothing of it reaches a terminal or a page as anything but letters.

use std::path::Path;

/// What `write!` does, to bytes in memory, which take all.
macro_rules! put {
    ($out:expr, $($text:tt)*) => {
        std::io::Write::write_fmt($out, format_args!($($text)*)).expect("memory takes all")
    };
}

/// Bytes in quotes. What does not print is escaped: `\n`, `\u{1b}`, and `\xFF` for a byte that is not UTF-8.
pub fn quoted(out: &mut Vec<u8>, bytes: &[u8]) {
    out.push(b'"');
    for (place, part) in bytes.split(|byte| *byte == b'"').enumerate() {
        if place > 0 {
            out.extend_from_slice(b"\\\"");
        }
        escaped(out, part);
    }
    out.push(b'"');
}

/// The same without the quotes around it, so that a quote stands for itself.
pub fn escaped(out: &mut Vec<u8>, bytes: &[u8]) {
    for chunk in bytes.utf8_chunks() {
        for letter in chunk.valid().chars() {
            if (' '..='~').contains(&letter) && letter != '\\' {
                out.push(letter as u8);
            } else {
                letter.escape_debug().for_each(|one| push(out, one));
            }
        }
        for byte in chunk.invalid() {
            out.extend_from_slice(b"\\x");
            hex_byte(out, *byte);
        }
    }
}

/// A JSON string. What is not UTF-8 becomes U+FFFD. It may stand in a page too: `<`, `>` and `&` are escaped as well.
pub fn json(out: &mut Vec<u8>, bytes: &[u8]) {
    out.push(b'"');
    for chunk in bytes.utf8_chunks() {
        for letter in chunk.valid().chars() {
            match letter {
                '"' | '\\' => out.extend([b'\\', letter as u8]),
                '<' | '>' | '&' => json_escape(out, letter),
                ' '..='~' => out.push(letter as u8),
                // of the others those that print
                _ if letter.escape_debug().len() == 1 => push(out, letter),
                _ => json_escape(out, letter),
            }
        }
        if !chunk.invalid().is_empty() {
            push(out, char::REPLACEMENT_CHARACTER);
        }
    }
    out.push(b'"');
}

fn json_escape(out: &mut Vec<u8>, letter: char) {
    for unit in letter.encode_utf16(&mut [0; 2]) {
        out.extend_from_slice(b"\\u");
        unit.to_be_bytes()
            .iter()
            .for_each(|byte| hex_byte(out, *byte));
    }
}

fn push(out: &mut Vec<u8>, letter: char) {
    out.extend_from_slice(letter.encode_utf8(&mut [0; 4]).as_bytes());
}

fn hex_byte(out: &mut Vec<u8>, byte: u8) {
    const DIGITS: &[u8; 16] = b"0123456789ABCDEF";
    out.extend([
        DIGITS[usize::from(byte >> 4)],
        DIGITS[usize::from(byte & 15)],
    ]);
}

/// Two digits a byte.
pub fn hex_digits(out: &mut Vec<u8>, bytes: &[u8]) {
    bytes.iter().for_each(|byte| hex_byte(out, *byte));
}

/// The same, and `-` for none, as in a log.
pub fn hex(out: &mut Vec<u8>, bytes: &[u8]) {
    match bytes {
        [] => out.push(b'-'),
        bytes => hex_digits(out, bytes),
    }
}

/// The decimal that stands for this float and no other: `25.0`, `0.1`, `1e-7`, `NaN`, `inf`.
pub fn float(out: &mut Vec<u8>, value: f32) {
    put!(out, "{value:?}");
}

/// Decimal digits, at least so many. It is what is written most, and faster than `write`.
fn digits(out: &mut Vec<u8>, mut number: u64, least: usize) {
    let mut digits = [b'0'; 20];
    let mut first = digits.len();
    while number > 0 || digits.len() - first < least {
        first -= 1;
        digits[first] = b'0' + (number % 10) as u8;
        number /= 10;
    }
    out.extend_from_slice(&digits[first..]);
}

pub fn number(out: &mut Vec<u8>, number: u64) {
    digits(out, number, 1);
}

pub fn signed(out: &mut Vec<u8>, number: i64) {
    if number < 0 {
        out.push(b'-');
    }
    digits(out, number.unsigned_abs(), 1);
}

/// Microseconds as seconds: with three digits after the dot, or six if three do not do.
pub fn seconds(out: &mut Vec<u8>, time: u64) {
    let (whole, part) = (time / 1_000_000, time % 1_000_000);
    number(out, whole);
    out.push(b'.');
    match part % 1000 {
        0 => digits(out, part / 1000, 3),
        _ => digits(out, part, 6),
    }
}

/// A number with commas: 1,000,000.
pub fn grouped(number: u64) -> String {
    let digits = number.to_string();
    let mut text = String::new();
    for (place, digit) in digits.chars().enumerate() {
        if place > 0 && (digits.len() - place) % 3 == 0 {
            text.push(',');
        }
        text.push(digit);
    }
    text
}

/// A number and what it counts, in the plural if it is not 1.
pub fn counted(number: u64, what: &str) -> String {
    let plural = if number == 1 { "" } else { "s" };
    format!("{} {what}{plural}", grouped(number))
}

/// The name of a file, in quotes.
pub fn path(path: &Path) -> String {
    format!("'{}'", bare_path(path))
}

/// The same without the quotes around it.
pub fn bare_path(path: &Path) -> String {
    let mut out = Vec::new();
    escaped(&mut out, path.as_os_str().as_encoded_bytes());
    String::from_utf8_lossy(&out).into_owned()
}

#[cfg(test)]
mod tests {
    use super::*;

    fn of(write: fn(&mut Vec<u8>, &[u8]), bytes: &[u8]) -> String {
        let mut out = Vec::new();
        write(&mut out, bytes);
        String::from_utf8(out).expect("only whole letters are written")
    }

    #[test]
    fn quotes() {
        assert_eq!(of(quoted, b"it's \"5\" \\"), r#""it's \"5\" \\""#);
        assert_eq!(
            of(quoted, b"\x1b[2J\0\r\n\t\x7f"),
            r#""\u{1b}[2J\0\r\n\t\u{7f}""#
        );
        // a byte that is not UTF-8, a C1 control, an override of the writing direction, a letter that prints
        assert_eq!(
            of(quoted, b"\xff \xc2\x9b \xe2\x80\xae \xc3\xa9"),
            "\"\\xFF \\u{9b} \\u{202e} \u{e9}\""
        );
    }

    #[test]
    fn without_quotes() {
        assert_eq!(of(escaped, b"it's \"5\" \\ \x1b"), r#"it's "5" \\ \u{1b}"#);
    }

    #[test]
    fn json_strings() {
        assert_eq!(
            of(json, b"a\"b\\c</script>&"),
            r#""a\"b\\c\u003C/script\u003E\u0026""#
        );
        assert_eq!(
            of(json, b"\x1b\n\xe2\x80\xa8\xff"),
            "\"\\u001B\\u000A\\u2028\u{fffd}\""
        );
        assert_eq!(of(json, "é \u{E0001}".as_bytes()), "\"é \\uDB40\\uDC01\"");
    }

    #[test]
    fn floats() {
        let text = |bits: u32| of_float(f32::from_bits(bits));
        fn of_float(value: f32) -> String {
            let mut out = Vec::new();
            float(&mut out, value);
            String::from_utf8(out).unwrap()
        }
        assert_eq!(text(0x41C80000), "25.0");
        assert_eq!(text(0x3DCCCCCD), "0.1");
        assert_eq!(text(0x80000000), "-0.0");
        assert_eq!(text(0x7F800000), "inf");
        assert_eq!(text(0x7F7FFFFF), "3.4028235e38");
        // each decimal is read back as the float that it was
        for bits in (0..u32::MAX).step_by(65_537) {
            let value = f32::from_bits(bits);
            let back: f32 = of_float(value).parse().unwrap();
            assert!(value.is_nan() && back.is_nan() || value.to_bits() == back.to_bits());
        }
    }

    #[test]
    fn numbers() {
        let mut out = Vec::new();
        for one in [0, 9, 10, 123, u64::MAX] {
            number(&mut out, one);
            out.push(b' ');
        }
        for one in [0, -1, i64::MIN, i64::MAX] {
            signed(&mut out, one);
            out.push(b' ');
        }
        assert_eq!(
            out,
            b"0 9 10 123 18446744073709551615 0 -1 -9223372036854775808 9223372036854775807 "
        );
    }

    #[test]
    fn times() {
        let text = |time| {
            let mut out = Vec::new();
            seconds(&mut out, time);
            String::from_utf8(out).unwrap()
        };
        assert_eq!(text(0), "0.000");
        assert_eq!(text(1_001_000), "1.001");
        assert_eq!(text(1_000_001), "1.000001");
        assert_eq!(text(u64::MAX), "18446744073709.551615");
        assert_eq!(grouped(999), "999");
        assert_eq!(grouped(1_000_000), "1,000,000");
    }
}
