//! Initializers of constants (RULES 17.6).

use super::kinds::{Kind, ABOVE_ASCII, CHARACTER, NO_INITIALIZER, NUMBER, SIGNED_ZERO};
use super::line::{after_blanks, is_blank};
use super::natural::Natural;
use super::number::{exponent, Number};
use super::types::integer;

/// What a byte is worth behind a backslash.
const ESCAPES: [(u8, u8); 11] = [
    (b'a', 7),
    (b'b', 8),
    (b't', 9),
    (b'n', 10),
    (b'v', 11),
    (b'f', 12),
    (b'r', 13),
    (b'0', 0),
    (b'\\', 92),
    (b'\'', 39),
    (b'"', 34),
];

/// The value of what is behind the `=`.
pub fn initializer(rest: &[u8]) -> Result<Number, Kind> {
    let text = without_blanks(rest);
    match text {
        b"" => Err(NO_INITIALIZER),
        b"true" => Ok(small(1)),
        b"false" => Ok(small(0)),
        [b'\'', ..] => character(text).map(small),
        [sign @ (b'+' | b'-'), rest @ ..] => {
            let word = after_blanks(rest);
            if word == b"0" {
                return Err(SIGNED_ZERO);
            }
            Ok(unsigned(word)?.with_sign(*sign == b'-'))
        }
        word => unsigned(word),
    }
}

fn without_blanks(text: &[u8]) -> &[u8] {
    let text = after_blanks(text);
    let blanks = text.iter().rev().take_while(|&&byte| is_blank(byte));
    &text[..text.len() - blanks.count()]
}

fn small(value: u8) -> Number {
    Number::whole(&Natural::of(u64::from(value)))
}

fn unsigned(word: &[u8]) -> Result<Number, Kind> {
    let whole = integer(word).map(|value| Number::whole(&value));
    whole.or_else(|| floating(word)).ok_or(NUMBER)
}

/// Digits; then a fraction, an exponent, or both.
fn floating(word: &[u8]) -> Option<Number> {
    let (front, up) = match word.iter().position(|byte| b"eE".contains(byte)) {
        Some(at) => (&word[..at], Some(exponent_of(&word[at + 1..])?)),
        None => (word, None),
    };
    match front.iter().position(|&byte| byte == b'.') {
        Some(point) => {
            let (whole, fraction) = (digits(&front[..point])?, digits(&front[point + 1..])?);
            let down = fraction.len() as i64;
            Some(Number::scaled(
                &[whole, fraction].concat(),
                up.unwrap_or(0) - down,
            ))
        }
        None => Some(Number::scaled(digits(front)?, up?)),
    }
}

fn exponent_of(text: &[u8]) -> Option<i64> {
    let (negative, text) = match text {
        [b'-', rest @ ..] => (true, rest),
        [b'+', rest @ ..] => (false, rest),
        _ => (false, text),
    };
    Some(exponent(negative, &Natural::in_base(10, digits(text)?)?))
}

/// The text, if it is one decimal digit or more.
fn digits(text: &[u8]) -> Option<&[u8]> {
    (!text.is_empty() && text.iter().all(u8::is_ascii_digit)).then_some(text)
}

/// The code of a character between quotes.
fn character(text: &[u8]) -> Result<u8, Kind> {
    let inside = text
        .strip_prefix(b"'")
        .and_then(|rest| rest.strip_suffix(b"'"));
    match inside {
        Some([b'\\', b'x', digits @ ..]) if digits.len() == 2 => {
            let digits = std::str::from_utf8(digits).map_err(|_| CHARACTER)?;
            let hexadecimal = digits.bytes().all(|digit| digit.is_ascii_hexdigit());
            let code = u8::from_str_radix(digits, 16);
            match code {
                Ok(code) if hexadecimal && code > 127 => Err(ABOVE_ASCII),
                Ok(code) if hexadecimal => Ok(code),
                _ => Err(CHARACTER),
            }
        }
        Some([b'\\', letter]) => {
            let escape = ESCAPES.iter().find(|(escaped, _)| escaped == letter);
            escape.map(|(_, code)| *code).ok_or(CHARACTER)
        }
        Some([byte @ 32..=126]) if !b"'\\".contains(byte) => Ok(*byte),
        _ => Err(CHARACTER),
    }
}
