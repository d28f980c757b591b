//! Type words (RULES 17.3 to 17.5).

use super::kinds::{Kind, BASE, LONG_NESTED, NO_ITEM, SIZE};
use super::natural::Natural;

/// Characters of the longest full name.
pub const LONGEST_NAME: usize = 80;

#[derive(Clone, Copy, Debug, PartialEq, Eq)]
pub enum Primitive {
    Bool,
    Int(u32),
    Uint(u32),
    Float(u32),
}

#[derive(Clone, Debug, PartialEq, Eq)]
pub enum Base {
    Primitive(Primitive),
    /// Padding; so many bits.
    Void(u32),
    /// As written: a short name or a full one.
    Nested(Vec<u8>),
}

/// How a size is written: `[X]`, `[<X]` or `[<=X]`.
#[derive(Clone, Copy, Debug, PartialEq, Eq)]
pub enum Bound {
    Exactly,
    Below,
    UpTo,
}

#[derive(Clone, Debug, PartialEq, Eq)]
pub struct Size {
    pub bound: Bound,
    pub most: Natural,
}

#[derive(Clone, Debug, PartialEq, Eq)]
pub struct Type {
    pub base: Base,
    pub size: Option<Size>,
}

pub fn type_word(word: &[u8]) -> Result<Type, Kind> {
    let opening = word.iter().position(|&byte| byte == b'[');
    let (base, size) = word.split_at(opening.unwrap_or(word.len()));
    Ok(Type {
        base: base_word(base)?,
        size: opening.map(|_| size_of(size)).transpose()?,
    })
}

fn base_word(word: &[u8]) -> Result<Base, Kind> {
    let base = match word {
        b"bool" => Base::Primitive(Primitive::Bool),
        b"float16" => Base::Primitive(Primitive::Float(16)),
        b"float32" => Base::Primitive(Primitive::Float(32)),
        b"float64" => Base::Primitive(Primitive::Float(64)),
        _ => {
            if let Some(width) = width_after(b"uint", word, 2) {
                Base::Primitive(Primitive::Uint(width))
            } else if let Some(width) = width_after(b"int", word, 2) {
                Base::Primitive(Primitive::Int(width))
            } else if let Some(width) = width_after(b"void", word, 1) {
                Base::Void(width)
            } else {
                Base::Nested(nested_word(word)?)
            }
        }
    };
    Ok(base)
}

/// The width behind a prefix, from `fewest` to 64, in base 10 with no leading zero.
fn width_after(prefix: &[u8], word: &[u8], fewest: u32) -> Option<u32> {
    let digits = word.strip_prefix(prefix)?;
    let width = std::str::from_utf8(digits).ok()?.parse().ok()?;
    let canonical = u32::to_string(&width).as_bytes() == digits;
    (canonical && (fewest..=64).contains(&width)).then_some(width)
}

fn nested_word(word: &[u8]) -> Result<Vec<u8>, Kind> {
    if !is_dotted_name(word) {
        return Err(BASE);
    }
    if word.contains(&b'.') && word.len() > LONGEST_NAME {
        return Err(LONG_NESTED);
    }
    Ok(word.to_vec())
}

/// From its `[` on.
fn size_of(text: &[u8]) -> Result<Size, Kind> {
    let inside = text
        .strip_prefix(b"[")
        .and_then(|rest| rest.strip_suffix(b"]"));
    let inside = inside.ok_or(SIZE)?;
    let (bound, literal) = if let Some(literal) = inside.strip_prefix(b"<=") {
        (Bound::UpTo, literal)
    } else if let Some(literal) = inside.strip_prefix(b"<") {
        (Bound::Below, literal)
    } else {
        (Bound::Exactly, inside)
    };
    let given = integer(literal.strip_prefix(b"+").unwrap_or(literal)).ok_or(SIZE)?;
    if given.is_zero() {
        return Err(NO_ITEM);
    }
    let most = match bound {
        Bound::Below => given.minus(&Natural::of(1)),
        _ => given,
    };
    if most.is_zero() {
        return Err(NO_ITEM);
    }
    Ok(Size { bound, most })
}

/// An integer literal, which has no sign.
pub fn integer(word: &[u8]) -> Option<Natural> {
    match word {
        b"0" => Some(Natural::zero()),
        [b'0', b'x', digits @ ..] => Natural::in_base(16, digits),
        [b'0', b'b', digits @ ..] => Natural::in_base(2, digits),
        [b'0', b'o', digits @ ..] => Natural::in_base(8, digits),
        [b'1'..=b'9', ..] => Natural::in_base(10, word),
        _ => None,
    }
}

/// A letter, and then letters, digits and underscores.
pub fn is_name(word: &[u8]) -> bool {
    let goes_on = |byte: &u8| byte.is_ascii_alphanumeric() || *byte == b'_';
    word.first().is_some_and(u8::is_ascii_alphabetic) && word.iter().all(goes_on)
}

/// Names, joined by single dots.
pub fn is_dotted_name(word: &[u8]) -> bool {
    word.split(|&byte| byte == b'.').all(is_name)
}
