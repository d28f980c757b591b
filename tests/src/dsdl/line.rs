//! One line of a text: its words, and what it is (RULES 17.1 and 17.2).

use super::initializer::initializer;
use super::kinds::{
    Kind, CAST_NESTED, CONSTANT_TYPE, DIRECTIVE, INFINITE, INTEGER_RANGE, LINE, MARKER, MORE_WORDS,
    NAME, NOT_WHOLE, NO_NAME, VOID_NAMED,
};
use super::number::{holds, Number};
use super::types::{is_name, type_word, Base, Primitive, Type};

#[derive(Clone, Copy, Debug, PartialEq, Eq)]
pub enum Cast {
    Saturated,
    Truncated,
}

#[derive(Clone, Debug, PartialEq, Eq)]
pub enum Line {
    Nothing,
    Marker,
    Union,
    /// Its word.
    Padding(Vec<u8>),
    Field(Field),
    Constant(Constant),
}

#[derive(Clone, Debug, PartialEq, Eq)]
pub struct Field {
    pub cast: Option<Cast>,
    pub of: Type,
    pub name: Vec<u8>,
}

#[derive(Clone, Debug, PartialEq, Eq)]
pub struct Constant {
    pub cast: Option<Cast>,
    pub of: Primitive,
    pub name: Vec<u8>,
    pub value: Number,
}

impl Line {
    /// The name that no other attribute of its part may have.
    pub fn name(&self) -> Option<&[u8]> {
        match self {
            Line::Field(field) => Some(&field.name),
            Line::Constant(constant) => Some(&constant.name),
            _ => None,
        }
    }

    pub fn is_attribute(&self) -> bool {
        matches!(self, Line::Padding(_) | Line::Field(_) | Line::Constant(_))
    }

    /// It counts toward the fields of a union.
    pub fn is_field(&self) -> bool {
        matches!(self, Line::Padding(_) | Line::Field(_))
    }
}

/// A line feed, a carriage return, and the two in this order end one line each.
pub fn lines(text: &[u8]) -> Vec<&[u8]> {
    let (mut lines, mut rest) = (vec![], text);
    while let Some(end) = rest.iter().position(|byte| b"\r\n".contains(byte)) {
        lines.push(&rest[..end]);
        let both = rest[end..].starts_with(b"\r\n");
        rest = &rest[end + if both { 2 } else { 1 }..];
    }
    lines.push(rest);
    lines
}

/// What is left of a line without its comment.
pub fn without_comment(line: &[u8]) -> &[u8] {
    let comment = line.iter().position(|&byte| byte == b'#');
    &line[..comment.unwrap_or(line.len())]
}

pub fn is_blank(byte: u8) -> bool {
    byte == b' ' || byte == b'\t'
}

/// From the first character that is not a blank.
pub fn after_blanks(line: &[u8]) -> &[u8] {
    let blanks = line.iter().take_while(|&&byte| is_blank(byte)).count();
    &line[blanks..]
}

/// The first word and what is behind it.
pub fn next_word(line: &[u8]) -> Option<(&[u8], &[u8])> {
    let line = after_blanks(line);
    let length = line.iter().take_while(|&&byte| !is_blank(byte)).count();
    (length > 0).then(|| line.split_at(length))
}

/// What a line without its comment is.
pub fn read(line: &[u8]) -> Result<Line, Kind> {
    let Some((first, rest)) = next_word(line) else {
        return Ok(Line::Nothing);
    };
    let alone = next_word(rest).is_none();
    match first {
        b"---" if alone => Ok(Line::Marker),
        b"---" => Err(MARKER),
        b"@union" if alone => Ok(Line::Union),
        [b'@', ..] => Err(DIRECTIVE),
        b"saturated" => after_cast(Some(Cast::Saturated), rest),
        b"truncated" => after_cast(Some(Cast::Truncated), rest),
        _ if alone => one_word(first),
        _ => after_cast(None, line),
    }
}

fn one_word(word: &[u8]) -> Result<Line, Kind> {
    match type_word(word) {
        Ok(Type {
            base: Base::Void(_),
            size: None,
        }) => Ok(Line::Padding(word.to_vec())),
        Ok(_) => Err(NO_NAME),
        Err(_) => Err(LINE),
    }
}

fn after_cast(cast: Option<Cast>, line: &[u8]) -> Result<Line, Kind> {
    let (word, rest) = next_word(line).ok_or(NO_NAME)?;
    let of = type_word(word)?;
    match of.base {
        Base::Void(_) => return Err(VOID_NAMED),
        Base::Nested(_) if cast.is_some() => return Err(CAST_NESTED),
        _ => {}
    }
    let (name, rest) = next_word(rest).ok_or(NO_NAME)?;
    if !is_name(name) {
        return Err(NAME);
    }
    let name = name.to_vec();
    match next_word(rest) {
        None => Ok(Line::Field(Field { cast, of, name })),
        Some((b"=", rest)) => match of {
            Type {
                base: Base::Primitive(of),
                size: None,
            } => constant(cast, of, name, rest),
            _ => Err(CONSTANT_TYPE),
        },
        Some(_) => Err(MORE_WORDS),
    }
}

fn constant(cast: Option<Cast>, of: Primitive, name: Vec<u8>, rest: &[u8]) -> Result<Line, Kind> {
    let value = initializer(rest)?;
    if holds(of, &value) {
        return Ok(Line::Constant(Constant {
            cast,
            of,
            name,
            value,
        }));
    }
    Err(match of {
        Primitive::Float(_) => INFINITE,
        _ if value.is_whole() => INTEGER_RANGE,
        _ => NOT_WHOLE,
    })
}
