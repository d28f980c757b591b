//! Random words of definitions, right ones: names, types, sizes, numbers and initializers.

use crate::random::Random;
use reference::dsdl::natural::Natural;
use reference::dsdl::number::infinity;
use reference::dsdl::types::Primitive;

const LETTERS: &[u8] = b"abcdefghijklmnopqrstuvwxyzABCDEFGHIJKLMNOPQRSTUVWXYZ";
const NAMING: &[u8] = b"abcdefghijklmnopqrstuvwxyzABCDEFGHIJKLMNOPQRSTUVWXYZ0123456789_";
/// Words that are names, too.
const ORDINARY: [&str; 8] = [
    "uint8",
    "true",
    "saturated",
    "truncated",
    "void5",
    "union",
    "uint65",
    "e1",
];

pub fn name(random: &mut Random) -> String {
    if random.once_in(12) {
        return random.pick(&ORDINARY).to_string();
    }
    let length = match random.below(16) {
        0 => 1,
        1 => random.between(2, 200),
        _ => random.between(1, 10),
    };
    name_of(random, length as usize)
}

/// A name of so many characters.
pub fn name_of(random: &mut Random, length: usize) -> String {
    let first = char::from(random.pick(LETTERS));
    let rest = (1..length).map(|_| char::from(random.pick(NAMING)));
    std::iter::once(first).chain(rest).collect()
}

/// Blanks between two words.
pub fn blanks(random: &mut Random) -> &'static str {
    random.pick(&[" ", " ", " ", " ", "  ", "\t", " \t ", "      "])
}

/// Blanks where there need not be any.
pub fn perhaps_blanks(random: &mut Random) -> &'static str {
    random.pick(&["", "", "", "", " ", "\t", "   "])
}

pub fn primitive(random: &mut Random) -> Primitive {
    match random.below(8) {
        0 => Primitive::Bool,
        1 => Primitive::Float(random.pick(&[16, 32, 64])),
        2..=4 => Primitive::Int(width(random, 2)),
        _ => Primitive::Uint(width(random, 2)),
    }
}

pub fn width(random: &mut Random, fewest: u32) -> u32 {
    let any = random.between(u64::from(fewest), 64) as u32;
    random.pick(&[any, any, 8, 16, 64, fewest])
}

pub fn primitive_word(primitive: Primitive) -> String {
    match primitive {
        Primitive::Bool => "bool".to_string(),
        Primitive::Int(width) => format!("int{width}"),
        Primitive::Uint(width) => format!("uint{width}"),
        Primitive::Float(width) => format!("float{width}"),
    }
}

/// Nothing, or brackets for one item or more.
pub fn perhaps_size(random: &mut Random) -> String {
    if random.coin() {
        return String::new();
    }
    let bound = random.pick(&["", "<", "<="]);
    let plus = if random.once_in(8) { "+" } else { "" };
    let literal = if random.once_in(8) {
        long_literal(random)
    } else {
        let power = 1u128 << random.below(90);
        let few = u128::from(random.between(2, 300));
        let value = random.pick(&[few, few, few, power, power + 1, power.max(3) - 1]);
        literal(random, value.max(if bound == "<" { 2 } else { 1 }))
    };
    format!("[{bound}{plus}{literal}]")
}

/// An integer literal of that value, in any base.
pub fn literal(random: &mut Random, value: u128) -> String {
    let zeros = random.pick(&["", "", "", "0", "000"]);
    match random.below(8) {
        0 => format!("0x{zeros}{value:x}"),
        1 => format!("0x{zeros}{value:X}"),
        2 => format!("0b{zeros}{value:b}"),
        3 => format!("0o{zeros}{value:o}"),
        _ => value.to_string(),
    }
}

/// An integer literal of many digits, above 1.
fn long_literal(random: &mut Random) -> String {
    let (prefix, digits): (&str, &[u8]) = random.pick(&[
        ("", b"0123456789".as_slice()),
        ("0x", b"0123456789abcdefABCDEF".as_slice()),
        ("0b", b"01".as_slice()),
        ("0o", b"01234567".as_slice()),
    ]);
    let same = random.once_in(4).then(|| random.pick(digits));
    let length = random.between(17, 90);
    let rest = (0..length).map(|_| char::from(same.unwrap_or(random.pick(digits))));
    let rest: String = rest.collect();
    format!("{prefix}1{rest}")
}

/// The least and the greatest value of an integer type or bool.
pub fn range(primitive: Primitive) -> (i128, i128) {
    match primitive {
        Primitive::Uint(width) => (0, (1 << width) - 1),
        Primitive::Int(width) => (-(1 << (width - 1)), (1 << (width - 1)) - 1),
        _ => (0, 1),
    }
}

/// An initializer that the type holds.
pub fn initializer(random: &mut Random, primitive: Primitive) -> String {
    if let Primitive::Float(width) = primitive {
        return float(random, width);
    }
    let (least, greatest) = range(primitive);
    let any = least + (u128::from(random.next()) % ((greatest - least) as u128 + 1)) as i128;
    let edges = [least, greatest, least + 1, greatest - 1, any, any, any];
    let value = random.pick(&edges);
    let small = random.between(0, 127) as i128;
    let value = if small <= greatest && random.coin() {
        small
    } else {
        value
    };
    of_value(random, value)
}

/// An initializer of a whole value: as a word, a character, an integer or a float.
pub fn of_value(random: &mut Random, value: i128) -> String {
    let kind = random.below(8);
    match (kind, value) {
        (0 | 1, 0) => "false".to_string(),
        (0 | 1, 1) => "true".to_string(),
        (0..=2, 0..=127) => character(random, value as u8),
        (3 | 4, _) => signed(random, value < 0, |random| {
            whole_float(random, value.unsigned_abs())
        }),
        (_, 0) => random
            .pick(&["0", "0x0", "-0x0", "+0b00", "- 0o0", "0.0", "-0e3"])
            .to_string(),
        _ => signed(random, value < 0, |random| {
            literal(random, value.unsigned_abs())
        }),
    }
}

fn signed(random: &mut Random, negative: bool, word: impl Fn(&mut Random) -> String) -> String {
    let sign = match negative {
        true => "-",
        false => random.pick(&["", "", "", "+"]),
    };
    let blanks = if sign.is_empty() {
        ""
    } else {
        perhaps_blanks(random)
    };
    format!("{sign}{blanks}{}", word(random))
}

/// A floating literal of a whole value.
fn whole_float(random: &mut Random, value: u128) -> String {
    let e = random.pick(&["e", "E"]);
    match random.below(5) {
        0 => format!("{value}.0"),
        1 => format!("00{value}{e}0"),
        2 => format!("{value}000{e}-3"),
        3 => format!("{value}.000{e}+00"),
        _ => {
            let digits = value.to_string();
            let (front, back) = digits.split_at(random.index(digits.len() + 1));
            format!("0{front}.{back}0{e}{}", back.len())
        }
    }
}

fn character(random: &mut Random, code: u8) -> String {
    let escape = match code {
        7 => Some('a'),
        8 => Some('b'),
        9 => Some('t'),
        10 => Some('n'),
        11 => Some('v'),
        12 => Some('f'),
        13 => Some('r'),
        0 => Some('0'),
        92 => Some('\\'),
        39 => Some('\''),
        34 => Some('"'),
        _ => None,
    };
    let bare = (32..127).contains(&code) && !b"'\\#".contains(&code);
    match (escape, random.below(3)) {
        (Some(letter), 1..) => format!("'\\{letter}'"),
        (None, 1..) if bare => format!("'{}'", char::from(code)),
        _ if random.coin() => format!("'\\x{code:02x}'"),
        _ => format!("'\\x{code:02X}'"),
    }
}

/// The greatest whole number that a float type holds.
pub fn below_infinity(width: u32) -> String {
    infinity(width).minus(&Natural::of(1)).decimal()
}

fn float(random: &mut Random, width: u32) -> String {
    let edge = below_infinity(width);
    let digits = random.next() % 10_000;
    let (negative, whole) = (random.coin(), u128::from(random.between(1, 65_000)));
    signed(random, negative, |random| match random.below(8) {
        0 => edge.to_string() + random.pick(&["", ".0", ".99999999999999999999", "e0", ".5e0"]),
        1 => format!("{}.{}9e{}", &edge[..1], &edge[1..], edge.len() - 1),
        2 => format!("{digits}e-{}", random.pick(&[1, 60, 400, u64::MAX])),
        3 => format!("0.{}1", "0".repeat(random.index(40))),
        4 => format!("0.0e{}", random.next()),
        5 => format!("{}.{digits}", random.between(0, 65_000)),
        6 => format!("{digits}.{}E+0", random.byte()),
        _ => literal(random, whole),
    })
}
