//! Random lines that are wrong by themselves, a maker for each kind of fault.

use crate::random::Random;
use crate::words::{
    blanks, initializer, literal, name, name_of, of_value, perhaps_blanks, perhaps_size, primitive,
    primitive_word, range, width,
};
use reference::dsdl::number::infinity;
use reference::dsdl::types::Primitive;

pub const MAKERS: [fn(&mut Random) -> String; 23] = [
    no_line,
    directive,
    bare_union,
    marker,
    no_name,
    more_words,
    wrong_name,
    wrong_base,
    long_nested,
    wrong_size,
    blank_inside,
    no_item,
    void_named,
    cast_nested,
    constant_type,
    no_initializer,
    no_number,
    signed_zero,
    no_character,
    above_ascii,
    integer_range,
    not_whole,
    infinite,
];

fn one_of(random: &mut Random, words: &[&str]) -> String {
    random.pick(words).to_string()
}

/// A character that is in no word.
fn odd(random: &mut Random) -> char {
    let any = char::from(random.between(1, 31) as u8);
    let any = if "\n\r\t".contains(any) {
        '\u{7f}'
    } else {
        any
    };
    random.pick(&[
        '-', '.', '[', ']', '!', ';', ',', '=', '\'', '\u{e9}', '\x0c', '\0', any,
    ])
}

fn words(random: &mut Random, words: &[&str]) -> String {
    words.join(blanks(random))
}

fn primitive_type(random: &mut Random) -> String {
    primitive_word(primitive(random)) + &perhaps_size(random)
}

fn integer_type(random: &mut Random) -> Primitive {
    let width = width(random, 2);
    random.pick(&[
        Primitive::Bool,
        Primitive::Int(width),
        Primitive::Uint(width),
    ])
}

/// `TYPE NAME = INITIALIZER`.
fn constant(random: &mut Random, of: Primitive, initializer: &str) -> String {
    let cast = random.pick(&["", "", "saturated ", "truncated "]);
    let (of, name) = (primitive_word(of), name(random));
    cast.to_string() + &words(random, &[&of, &name, "=", initializer])
}

fn no_line(random: &mut Random) -> String {
    let word = name(random);
    match random.below(3) {
        0 => one_of(
            random,
            &[
                "--", "----", "-", "=", "9", "*", "\u{feff}", "[3]", "void8[0]",
            ],
        ),
        1 => format!("{word}{}", odd(random)),
        _ => format!("{}{word}", odd(random)),
    }
}

fn directive(random: &mut Random) -> String {
    let other = name(random);
    match random.below(4) {
        0 => format!("@{other}_"),
        1 => words(random, &["@union", &other]),
        2 => format!("@union{}", odd(random)),
        _ => one_of(
            random,
            &["@", "@Union", "@UNION", "@ union", "@@union", "@unions"],
        ),
    }
}

/// The directive without its sign, as some texts have it.
fn bare_union(random: &mut Random) -> String {
    perhaps_blanks(random).to_string() + "union" + perhaps_blanks(random)
}

fn marker(random: &mut Random) -> String {
    let more = random.pick(&["-", "---", "@union", "void5", "="]);
    words(random, &["---", more])
}

fn no_name(random: &mut Random) -> String {
    let of = primitive_type(random);
    let nested = name_of(random, 6);
    match random.below(5) {
        0 => of,
        1 => words(random, &["saturated", &of]),
        2 => one_of(
            random,
            &["union", "saturated", "truncated", "void0", "void65", "uint"],
        ),
        3 => format!("void8{}", "[3]"),
        _ => nested,
    }
}

fn more_words(random: &mut Random) -> String {
    let (of, first, second) = (primitive_type(random), name(random), name(random));
    let more = random.pick(&["==", "-", "[3]", "@union", ",", second.as_str()]);
    words(random, &[&of, &first, more])
}

fn wrong_name(random: &mut Random) -> String {
    let (of, name) = (primitive_type(random), name(random));
    let wrong = match random.below(4) {
        0 => format!("{}{name}", random.below(10)),
        1 => format!("_{name}"),
        2 => format!("{name}=1"),
        _ => format!("{name}{}", odd(random)),
    };
    words(random, &[&of, &wrong])
}

fn wrong_base(random: &mut Random) -> String {
    let (part, field) = (name(random), name(random));
    let base = match random.below(6) {
        0 => format!("{part}..{part}"),
        1 => format!(".{part}"),
        2 => format!("{part}."),
        3 => format!("a.{}{part}", random.below(10)),
        4 => format!("{part}!{part}"),
        _ => format!("a._{part}"),
    };
    words(random, &[&base, &field])
}

fn long_nested(random: &mut Random) -> String {
    let length = random.pick(&[81, 82, 100, 300]);
    let front = random.between(1, 79) as usize;
    let base = format!(
        "{}.{}",
        name_of(random, front),
        name_of(random, length - front - 1)
    );
    words(random, &[&base, "x"])
}

fn wrong_size(random: &mut Random) -> String {
    let (of, field) = (primitive_word(primitive(random)), name(random));
    let value = u128::from(random.between(1, 300));
    let x = literal(random, value);
    let size = match random.below(10) {
        0 => one_of(
            random,
            &[
                "[]", "[<]", "[<=]", "[", "]", "[+]", "[-]", "[=3]", "[>3]", "[<==3]",
            ],
        ),
        1 => format!("[-{x}]"),
        2 => format!("[<-{x}]"),
        3 => format!("[{x}"),
        4 => format!("[{x}][{x}]"),
        5 => format!("[0{value}]"),
        6 => format!(
            "[{}{value}]",
            random.pick(&["0X", "0B", "++", "<<", "x", " ", "=<"])
        ),
        7 => format!(
            "[{value}{}]",
            random.pick(&[".0", "e1", "u", " ", "]", "x", "'"])
        ),
        8 => one_of(
            random,
            &[
                "[0x]", "[0b2]", "[0o8]", "[0xg]", "['a']", "[true]", "[1_0]",
            ],
        ),
        _ => format!("[{x}]{}", random.pick(&["]", "x", "[", ".", "=", "<"])),
    };
    words(random, &[&format!("{of}{size}"), &field])
}

/// A type that is right but for blanks in it.
fn blank_inside(random: &mut Random) -> String {
    let (of, field) = (primitive_word(primitive(random)), name(random));
    let (blanks, x) = (blanks(random), random.between(2, 300));
    let size = random.pick(&[
        "_[x]", "[_x]", "[x_]", "_[<x]", "[<_x]", "[<=_x]", "[<_=x]", "_[<=x]",
    ]);
    let size = size.replace('_', blanks).replace('x', &x.to_string());
    words(random, &[&format!("{of}{size}"), &field])
}

fn no_item(random: &mut Random) -> String {
    let of = primitive_word(primitive(random));
    let zeros = "0".repeat(random.index(30));
    let size = match random.below(4) {
        0 => one_of(random, &["[0]", "[<0]", "[<=0]", "[<1]", "[+0]", "[<+1]"]),
        1 => format!("[0x0{zeros}]"),
        2 => format!("[<0b{zeros}1]"),
        _ => format!("[<=0o{zeros}0]"),
    };
    words(random, &[&format!("{of}{size}"), "x"])
}

fn void_named(random: &mut Random) -> String {
    let (of, name) = (format!("void{}", random.between(1, 64)), name(random));
    let sized = format!("{of}[3]");
    match random.below(5) {
        0 => words(random, &["saturated", &of]),
        1 => words(random, &["truncated", &of, &name]),
        2 => words(random, &[&sized, &name]),
        3 => words(random, &[&of, &name, "=", "0"]),
        _ => words(random, &[&of, &name]),
    }
}

fn cast_nested(random: &mut Random) -> String {
    let (nested, field) = (name_of(random, 5), name(random));
    let nested = random.pick(&["", "a.", "b.c."]).to_string() + &nested + &perhaps_size(random);
    let cast = random.pick(&["saturated", "truncated"]);
    words(random, &[cast, &nested, &field])
}

fn constant_type(random: &mut Random) -> String {
    let array = primitive_word(primitive(random)) + "[3]";
    let nested = "a.".to_string() + &name(random);
    let of = random.pick(&[array.as_str(), nested.as_str(), "uint65", "int1", "float24"]);
    words(random, &[of, "X", "=", "1"])
}

fn no_initializer(random: &mut Random) -> String {
    let of = primitive(random);
    let line = constant(random, of, "");
    line.trim_end().to_string() + perhaps_blanks(random)
}

fn no_number(random: &mut Random) -> String {
    let of = primitive(random);
    let right = initializer(random, of);
    let wrong = match random.below(5) {
        0 => one_of(
            random,
            &[
                "00", "012", "0X1", "0B1", "0O7", "0x", "0b", "0o", "0b2", "0o8", "0xg",
            ],
        ),
        1 => one_of(
            random,
            &[
                ".5", "5.", "5.e1", "1e", "1e+", "e1", "1.0f", "0x1.0", "1e1.0", "1.2.3",
            ],
        ),
        2 => one_of(
            random,
            &[
                "True", "-true", "+ false", "NaN", "inf", "-inf", "a", "\"a\"", "- 'a'",
            ],
        ),
        3 => one_of(
            random,
            &[
                "--1", "+-1", "-", "+", "- -1", "1-", "1_000", "1 0", "1e 1", "= 1", "-00",
            ],
        ),
        _ if right.starts_with('\'') => "a".to_string() + &right,
        _ => right + random.pick(&[" 1", "x", ".", "'", "_", ","]),
    };
    constant(random, of, &wrong)
}

fn signed_zero(random: &mut Random) -> String {
    let of = primitive(random);
    let zero = random.pick(&["-", "+"]).to_string() + perhaps_blanks(random) + "0";
    constant(random, of, &zero)
}

fn no_character(random: &mut Random) -> String {
    let letter = char::from(random.pick(b"cdeghijklmopqsuwxyzABNT123 #"));
    let wrong = match random.below(3) {
        0 => format!("'\\{letter}'"),
        1 => one_of(
            random,
            &[
                "'''", "'\\'", "''", "'ab'", "'a", "'", "'a' b", "'#'", "'\t'", "'\u{e9}'",
            ],
        ),
        _ => one_of(
            random,
            &[
                "'\\x7'", "'\\x007'", "'\\x+7'", "'\\X41'", "'\\xg0'", "'\\x'", "'\x7f'", "'\\",
            ],
        ),
    };
    constant(random, Primitive::Uint(8), &wrong)
}

fn above_ascii(random: &mut Random) -> String {
    let code = random.pick(&[128, 129, 160, 255, 200]);
    let of = Primitive::Uint(random.pick(&[8, 16, 64]));
    let character = match random.coin() {
        true => format!("'\\x{code:02x}'"),
        false => format!("'\\x{code:02X}'"),
    };
    constant(random, of, &character)
}

fn integer_range(random: &mut Random) -> String {
    let of = integer_type(random);
    let (least, greatest) = range(of);
    let far = i128::from(random.next());
    let value = random.pick(&[
        least - 1,
        greatest + 1,
        greatest + 1,
        least - 1 - far,
        greatest + 1 + far,
    ]);
    let initializer = match random.below(8) {
        0 => format!(
            "1e{}",
            random.pick(&[20, 99, 400, 4_000_000_000u64, u64::MAX])
        ),
        1 => format!("1{}", "0".repeat(random.between(20, 200) as usize)),
        2 => format!("-0x1{}", "0".repeat(random.between(17, 200) as usize)),
        _ => of_value(random, value),
    };
    constant(random, of, &initializer)
}

fn not_whole(random: &mut Random) -> String {
    let of = integer_type(random);
    let (least, greatest) = range(of);
    let near = random.pick(&[least, greatest, 0, 1]);
    let initializer = match random.below(4) {
        0 => format!("{near}.5"),
        1 => format!("{near}.{}1", "0".repeat(random.index(60))),
        2 => format!("1e-{}", random.pick(&[1, 20, 400, u64::MAX])),
        _ => format!("{}1e-1", greatest),
    };
    constant(random, of, &initializer)
}

fn infinite(random: &mut Random) -> String {
    let width = random.pick(&[16, 32, 64]);
    let bound = infinity(width).decimal();
    let sign = random.pick(&["", "+", "-", "- "]);
    let initializer = match random.below(5) {
        0 => format!("{sign}{bound}.0"),
        1 => format!("{sign}{}.{}e{}", &bound[..1], &bound[1..], bound.len() - 1),
        2 => format!(
            "{sign}1e{}",
            random.pick(&[309, 400, 4_000_000_000, u64::MAX])
        ),
        3 => format!("{sign}{bound}{}", "0".repeat(random.index(200))),
        _ => format!("{sign}{bound}"),
    };
    constant(random, Primitive::Float(width), &initializer)
}
