//! Wrong variants of the reference: the errors that tempt. Each must be caught, or the comparison
//! shows nothing.

use crate::call_mutants;
use crate::calls::Side;
use reference::dsdl::definition::in_form;
use reference::dsdl::kinds::{
    Kind, ABOVE_ASCII, BASE, CAST_NESTED, CONSTANT_TYPE, DIRECTIVE, INFINITE, INTEGER_RANGE,
    LONG_NESTED, MARKER, MORE_WORDS, NAME, NOT_WHOLE, NO_INITIALIZER, NO_ITEM, NUMBER, SIGNED_ZERO,
    SIZE, VOID_NAMED,
};
use reference::dsdl::line::{next_word, read, without_comment, Cast, Field, Line};
use reference::dsdl::natural::Natural;
use reference::dsdl::types::{Base, Bound, Primitive};
use reference::dsdl::{Rules, RULES};

pub struct Mutant {
    pub name: &'static str,
    pub side: Side,
}

/// Reading that takes one kind of wrong line for an empty one.
macro_rules! accepting {
    ($kind:expr) => {
        Rules {
            read: |line| match read(line) {
                Err(kind) if kind == $kind => Ok(Line::Nothing),
                other => other,
            },
            ..RULES
        }
    };
}

pub fn all() -> Vec<Mutant> {
    let rules = TEXTS.iter().chain(&FORMS).chain(&ACCEPTING).chain(&LIMITS);
    let rules = rules.map(|&(name, rules)| Mutant {
        name,
        side: Side::Rules(rules),
    });
    let calls = call_mutants::ALL.iter().map(|&(name, call)| Mutant {
        name,
        side: Side::Call(call),
    });
    rules.chain(calls).collect()
}

/// What a text means.
const TEXTS: [(&str, Rules); 18] = [
    ("union-without-at", reading(union_without_at)),
    (
        "lines-counted-from-0",
        Rules {
            first_line: 0,
            ..RULES
        },
    ),
    (
        "comment-kept",
        Rules {
            without_comment: |line| line,
            ..RULES
        },
    ),
    (
        "number-sign-in-quotes",
        Rules {
            without_comment: quoted,
            ..RULES
        },
    ),
    (
        "carriage-return-is-no-end",
        Rules {
            lines: by_line_feeds,
            ..RULES
        },
    ),
    (
        "carriage-return-and-line-feed-are-two",
        Rules {
            lines: by_each,
            ..RULES
        },
    ),
    (
        "tab-is-no-blank",
        reading(|line| match line.contains(&b'\t') {
            true => Err(NAME),
            false => read(line),
        }),
    ),
    (
        "form-feed-is-blank",
        reading(|line| with_blanks(line, b'\x0c')),
    ),
    (
        "blank-before-size",
        reading(|line| read(&replaced(line, " [", "["))),
    ),
    (
        "equals-without-blanks",
        reading(|line| read(&replaced(line, "=1", " = 1"))),
    ),
    (
        "capital-prefix",
        reading(|line| read(&replaced(line, "0X", "0x"))),
    ),
    (
        "blanks-after-sign-refused",
        reading(|line| {
            let spaced = |sign: &str| has(line, &format!("= {sign} "));
            if spaced("-") || spaced("+") {
                Err(NUMBER)
            } else {
                read(line)
            }
        }),
    ),
    (
        "name-twice-accepted",
        Rules {
            unique_name: |_| None,
            ..RULES
        },
    ),
    (
        "names-of-constants-free",
        Rules {
            unique_name: field_name,
            ..RULES
        },
    ),
    (
        "union-after-constant",
        Rules {
            is_attribute: Line::is_field,
            ..RULES
        },
    ),
    (
        "padding-no-field-of-a-union",
        Rules {
            is_field: |line| matches!(line, Line::Field(_)),
            ..RULES
        },
    ),
    (
        "constants-fields-of-a-union",
        Rules {
            is_field: Line::is_attribute,
            ..RULES
        },
    ),
    (
        "union-fault-at-the-end",
        Rules {
            union_fault: |_, end| end,
            ..RULES
        },
    ),
];

/// What the form and the signature are.
const FORMS: [(&str, Rules); 11] = [
    ("below-left-as-it-is", forming(below_left)),
    ("default-cast-left-out", forming(default_cast_left_out)),
    ("cast-always-saturated", forming(always_saturated)),
    ("constants-kept", forming(constants_kept)),
    ("short-names-kept", forming(short_names_kept)),
    (
        "union-without-at-in-the-form",
        forming(|line, namespace| match line {
            Line::Union => b"\nunion".to_vec(),
            _ => in_form(line, namespace),
        }),
    ),
    (
        "line-feed-at-the-end",
        Rules {
            form_end: b"\n",
            ..RULES
        },
    ),
    (
        "nested-not-extended",
        Rules {
            signature: |own, _| own,
            ..RULES
        },
    ),
    (
        "nested-once-each",
        Rules {
            signature: once_each,
            ..RULES
        },
    ),
    (
        "nested-in-reverse",
        Rules {
            signature: in_reverse,
            ..RULES
        },
    ),
    ("size-cut-to-64-bits", reading(size_cut)),
];

/// What is accepted, or refused, in a line.
const ACCEPTING: [(&str, Rules); 22] = [
    ("directives-accepted", accepting!(DIRECTIVE)),
    ("marker-with-words-accepted", accepting!(MARKER)),
    ("words-behind-a-field-accepted", accepting!(MORE_WORDS)),
    ("any-name-accepted", accepting!(NAME)),
    ("any-base-accepted", accepting!(BASE)),
    ("long-nested-name-accepted", accepting!(LONG_NESTED)),
    ("any-size-accepted", accepting!(SIZE)),
    ("no-item-accepted", accepting!(NO_ITEM)),
    ("void-with-a-name-accepted", accepting!(VOID_NAMED)),
    ("cast-before-nested-accepted", accepting!(CAST_NESTED)),
    ("constant-of-any-type-accepted", accepting!(CONSTANT_TYPE)),
    ("no-initializer-accepted", accepting!(NO_INITIALIZER)),
    ("any-number-accepted", accepting!(NUMBER)),
    ("signed-zero-accepted", accepting!(SIGNED_ZERO)),
    ("above-ascii-accepted", accepting!(ABOVE_ASCII)),
    ("integer-overflow-accepted", accepting!(INTEGER_RANGE)),
    ("fraction-accepted", accepting!(NOT_WHOLE)),
    ("infinity-accepted", accepting!(INFINITE)),
    ("truncated-constant-wraps", reading(truncated_wraps)),
    (
        "float16-bound-65504",
        reading(|line| refusing(line, above_65504, INFINITE)),
    ),
    (
        "literal-kind-must-match",
        reading(|line| refusing(line, float_for_integer, NOT_WHOLE)),
    ),
    (
        "uint65-refused",
        reading(|line| refusing(line, like_a_primitive, BASE)),
    ),
];

/// How many and how long.
const LIMITS: [(&str, Rules); 11] = [
    (
        "nested-service-accepted",
        Rules {
            may_be_nested: |_| true,
            ..RULES
        },
    ),
    (
        "chain-of-five-accepted",
        Rules {
            longest_chain: 5,
            ..RULES
        },
    ),
    (
        "chain-of-four-refused",
        Rules {
            longest_chain: 3,
            ..RULES
        },
    ),
    (
        "union-of-one-accepted",
        Rules {
            union_fields: 1,
            ..RULES
        },
    ),
    (
        "union-of-two-refused",
        Rules {
            union_fields: 3,
            ..RULES
        },
    ),
    (
        "name-of-80-refused",
        Rules {
            longest_name: 79,
            ..RULES
        },
    ),
    (
        "name-of-81-accepted",
        Rules {
            longest_name: 81,
            ..RULES
        },
    ),
    (
        "text-of-4096-refused",
        Rules {
            longest_text: 4095,
            ..RULES
        },
    ),
    (
        "text-of-4097-accepted",
        Rules {
            longest_text: 4097,
            ..RULES
        },
    ),
    (
        "8-definitions-refused",
        Rules {
            most_definitions: 7,
            ..RULES
        },
    ),
    (
        "9-definitions-accepted",
        Rules {
            most_definitions: 9,
            ..RULES
        },
    ),
];

const fn reading(read: fn(&[u8]) -> Result<Line, Kind>) -> Rules {
    Rules { read, ..RULES }
}

const fn forming(in_form: fn(&Line, &[u8]) -> Vec<u8>) -> Rules {
    Rules { in_form, ..RULES }
}

fn replaced(line: &[u8], from: &str, to: &str) -> Vec<u8> {
    match std::str::from_utf8(line) {
        Ok(text) => text.replace(from, to).into_bytes(),
        Err(_) => line.to_vec(),
    }
}

fn has(line: &[u8], part: &str) -> bool {
    line.windows(part.len())
        .any(|window| window == part.as_bytes())
}

fn union_without_at(line: &[u8]) -> Result<Line, Kind> {
    match next_word(line) {
        Some((b"union", rest)) if next_word(rest).is_none() => Ok(Line::Union),
        _ => read(line),
    }
}

/// A comment begins at a number sign that is not between quotes.
fn quoted(line: &[u8]) -> &[u8] {
    match line.windows(3).position(|three| three == b"'#'") {
        Some(at) if !line[..at].contains(&b'#') => {
            let rest = without_comment(&line[at + 3..]).len();
            &line[..at + 3 + rest]
        }
        _ => without_comment(line),
    }
}

fn by_line_feeds(text: &[u8]) -> Vec<&[u8]> {
    let lines = text.split(|&byte| byte == b'\n');
    lines
        .map(|line| line.strip_suffix(b"\r").unwrap_or(line))
        .collect()
}

fn by_each(text: &[u8]) -> Vec<&[u8]> {
    text.split(|byte| b"\r\n".contains(byte)).collect()
}

fn with_blanks(line: &[u8], blank: u8) -> Result<Line, Kind> {
    let one = |&byte: &u8| if byte == blank { b' ' } else { byte };
    read(&line.iter().map(one).collect::<Vec<u8>>())
}

fn field_name(line: &Line) -> Option<&[u8]> {
    match line {
        Line::Field(field) => Some(&field.name),
        _ => None,
    }
}

/// The size as given, where it has at most 128 bits.
fn below_left(line: &Line, namespace: &[u8]) -> Vec<u8> {
    let form = in_form(line, namespace);
    let Line::Field(Field { of, .. }) = line else {
        return form;
    };
    match &of.size {
        Some(size) if size.bound == Bound::Below => {
            let most = size.most.decimal();
            let given = most
                .parse::<u128>()
                .map_or(most.clone(), |most| (most + 1).to_string());
            replaced(&form, &format!("[<={most}]"), &format!("[<{given}]"))
        }
        _ => form,
    }
}

fn default_cast_left_out(line: &Line, namespace: &[u8]) -> Vec<u8> {
    let form = in_form(line, namespace);
    match line {
        Line::Field(Field { cast: None, .. }) => replaced(&form, "\nsaturated ", "\n"),
        _ => form,
    }
}

fn always_saturated(line: &Line, namespace: &[u8]) -> Vec<u8> {
    match line {
        Line::Field(field) if field.cast == Some(Cast::Truncated) => {
            let saturated = Field {
                cast: None,
                ..field.clone()
            };
            in_form(&Line::Field(saturated), namespace)
        }
        _ => in_form(line, namespace),
    }
}

fn constants_kept(line: &Line, namespace: &[u8]) -> Vec<u8> {
    match line {
        Line::Constant(constant) => [b"\n", constant.name.as_slice()].concat(),
        _ => in_form(line, namespace),
    }
}

fn short_names_kept(line: &Line, namespace: &[u8]) -> Vec<u8> {
    let form = in_form(line, namespace);
    match line {
        Line::Field(Field { of, .. }) => match &of.base {
            Base::Nested(name) if !name.contains(&b'.') => {
                [b"\n", &form[namespace.len() + 2..]].concat()
            }
            _ => form,
        },
        _ => form,
    }
}

fn once_each(own: u64, nested: &[u64]) -> u64 {
    let mut different = vec![];
    for signature in nested {
        if !different.contains(signature) {
            different.push(*signature);
        }
    }
    (RULES.signature)(own, &different)
}

fn in_reverse(own: u64, nested: &[u64]) -> u64 {
    let reversed: Vec<u64> = nested.iter().rev().copied().collect();
    (RULES.signature)(own, &reversed)
}

fn size_cut(line: &[u8]) -> Result<Line, Kind> {
    refusing(
        line,
        |line, _| match line {
            Line::Field(Field { of, .. }) => {
                let most = of.size.as_ref().map(|size| &size.most);
                most.is_some_and(|most| *most >= Natural::power_of_2(64))
            }
            _ => false,
        },
        SIZE,
    )
}

/// Refuses some lines more.
fn refusing(line: &[u8], more: fn(&Line, &[u8]) -> bool, kind: Kind) -> Result<Line, Kind> {
    let found = read(line)?;
    if more(&found, line) {
        return Err(kind);
    }
    Ok(found)
}

fn above_65504(line: &Line, _: &[u8]) -> bool {
    match line {
        Line::Constant(constant) if constant.of == Primitive::Float(16) => {
            !constant.value.is_below(&Natural::of(65505))
        }
        _ => false,
    }
}

fn float_for_integer(line: &Line, text: &[u8]) -> bool {
    match line {
        Line::Constant(constant) => !matches!(constant.of, Primitive::Float(_)) && has(text, ".0"),
        _ => false,
    }
}

fn like_a_primitive(line: &Line, _: &[u8]) -> bool {
    match line {
        Line::Field(Field { of, .. }) => of.base == Base::Nested(b"uint65".to_vec()),
        _ => false,
    }
}

fn truncated_wraps(line: &[u8]) -> Result<Line, Kind> {
    match read(line) {
        Err(INTEGER_RANGE) if has(line, "truncated") => Ok(Line::Nothing),
        other => other,
    }
}
