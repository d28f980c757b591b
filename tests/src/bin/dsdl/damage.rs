//! What is wrong with a set of definitions: one thing in one place.

use crate::random::Random;
use crate::texts::{comment, names, reference, text, Written};
use crate::words::{blanks, name, name_of, primitive, primitive_word};
use crate::wrong_lines::MAKERS;

pub type Damage = fn(&mut Random, &mut Vec<Written>);

/// Damage to the lines of a set.
pub const LINES: [Damage; 6] = [
    second_marker,
    union_late,
    second_union,
    name_twice,
    few_at_marker,
    few_at_end,
];

/// Damage to names, nesting and limits.
pub const SETS: [Damage; 11] = [
    wrong_name,
    no_namespace,
    long_name,
    not_given,
    nested_service,
    in_itself,
    circle,
    chain,
    too_many,
    too_long,
    equal_names,
];

/// Damage that does not know the language.
pub const BYTES: [fn(&mut Random, &mut Vec<u8>); 3] = [byte_changed, byte_inserted, byte_removed];

fn any<'a>(random: &mut Random, set: &'a mut Vec<Written>) -> &'a mut Written {
    if set.is_empty() {
        set.push(Written {
            name: b"a.T".to_vec(),
            lines: vec![],
        });
    }
    let index = random.index(set.len());
    &mut set[index]
}

/// Puts a line that is wrong by itself somewhere.
pub fn wrong_line(random: &mut Random, set: &mut Vec<Written>) {
    let line = random.pick(&MAKERS)(random).into_bytes();
    any(random, set).insert(random, line);
}

pub fn line_moved(random: &mut Random, set: &mut Vec<Written>) {
    let lines = &mut any(random, set).lines;
    if lines.is_empty() {
        return;
    }
    let (one, other) = (random.index(lines.len()), random.index(lines.len()));
    match random.below(3) {
        0 => lines.insert(other, lines[one].clone()),
        1 => lines.swap(one, other),
        _ => drop(lines.remove(one)),
    }
}

fn second_marker(random: &mut Random, set: &mut Vec<Written>) {
    let one = any(random, set);
    for _ in 0..2 {
        one.insert(random, b"---".to_vec());
    }
}

fn union_late(random: &mut Random, set: &mut Vec<Written>) {
    let line = match random.below(3) {
        0 => "void8".to_string(),
        1 => "bool LATE = true".to_string(),
        _ => "uint8 late".to_string(),
    };
    let one = any(random, set);
    one.lines.insert(0, line.into_bytes());
    let at = random.between(1, one.lines.len() as u64) as usize;
    one.lines.insert(at, b"@union".to_vec());
}

fn second_union(random: &mut Random, set: &mut Vec<Written>) {
    let one = any(random, set);
    let unions = random.between(2, 3);
    for _ in 0..unions {
        one.lines.insert(0, b" @union".to_vec());
    }
}

/// The attribute's name comes again: in a field, in a constant, or both.
fn name_twice(random: &mut Random, set: &mut Vec<Written>) {
    let name = name(random);
    let one = any(random, set);
    for _ in 0..2 {
        let of = primitive_word(primitive(random));
        let constant = random.pick(&["", " = 1", " = false"]);
        let line = format!("{of}{}{name}{constant}", blanks(random));
        one.insert(random, line.into_bytes());
    }
}

/// The lines of a union with one field or none.
fn few(random: &mut Random) -> Vec<Vec<u8>> {
    let mut lines = vec![b"@union".to_vec()];
    if random.coin() {
        lines.push(random.pick(&["void8", "uint8 only", "bool[3] only"]).into());
    }
    for number in 0..random.below(4) {
        let line = random.pick(&["", "# field", "int8 C_ = 'c'"]);
        let line = line.replace('_', &number.to_string());
        let at = random.between(1, lines.len() as u64) as usize;
        lines.insert(at, line.into_bytes());
    }
    if random.coin() {
        lines.insert(0, b"# a union".to_vec());
    }
    lines
}

fn few_at_marker(random: &mut Random, set: &mut Vec<Written>) {
    let mut lines = few(random);
    lines.push(b"---".to_vec());
    let one = any(random, set);
    one.lines.retain(|line| line != b"---");
    lines.append(&mut one.lines);
    one.lines = lines;
}

fn few_at_end(random: &mut Random, set: &mut Vec<Written>) {
    let lines = few(random);
    let one = any(random, set);
    if !one.lines.iter().any(|line| line == b"---") {
        one.lines.push(b"---".to_vec());
    }
    let marker = one.lines.iter().position(|line| line == b"---");
    one.lines.truncate(marker.expect("a marker") + 1);
    if random.coin() {
        one.lines.clear();
    }
    one.lines.extend(lines);
}

/// Perhaps with a line at fault, too, which does not decide.
fn wrong_name(random: &mut Random, set: &mut Vec<Written>) {
    let line = random.pick(&MAKERS)(random).into_bytes();
    let one = any(random, set);
    if random.once_in(3) {
        one.lines.push(line);
    }
    let at = random.index(one.name.len());
    match random.below(4) {
        0 => one.name.truncate(at.min(1)),
        1 => one.name.insert(at, random.pick(b".-_ 9#\n\0")),
        2 => one.name.push(random.pick(b".- [\t\xff")),
        _ => {
            one.name = random
                .pick(&["", ".", "a..b", "9.a", "a.9", ".a.b", "a.b c"])
                .into()
        }
    }
}

fn no_namespace(random: &mut Random, set: &mut Vec<Written>) {
    let length = random.pick(&[1, 5, 80]);
    any(random, set).name = name_of(random, length).into_bytes();
}

fn long_name(random: &mut Random, set: &mut Vec<Written>) {
    let length = random.pick(&[79, 79, 80, 200]);
    let name = format!("a.{}", name_of(random, length));
    any(random, set).name = name.into_bytes();
}

/// A nested type that nobody gives: unknown, of another case, or half qualified.
fn not_given(random: &mut Random, set: &mut Vec<Written>) {
    let one = any(random, set);
    let own = String::from_utf8_lossy(&one.name).into_owned();
    let of = match random.below(4) {
        0 => format!("b.{}", name_of(random, 6)),
        1 => own.to_uppercase() + "_",
        2 => "uint65".to_string(),
        _ => name_of(random, 79),
    };
    let line = format!("{of} {}", name_of(random, 12));
    one.insert(random, line.into_bytes());
}

/// A definition of some namespace, with lines in it.
fn added(random: &mut Random, set: &mut Vec<Written>, lines: Vec<Vec<u8>>) -> String {
    let name = format!("a.{}", name_of(random, 9));
    let at = random.index(set.len() + 1);
    let written = Written {
        name: name.clone().into_bytes(),
        lines,
    };
    set.insert(at, written);
    set.truncate(8);
    name
}

fn nested_service(random: &mut Random, set: &mut Vec<Written>) {
    let service = added(random, set, vec![b"---".to_vec()]);
    any(random, set)
        .lines
        .push(format!("{service} of_a_service").into_bytes());
}

fn in_itself(random: &mut Random, set: &mut Vec<Written>) {
    let one = any(random, set);
    let own = String::from_utf8_lossy(&one.name).into_owned();
    let of = reference(&own, &own, random.coin());
    one.lines.retain(|line| line != b"---");
    one.lines.push(format!("{of}[<=2] in_itself").into_bytes());
}

/// Replaces a set by new messages of which each names one in the next, the last one too if in a circle.
fn row(random: &mut Random, set: &mut Vec<Written>, count: usize, circle: bool) {
    let names = names(random, count);
    *set = names
        .iter()
        .enumerate()
        .map(|(index, name)| {
            let mut lines = text(random, name, &[], false);
            let next = match names.get(index + 1) {
                Some(next) => Some(next),
                None if circle => names.first(),
                None => None,
            };
            if let Some(next) = next {
                let of = reference(name, next, random.coin());
                lines.push(format!("{of} next_in_the_row").into_bytes());
            }
            Written {
                name: name.clone().into_bytes(),
                lines,
            }
        })
        .collect();
    for index in 1..set.len() {
        set.swap(index, random.index(index + 1));
    }
}

fn circle(random: &mut Random, set: &mut Vec<Written>) {
    let count = random.between(2, 8) as usize;
    row(random, set, count, true);
}

fn chain(random: &mut Random, set: &mut Vec<Written>) {
    let count = random.pick(&[5, 5, 5, 6, 8]);
    row(random, set, count, false);
}

/// As many in a row as there may be; no damage.
pub fn longest_row(random: &mut Random, set: &mut Vec<Written>) {
    row(random, set, 4, false);
}

fn too_many(random: &mut Random, set: &mut Vec<Written>) {
    let count = random.pick(&[9, 9, 10, 20]);
    for name in names(random, count) {
        set.push(Written {
            name: name.into_bytes(),
            lines: vec![],
        });
    }
    set.truncate(count);
}

/// Adds a comment, so that the text has at least so many bytes.
pub fn lengthen(random: &mut Random, one: &mut Written, length: usize) {
    let there: usize = one.lines.iter().map(|line| line.len() + 1).sum();
    let mut line = b"#".to_vec();
    while there + line.len() < length {
        line.extend(comment(random, 60));
    }
    line.truncate(length.saturating_sub(there));
    one.lines.push(line);
}

fn too_long(random: &mut Random, set: &mut Vec<Written>) {
    let length = random.pick(&[4097, 4097, 4098, 5000, 9000]);
    let one = any(random, set);
    lengthen(random, one, length);
}

fn equal_names(random: &mut Random, set: &mut Vec<Written>) {
    let name = any(random, set).name.clone();
    let name = random
        .pick(&[name.as_slice(), name.as_slice(), b"9", b""])
        .to_vec();
    while set.len() < 2 {
        set.push(Written::default());
    }
    set.truncate(8);
    let one = random.index(set.len());
    let other = (one + 1 + random.index(set.len() - 1)) % set.len();
    set[one].name.clone_from(&name);
    set[other].name = name;
}

fn byte_changed(random: &mut Random, text: &mut Vec<u8>) {
    if !text.is_empty() {
        let at = random.index(text.len());
        text[at] = byte(random);
    }
}

fn byte_inserted(random: &mut Random, text: &mut Vec<u8>) {
    let at = random.index(text.len() + 1);
    text.insert(at, byte(random));
}

fn byte_removed(random: &mut Random, text: &mut Vec<u8>) {
    if !text.is_empty() {
        text.remove(random.index(text.len()));
    }
}

/// Any byte; more often one that means something.
fn byte(random: &mut Random) -> u8 {
    let any = random.byte();
    let other = random.pick(b" \t\n\r#@-=[]<>+.'\\_0129abcdefEoxXtu");
    random.pick(&[any, other, other])
}
