//! Random texts from the grammar, and sets of definitions that nest each other as they may.

use crate::random::Random;
use crate::words::{
    blanks, initializer, name, name_of, perhaps_blanks, perhaps_size, primitive, primitive_word,
};

/// A definition as it is written: its name and its lines.
#[derive(Clone, Debug, Default)]
pub struct Written {
    pub name: Vec<u8>,
    pub lines: Vec<Vec<u8>>,
}

/// Levels of nesting that may be.
const LEVELS: u64 = 4;
const NAMESPACES: [&str; 5] = ["a", "a.b", "uavcan.protocol", "Vendor_1.x", "b"];

/// Definitions in the grammar, each nested in others only as it may be.
pub fn set(random: &mut Random, count: usize, services: bool) -> Vec<Written> {
    let names = names(random, count);
    let levels: Vec<u64> = names.iter().map(|_| random.between(1, LEVELS)).collect();
    let messages: Vec<bool> = names
        .iter()
        .map(|_| !(services && random.once_in(3)))
        .collect();
    (0..count)
        .map(|index| {
            let inner = (0..count).filter(|&one| levels[one] < levels[index] && messages[one]);
            let inner: Vec<String> = inner.map(|one| names[one].clone()).collect();
            let lines = text(random, &names[index], &inner, !messages[index]);
            Written {
                name: names[index].clone().into_bytes(),
                lines,
            }
        })
        .collect()
}

/// Full names, no two equal.
pub fn names(random: &mut Random, count: usize) -> Vec<String> {
    let mut names: Vec<String> = vec![];
    let usual = random.pick(&NAMESPACES);
    while names.len() < count {
        let namespace = match random.below(6) {
            0 => random.pick(&NAMESPACES),
            _ => usual,
        };
        let short = match random.below(16) {
            0 => name_of(random, 79 - namespace.len()),
            1 => random
                .pick(&["uint65", "void0", "int1", "uint8"])
                .to_string(),
            _ => name_of(random, 1 + names.len() % 4),
        };
        let name = format!("{namespace}.{short}");
        if !names.contains(&name) {
            names.push(name);
        }
    }
    names
}

/// The lines of a text in the grammar.
pub fn text(random: &mut Random, name: &str, inner: &[String], service: bool) -> Vec<Vec<u8>> {
    let mut lines = part(random, name, inner);
    if service {
        lines.push(b"---".to_vec());
        lines.extend(part(random, name, inner));
    }
    lines
        .into_iter()
        .map(|line| dressed(random, line))
        .collect()
}

/// The lines of a request, a response or a message.
fn part(random: &mut Random, name: &str, inner: &[String]) -> Vec<Vec<u8>> {
    let union = random.once_in(4);
    let count = match random.below(12) {
        0 => random.below(30),
        _ => random.below(6),
    };
    let fewest = if union { 2 } else { 0 };
    let mut used = vec![];
    let mut lines: Vec<String> = vec![];
    if union {
        lines.push("@union".to_string());
    }
    for index in 0..count + fewest {
        if index < fewest || random.once_in(2) {
            lines.push(field(random, name, inner, &mut used));
        } else {
            lines.push(other(random, &mut used));
        }
    }
    lines.into_iter().map(String::into_bytes).collect()
}

fn new_name(random: &mut Random, used: &mut Vec<String>) -> String {
    loop {
        let name = name(random);
        if !used.contains(&name) {
            used.push(name.clone());
            return name;
        }
    }
}

fn field(random: &mut Random, name: &str, inner: &[String], used: &mut Vec<String>) -> String {
    let front = if !inner.is_empty() && random.once_in(3) {
        reference(name, &inner[random.index(inner.len())], random.once_in(4))
    } else {
        cast(random) + &primitive_word(primitive(random))
    };
    let size = perhaps_size(random);
    format!("{front}{size}{}{}", blanks(random), new_name(random, used))
}

/// A nested type from within a definition: by its short name where that does.
pub fn reference(from: &str, to: &str, full: bool) -> String {
    let namespace = |name: &str| name.rsplit_once('.').map(|(front, _)| front.to_string());
    let short = to.rsplit_once('.').map_or(to, |(_, short)| short);
    let primitive = ["uint8", "saturated", "truncated"].contains(&short);
    if full || primitive || namespace(from) != namespace(to) {
        to.to_string()
    } else {
        short.to_string()
    }
}

fn cast(random: &mut Random) -> String {
    let cast = random.pick(&["", "", "saturated", "truncated"]);
    match cast {
        "" => String::new(),
        _ => cast.to_string() + blanks(random),
    }
}

/// Padding, a constant or nothing.
fn other(random: &mut Random, used: &mut Vec<String>) -> String {
    match random.below(4) {
        0 => String::new(),
        1 => format!("void{}", random.between(1, 64)),
        _ => constant(random, used),
    }
}

fn constant(random: &mut Random, used: &mut Vec<String>) -> String {
    let of = primitive(random);
    let words = [
        cast(random) + &primitive_word(of),
        new_name(random, used),
        "=".to_string(),
        initializer(random, of),
    ];
    words.join(blanks(random))
}

/// A line with blanks and a comment around it.
fn dressed(random: &mut Random, line: Vec<u8>) -> Vec<u8> {
    if random.once_in(2) {
        return line;
    }
    let mut whole = perhaps_blanks(random).as_bytes().to_vec();
    whole.extend(line);
    whole.extend(perhaps_blanks(random).as_bytes());
    if random.coin() {
        whole.push(b'#');
        whole.extend(comment(random, 20));
    }
    whole
}

/// Bytes of a comment, at most so many.
pub fn comment(random: &mut Random, most: usize) -> Vec<u8> {
    let length = random.index(most + 1);
    let printed = random.coin();
    let one = |byte: u8| match byte {
        b'\n' | b'\r' => b'#',
        _ if printed => 32 + byte % 95,
        _ => byte,
    };
    random.bytes(length).into_iter().map(one).collect()
}

impl Written {
    /// The text, with one kind of line end or several.
    pub fn text(&self, random: &mut Random) -> Vec<u8> {
        let ends = ["\n", "\n", "\r\n", "\r"];
        let usual = random.pick(&ends);
        let mixed = random.once_in(6);
        let mut text = vec![];
        for (index, line) in self.lines.iter().enumerate() {
            if index > 0 {
                let end = if mixed { random.pick(&ends) } else { usual };
                text.extend(end.as_bytes());
            }
            text.extend(line);
        }
        if random.coin() {
            text.extend(usual.as_bytes());
        }
        text
    }

    pub fn insert(&mut self, random: &mut Random, line: Vec<u8>) {
        let at = random.index(self.lines.len() + 1);
        self.lines.insert(at, line);
    }
}
