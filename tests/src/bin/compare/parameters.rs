//! Lines about parameters whose answers are known from how the lines are made, apart from the
//! reference: each tag at each place, cuts in each field, texts and names too long, bits left over.

use crate::clipping::{cases_of, HUGE};
use crate::random::Random;
use reference::codec::{absent, Fields, Value};
use reference::messages::{MessageType, NUMERIC_CASES, VALUE_CASES};

const REQUEST: MessageType = MessageType::GetSetRequest;
const RESPONSE: MessageType = MessageType::GetSetResponse;

/// What a line asks for.
pub enum Asking {
    Reading(Vec<u8>),
    /// With no room, or with all.
    Writing(Fields, bool),
}

/// A line, the number that it must be answered by, and the case that it shows.
pub struct Known {
    pub message_type: MessageType,
    pub asking: Asking,
    pub number: u32,
    pub case: &'static str,
}

const INDEX: &str = "cut in the index";
const PADDING: &str = "cut in a padding field";
const INTEGER: &str = "cut in an integer";
const REAL: &str = "cut in a real";
const BOOLEAN: &str = "cut in a boolean";
const LENGTH: &str = "cut in the length of a text";
const TEXT: &str = "cut in a text";
const NAME: &str = "cut in a parameter's name";
const OPCODE: &str = "cut in ExecuteOpcode";
const TEXT_CUT: &str = "text announced too long, and cut";
const TEXT_LONG: &str = "text too long";
const NAME_LONG: &str = "parameter's name too long";
const LEFT: &str = "bits left over not zero";
const LEFT_AND_MORE: &str = "bits left over not zero, and a byte too many";
const BELOW: &str = "tag below 0 to be written";
const BEYOND: &str = "tag beyond the last case to be written";
const TAGS: [&str; 8] = [
    "tag 0 read",
    "tag 1 read",
    "tag 2 read",
    "tag 3 read",
    "tag 4 read",
    "tag 5 read",
    "tag 6 read",
    "tag 7 read",
];
const NUMERIC_TAGS: [&str; 4] = [
    "tag 0 of a number read",
    "tag 1 of a number read",
    "tag 2 of a number read",
    "tag 3 of a number read",
];

/// All cases that these lines show.
pub fn cases() -> Vec<&'static str> {
    let cuts = [
        INDEX, PADDING, INTEGER, REAL, BOOLEAN, LENGTH, TEXT, NAME, OPCODE,
    ];
    let long = [TEXT_CUT, TEXT_LONG, NAME_LONG];
    let others = [LEFT, LEFT_AND_MORE, BELOW, BEYOND];
    [&cuts[..], &long, &others, &TAGS, &NUMERIC_TAGS].concat()
}

/// All of these lines.
pub fn lines(random: &mut Random) -> Vec<Known> {
    let mut lines = every_tag_read(random);
    lines.extend(every_tag_written(random));
    lines.extend(cuts(random));
    lines.extend(texts(random));
    lines.extend(names(random));
    lines.extend(opcodes(random));
    lines
}

fn reading(message_type: MessageType, payload: Vec<u8>, number: u32, case: &'static str) -> Known {
    Known {
        message_type,
        asking: Asking::Reading(payload),
        number,
        case,
    }
}

/// A field of a payload: the case that a cut in it is, and its bytes.
type Part = (&'static str, Vec<u8>);

/// How many cases the union at a place has.
fn cases_at(place: usize) -> usize {
    if place < 2 {
        VALUE_CASES
    } else {
        NUMERIC_CASES
    }
}

/// One tag for a request, four for a response.
fn type_of(tags: &[u8]) -> MessageType {
    if tags.len() == 1 {
        REQUEST
    } else {
        RESPONSE
    }
}

/// A message with these tags, all of its padding and its values random. An unknown tag has nothing
/// of its own behind it.
fn parts(random: &mut Random, tags: &[u8], text: usize) -> Vec<Part> {
    let mut parts = Vec::new();
    for (place, &tag) in tags.iter().enumerate() {
        let above = random.byte() << if cases_at(place) == VALUE_CASES { 3 } else { 2 };
        if type_of(tags) == REQUEST {
            parts.push((INDEX, vec![random.byte(), above | tag]));
        } else {
            parts.push((PADDING, vec![above | tag]));
        }
        match tag {
            _ if usize::from(tag) >= cases_at(place) => (),
            1 => parts.push((INTEGER, random.bytes(8))),
            2 => parts.push((REAL, random.bytes(4))),
            3 => parts.push((BOOLEAN, random.bytes(1))),
            4 => {
                parts.push((LENGTH, vec![text as u8]));
                parts.push((TEXT, random.bytes(text)));
            }
            _ => (),
        }
    }
    let length = random.between(1, 92) as usize;
    parts.push((NAME, random.bytes(length)));
    parts
}

fn joined(parts: &[Part]) -> Vec<u8> {
    parts.iter().flat_map(|(_, bytes)| bytes.clone()).collect()
}

/// Tags that all are those of cases, of a request or of a response.
fn known_tags(random: &mut Random, places: usize) -> Vec<u8> {
    (0..places)
        .map(|place| random.index(cases_at(place)) as u8)
        .collect()
}

/// The tags of all messages that differ in them, as many requests as responses, so many times.
fn every_choice(rounds: usize) -> Vec<Vec<u8>> {
    const CHOICES: u8 = 5 * 5 * 3 * 3;
    let both = |choice: u8| {
        let response = vec![choice / 45, choice / 9 % 5, choice / 3 % 3, choice % 3];
        [vec![choice % 5], response]
    };
    let round = || (0..CHOICES).flat_map(both);
    (0..rounds).flat_map(|_| round()).collect()
}

/// Each place of a union in a message: of how many places, and which.
const PLACES: [(usize, usize); 5] = [(1, 0), (4, 0), (4, 1), (4, 2), (4, 3)];

fn every_tag_read(random: &mut Random) -> Vec<Known> {
    const ROUNDS: usize = 500;
    let mut lines = Vec::new();
    for _ in 0..ROUNDS {
        for (places, place) in PLACES {
            let cases = cases_at(place);
            let names = if cases == VALUE_CASES {
                &TAGS[..]
            } else {
                &NUMERIC_TAGS
            };
            for (tag, &name) in names.iter().enumerate() {
                let mut tags = known_tags(random, places);
                tags[place] = tag as u8;
                let payload = joined(&parts(random, &tags, 3));
                let number = if tag < cases { 0 } else { 27 };
                lines.push(reading(type_of(&tags), payload, number, name));
            }
        }
    }
    lines
}

/// Tags that no case has, sometimes beside what answers 17, with and without room.
fn every_tag_written(random: &mut Random) -> Vec<Known> {
    const ROUNDS: usize = 200;
    const FAR: [i128; 6] = [-HUGE, i64::MIN as i128, -1, 1 << 32, 1 << 64, HUGE];
    let unions = [(REQUEST, "value.tag")].into_iter().chain(
        [
            "value.tag",
            "default_value.tag",
            "max_value.tag",
            "min_value.tag",
        ]
        .map(|union| (RESPONSE, union)),
    );
    let mut lines = Vec::new();
    for (message_type, union) in unions.cycle().take(5 * ROUNDS) {
        let first = cases_of(union).expect("a union") as i128;
        for tag in (first..=first + 4).chain(FAR) {
            let mut fields = absent(message_type);
            for (name, value) in &mut fields {
                let long = random.coin();
                match value {
                    Value::Number(number) if name == union => *number = tag,
                    Value::Number(number) if name.ends_with("tag") => {
                        *number = random.index(cases_of(name).expect("a union")) as i128;
                    }
                    Value::Number(number) => *number = random.next().into(),
                    Value::List(bytes) if long => *bytes = random.bytes(150),
                    _ => (),
                }
            }
            lines.push(Known {
                message_type,
                asking: Asking::Writing(fields, random.coin()),
                number: 27,
                case: if tag < 0 { BELOW } else { BEYOND },
            });
        }
    }
    lines
}

/// Cuts of every choice of cases, one in each field; and every cut of the longest messages.
fn cuts(random: &mut Random) -> Vec<Known> {
    const ROUNDS: usize = 9;
    let mut lines = Vec::new();
    for tags in every_choice(ROUNDS) {
        let text = random.between(1, 128) as usize;
        let parts = parts(random, &tags, text);
        for at in 0..parts.len() {
            let inside = random.index(parts[at].1.len());
            lines.push(cut(&tags, &parts, at, inside));
        }
    }
    for tags in [vec![4], vec![4, 4, 1, 1]] {
        let mut parts = parts(random, &tags, 128);
        parts.last_mut().expect("a name").1 = random.bytes(92);
        for at in 0..parts.len() {
            lines.extend((0..parts[at].1.len()).map(|inside| cut(&tags, &parts, at, inside)));
        }
    }
    lines
}

/// Ends after so many bytes of a field. A name has no end of its own.
fn cut(tags: &[u8], parts: &[Part], at: usize, inside: usize) -> Known {
    let (case, field) = &parts[at];
    let payload = [&joined(&parts[..at])[..], &field[..inside]].concat();
    let number = if *case == NAME { 0 } else { 15 };
    reading(type_of(tags), payload, number, case)
}

/// Texts announced with each length from 129 on: 15 if they are not all there, then 16.
fn texts(random: &mut Random) -> Vec<Known> {
    const ROUNDS: usize = 9;
    let mut lines = Vec::new();
    for length in (129..=255).cycle().take(127 * ROUNDS) {
        let (places, place) = random.pick(&PLACES[..3]);
        let mut tags = known_tags(random, places);
        tags[place] = 4;
        let whole = parts(random, &tags, length);
        // the first text if another is before it, which is as long
        let at = whole.iter().position(|(case, _)| *case == TEXT);
        let before = joined(&whole[..at.expect("a text")]);
        let there = random.index(length);
        let cut = [&before[..], &random.bytes(there)].concat();
        lines.push(reading(type_of(&tags), cut, 15, TEXT_CUT));
        lines.push(reading(type_of(&tags), joined(&whole), 16, TEXT_LONG));
    }
    lines
}

fn names(random: &mut Random) -> Vec<Known> {
    const ROUNDS: usize = 3;
    let mut lines = Vec::new();
    for tags in every_choice(ROUNDS) {
        let mut parts = parts(random, &tags, 5);
        let length = random.between(93, 110) as usize;
        parts.last_mut().expect("a name").1 = random.bytes(length);
        lines.push(reading(type_of(&tags), joined(&parts), 16, NAME_LONG));
    }
    lines
}

/// Every last byte of ExecuteOpcode's response that leaves some bit, and cuts of both halves.
fn opcodes(random: &mut Random) -> Vec<Known> {
    const ROUNDS: usize = 5;
    const HALVES: [MessageType; 2] = [MessageType::OpcodeRequest, MessageType::OpcodeResponse];
    let mut lines = Vec::new();
    for last in (0..=255u8).cycle().take(256 * ROUNDS) {
        for half in HALVES {
            let length = random.index(7);
            lines.push(reading(half, random.bytes(length), 15, OPCODE));
        }
        if last & 0x7F == 0 {
            continue;
        }
        let mut payload = random.bytes(6);
        payload.push(last);
        lines.push(reading(HALVES[1], payload.clone(), 25, LEFT));
        payload.push(random.byte());
        lines.push(reading(HALVES[1], payload, 16, LEFT_AND_MORE));
    }
    lines
}
