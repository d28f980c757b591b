//! Questions to the C entries of messages (RULES 13.5), with the reference's answers, for tests/c/messages.c to compare.
//!
//! `rows [--seed N] [--calls N] [--minimum N] [--wrong NAME]` writes so many questions each way to standard output, and how often
//! each answer of each type is among them to standard error; with --minimum it fails if one is rarer. With --wrong the answers are
//! those of a wrong variant. `rows --list` prints their names.
//!
//! A question is bytes, numbers low byte first: the way (0 reading, 1 writing), the type (1 each); to read a payload (2, bytes) into
//! so many places (1), to write a row (1, numbers of 8) and lists (1, each 2 and bytes) into so much room (2); then the answer: a
//! number (4) and, if it is 0, the row (numbers of 8), or a word (8) and, if that is 0 in its low byte, the message. Last comes a
//! byte 2, and how many there were each way (4 each).

mod questions;
#[path = "../compare/random.rs"]
#[allow(dead_code)]
mod random;
mod wrong;

use questions::{Question, Questions};
use reference::bits::Refusal;
use reference::codec::type_name;
use reference::messages::MessageType;
use reference::rows;
use std::collections::BTreeMap;
use std::io::{self, BufWriter, Write};
use std::process::ExitCode;

const MOST_ROOM: usize = 600;

#[derive(Clone, Copy)]
pub struct Side {
    pub decode: fn(MessageType, &[u8], usize) -> Result<Vec<u64>, Refusal>,
    pub encode: fn(MessageType, &[u64], &[&[u8]], &mut [u8]) -> Result<usize, Refusal>,
}

pub const REFERENCE: Side = Side {
    decode: rows::decode,
    encode: rows::encode,
};

/// How often each answer was given, by way and type.
type Tally = BTreeMap<(&'static str, &'static str, u32), u64>;

fn main() -> ExitCode {
    let mut words = std::env::args().skip(1);
    let (mut seed, mut calls, mut minimum, mut side) = (1, 100_000, 0, REFERENCE);
    while let Some(word) = words.next() {
        if word == "--list" {
            for (name, _) in wrong::all() {
                println!("{name}");
            }
            return ExitCode::SUCCESS;
        }
        let value = words.next().unwrap_or_default();
        let number = || value.parse::<u64>().ok();
        let known = match word.as_str() {
            "--seed" => number().map(|n| seed = n),
            "--calls" => number().map(|n| calls = n),
            "--minimum" => number().map(|n| minimum = n),
            "--wrong" => wrong::all()
                .into_iter()
                .find(|(name, _)| *name == value)
                .map(|(_, wrong)| side = wrong),
            _ => None,
        };
        if known.is_none() {
            eprintln!("usage: rows [--seed N] [--calls N] [--minimum N] [--wrong NAME] | --list");
            return ExitCode::from(2);
        }
    }
    match write_all(seed, calls, side) {
        Ok(tally) => enough(&tally, minimum),
        // the comparison stops reading at the first difference
        Err(error) if error.kind() == io::ErrorKind::BrokenPipe => ExitCode::FAILURE,
        Err(error) => {
            eprintln!("rows: {error}");
            ExitCode::FAILURE
        }
    }
}

fn write_all(seed: u64, calls: u64, side: Side) -> io::Result<Tally> {
    let mut questions = Questions::new(seed);
    let mut out = BufWriter::with_capacity(1 << 16, io::stdout().lock());
    let mut tally = Tally::new();
    for call in 0..calls {
        for question in [questions.reading(call), questions.writing(call)] {
            let (way, number) = write_one(&mut out, &question, side)?;
            *tally
                .entry((way, type_name(question.message_type), number))
                .or_default() += 1;
        }
    }
    out.write_all(&[2])?;
    for _ in 0..2 {
        out.write_all(&(calls as u32).to_le_bytes())?;
    }
    out.flush()?;
    Ok(tally)
}

/// The question and its answer; the way and the number answered.
fn write_one(
    out: &mut impl Write,
    question: &Question,
    side: Side,
) -> io::Result<(&'static str, u32)> {
    let index = MessageType::ALL
        .iter()
        .position(|&one| one == question.message_type);
    let index = index.expect("one of all") as u8;
    let bytes = |out: &mut dyn Write, bytes: &[u8]| -> io::Result<()> {
        out.write_all(&(bytes.len() as u16).to_le_bytes())?;
        out.write_all(bytes)
    };
    let numbers = |out: &mut dyn Write, row: &[u64]| {
        row.iter()
            .try_for_each(|number| out.write_all(&number.to_le_bytes()))
    };
    if let Some(payload) = &question.payload {
        out.write_all(&[0, index])?;
        bytes(out, payload)?;
        out.write_all(&[question.places as u8])?;
        let answer = (side.decode)(question.message_type, payload, question.places);
        let number = answer
            .as_ref()
            .map_or_else(|refusal| refusal.number(), |_| 0);
        out.write_all(&number.to_le_bytes())?;
        numbers(out, &answer.unwrap_or_default())?;
        return Ok(("read", number));
    }
    out.write_all(&[1, index, question.row.len() as u8])?;
    numbers(out, &question.row)?;
    out.write_all(&[question.lists.len() as u8])?;
    for list in &question.lists {
        bytes(out, list)?;
    }
    out.write_all(&(question.room as u16).to_le_bytes())?;
    let lists: Vec<&[u8]> = question.lists.iter().map(Vec::as_slice).collect();
    let mut message = [0; MOST_ROOM];
    let answer = (side.encode)(
        question.message_type,
        &question.row,
        &lists,
        &mut message[..question.room],
    );
    let (number, length) = match answer {
        Ok(length) => (0, length),
        Err(refusal) => (refusal.number(), 0),
    };
    out.write_all(&(u64::from(number) + 256 * length as u64).to_le_bytes())?;
    out.write_all(&message[..length])?;
    Ok(("write", number))
}

fn enough(tally: &Tally, minimum: u64) -> ExitCode {
    let mut lines: BTreeMap<_, String> = BTreeMap::new();
    for ((way, name, number), times) in tally {
        *lines.entry((way, name)).or_default() += &format!("  {number}: {times}");
    }
    for ((way, name), text) in lines {
        eprintln!("{way} {name}{text}");
    }
    let short: Vec<_> = questions::answers()
        .into_iter()
        .filter(|answer| tally.get(answer).copied().unwrap_or(0) < minimum)
        .collect();
    for (way, name, number) in &short {
        eprintln!("seen too rarely: {way} {name} {number}");
    }
    if short.is_empty() {
        ExitCode::SUCCESS
    } else {
        ExitCode::FAILURE
    }
}
