//! Calls compared: sets of definitions from the grammar, and the same with one thing wrong.

use crate::damage::{self, lengthen, BYTES, LINES, SETS};
use crate::lent::{Lent, Pair};
use crate::random::Random;
use crate::tally::{compare, Difference, Tally};
use crate::texts::{set, Written};
use reference::dsdl::call::{told, Refusal, Signed, LENGTH_SIZE, RECORD_SIZE};
use reference::dsdl::kinds;
use reference::dsdl::{Rules, RULES};

const LONGEST_TEXT: usize = 4096;
const MOST_DEFINITIONS: usize = 8;

/// Cases beside the kinds of refusals.
const CASES: [&str; 18] = [
    "0: no definition",
    "0: 8 definitions",
    "0: a text of 4,096 bytes",
    "0: a name of 80 characters",
    "0: a service",
    "0: a union",
    "0: a nested type",
    "0: a chain of four",
    "0: a size beyond 64 bits",
    "0: lines that end with a carriage return",
    "0: an output of just the forms' length",
    "0: just as many records as definitions",
    "0: bytes behind the last text",
    "40: the name, line 0",
    "40: a line above 15",
    "40: a definition that is not the first",
    "40: output or records too short as well",
    "40: another definition at fault as well",
];

/// The buffers of a call.
pub struct Buffers<'a> {
    pub source: &'a mut Lent,
    pub lengths: &'a mut Lent,
    pub out: &'a mut Lent,
    pub records: &'a mut Lent,
}

/// The result word.
pub type Call = fn(&mut Buffers) -> u64;

/// Who is compared with the reference.
#[derive(Clone, Copy)]
pub enum Side {
    /// The reference with one of its rules replaced, or as it is.
    Rules(Rules),
    Call(Call),
}

impl Side {
    fn call(&self, buffers: &mut Buffers) -> u64 {
        match self {
            Side::Rules(rules) => rules.call(
                buffers.source.content(),
                buffers.lengths.content(),
                buffers.out.content_mut(),
                buffers.records.content_mut(),
            ),
            Side::Call(call) => call(buffers),
        }
    }
}

/// What the maker of a set knows of the answer.
#[derive(Clone, Copy, PartialEq, Eq)]
enum Expected {
    Success,
    Fault,
    Unknown,
}

/// Name and text.
type Bytes = (Vec<u8>, Vec<u8>);

pub struct Calls {
    side: Side,
    random: Random,
    pub texts: u64,
    pub tally: Tally,
}

impl Calls {
    pub fn new(side: Side, seed: u64) -> Calls {
        let cases: Vec<&str> = kinds::ALL.into_iter().chain(CASES).collect();
        Calls {
            side,
            random: Random::new(seed),
            texts: 0,
            tally: Tally::new("signatures", &[0, 8, 40, 41, 42, 43], &cases),
        }
    }

    /// Compares so many texts and a few more.
    pub fn run(&mut self, texts: u64) -> Result<(), Difference> {
        while self.texts < texts {
            let count = self.random.pick(&[1, 1, 1, 1, 2, 2, 2, 3, 4, 8]);
            let count = if self.random.once_in(40) { 0 } else { count };
            let services = self.random.coin();
            let set = set(&mut self.random, count, services);
            self.right(set.clone())?;
            self.wrong(set)?;
        }
        Ok(())
    }

    /// A set as it is, perhaps with a text or a chain as long as there may be.
    fn right(&mut self, mut set: Vec<Written>) -> Result<(), Difference> {
        let random = &mut self.random;
        match random.below(24) {
            0 => damage::longest_row(random, &mut set),
            1 => {
                if let Some(one) = set.first_mut() {
                    lengthen(random, one, LONGEST_TEXT - 1);
                }
            }
            _ => {}
        }
        let mut given = written(random, &set);
        if let Some((_, text)) = given.first_mut() {
            if random.once_in(40) && text.len() < LONGEST_TEXT {
                let filled = if text.contains(&b'#') { b' ' } else { b'\n' };
                text.resize(LONGEST_TEXT, filled);
            }
        }
        let fits = given.iter().all(|(_, text)| text.len() <= LONGEST_TEXT);
        self.compare(
            &given,
            if fits {
                Expected::Success
            } else {
                Expected::Unknown
            },
        )
    }

    fn wrong(&mut self, mut set: Vec<Written>) -> Result<(), Difference> {
        let random = &mut self.random;
        let mut expected = Expected::Unknown;
        let group = random.below(10);
        match group {
            0..=3 => {
                damage::wrong_line(random, &mut set);
                expected = Expected::Fault;
            }
            4 => random.pick(&LINES)(random, &mut set),
            5 | 6 => random.pick(&SETS)(random, &mut set),
            7 => damage::line_moved(random, &mut set),
            8 if random.once_in(4) => {
                damage::wrong_line(random, &mut set);
                damage::wrong_line(random, &mut set);
                expected = Expected::Fault;
            }
            _ => {}
        }
        let mut given = written(random, &set);
        let length = given.len();
        if group == 8 && length > 0 {
            let text = &mut given[random.index(length)].1;
            random.pick(&BYTES)(random, text);
        }
        let fits = given.iter().all(|(_, text)| text.len() <= LONGEST_TEXT);
        if !fits || length > MOST_DEFINITIONS {
            expected = Expected::Unknown;
        }
        if group == 9 {
            return self.without_room(&given);
        }
        self.compare(&given, expected)
    }

    /// A call with room for what it gives, or perhaps less under a refusal.
    fn compare(&mut self, given: &[Bytes], expected: Expected) -> Result<(), Difference> {
        let (source, lengths) = self.source(given);
        let answer = RULES.answer(&source, &lengths, usize::MAX, usize::MAX);
        let random = &mut self.random;
        let (room, records) = match &answer {
            Ok(signed) => {
                let more = random.pick(&[0, 0, 1, 50]);
                (
                    length(signed) + more,
                    signed.len() * RECORD_SIZE + random.pick(&[0, 0, 1, 11, 40]),
                )
            }
            Err(_) => (random.pick(&[0, 10, 2000]), random.pick(&[0, 11, 96])),
        };
        let number = answer.as_ref().map_or_else(|refusal| refusal.number, |_| 0);
        let as_expected = match expected {
            Expected::Success => number == 0,
            Expected::Fault => number == 40,
            Expected::Unknown => true,
        };
        if !as_expected {
            let shown = shown(given);
            return Err(Difference(format!(
                "the reference answers {number}: {shown}"
            )));
        }
        self.call(given, (source, lengths), room, records)
    }

    /// A call with too little room for forms, for records or for both; or a source that is cut, or a
    /// length that is far too large.
    fn without_room(&mut self, given: &[Bytes]) -> Result<(), Difference> {
        let (mut source, mut lengths) = self.source(given);
        let random = &mut self.random;
        if !given.is_empty() && random.once_in(12) {
            let at = LENGTH_SIZE * random.index(2 * given.len());
            let large = random.pick(&[u32::MAX, u32::MAX - 3, 1 << 31, 1 << 16]);
            lengths[at..at + LENGTH_SIZE].copy_from_slice(&large.to_le_bytes());
        }
        let (mut room, mut records) = (60_000, 8 * RECORD_SIZE);
        if random.once_in(3) {
            let texts: usize = given
                .iter()
                .map(|(name, text)| name.len() + text.len())
                .sum();
            source.truncate(random.pick(&[texts.saturating_sub(1), texts / 2, texts]));
        }
        if let Ok(signed) = RULES.answer(&source, &lengths, room, records) {
            let (whole, all) = (length(&signed), signed.len() * RECORD_SIZE);
            match random.below(3) {
                0 => records = random.pick(&[all.saturating_sub(1), all.saturating_sub(12), 0]),
                1 => {
                    let any = random.index(whole + 1);
                    room = random.pick(&[whole.saturating_sub(1), any, 0]);
                }
                _ => (room, records) = (whole.saturating_sub(1), all.saturating_sub(1)),
            }
        }
        self.call(given, (source, lengths), room, records)
    }

    /// The source and the list of lengths, perhaps with more behind them.
    fn source(&mut self, given: &[Bytes]) -> (Vec<u8>, Vec<u8>) {
        let (mut source, mut lengths) = (vec![], vec![]);
        for part in given.iter().flat_map(|(name, text)| [name, text]) {
            source.extend(part);
            lengths.extend((part.len() as u32).to_le_bytes());
        }
        let random = &mut self.random;
        if random.once_in(8) {
            let more = random.between(1, 7) as usize;
            lengths.extend(random.bytes(more));
            source.extend(random.bytes(more));
        }
        (source, lengths)
    }

    fn call(
        &mut self,
        given: &[Bytes],
        (source, lengths): (Vec<u8>, Vec<u8>),
        room: usize,
        records: usize,
    ) -> Result<(), Difference> {
        let null = self.random.coin();
        let mut lend = |content: &[u8]| {
            let mut pair = Pair::new(content.len(), &mut self.random);
            pair.lend_content(content, null);
            pair
        };
        let (mut source, mut lengths) = (lend(&source), lend(&lengths));
        let (mut out, mut records) = (
            Pair::new(room, &mut self.random),
            Pair::new(records, &mut self.random),
        );
        let answer = RULES.answer(
            source.expected.content(),
            lengths.expected.content(),
            room,
            records.expected.length(),
        );
        let expected = told(
            &answer,
            out.expected.content_mut(),
            records.expected.content_mut(),
        );
        let actual = self.side.call(&mut Buffers {
            source: &mut source.actual,
            lengths: &mut lengths.actual,
            out: &mut out.actual,
            records: &mut records.actual,
        });
        self.texts += given.len() as u64;
        self.count(given, &answer, &source, room, records.expected.length());
        let buffers = [
            ("source", &source),
            ("lengths", &lengths),
            ("output", &out),
            ("records", &records),
        ];
        compare((expected, actual), &buffers, || shown(given))
    }

    fn count(
        &mut self,
        given: &[Bytes],
        answer: &Result<Vec<Signed>, Refusal>,
        source: &Pair,
        room: usize,
        records: usize,
    ) {
        let tally = &mut self.tally;
        let signed = match answer {
            Ok(signed) => signed,
            Err(refusal) => {
                tally.number(u32::from(refusal.number));
                tally.case(refusal.kind);
                if refusal.number == 40 {
                    fault_cases(given, refusal, room, records)
                        .into_iter()
                        .for_each(|case| tally.case(case));
                }
                return;
            }
        };
        tally.number(0);
        let texts: usize = given
            .iter()
            .map(|(name, text)| name.len() + text.len())
            .sum();
        let cases = [
            ("0: no definition", given.is_empty()),
            ("0: 8 definitions", given.len() == MOST_DEFINITIONS),
            (
                "0: a text of 4,096 bytes",
                given.iter().any(|one| one.1.len() == LONGEST_TEXT),
            ),
            (
                "0: a name of 80 characters",
                given.iter().any(|one| one.0.len() == 80),
            ),
            ("0: a service", has(signed, b"\n---")),
            ("0: a union", has(signed, b"\n@union")),
            ("0: a nested type", given.iter().any(nests)),
            ("0: a chain of four", chain_of_four(given)),
            (
                "0: a size beyond 64 bits",
                signed.iter().any(|one| has_long_number(&one.form)),
            ),
            ("0: lines that end with a carriage return", returns(given)),
            (
                "0: an output of just the forms' length",
                room == length(signed),
            ),
            (
                "0: just as many records as definitions",
                records / RECORD_SIZE == signed.len(),
            ),
            (
                "0: bytes behind the last text",
                source.expected.length() > texts,
            ),
        ];
        for (case, _) in cases.into_iter().filter(|(_, is)| *is) {
            tally.case(case);
        }
    }
}

fn written(random: &mut Random, set: &[Written]) -> Vec<Bytes> {
    set.iter()
        .map(|one| (one.name.clone(), one.text(random)))
        .collect()
}

fn length(signed: &[Signed]) -> usize {
    signed.iter().map(|one| one.form.len()).sum()
}

fn has(signed: &[Signed], part: &[u8]) -> bool {
    let within = |one: &Signed| one.form.windows(part.len()).any(|window| window == part);
    signed.iter().any(within)
}

fn has_long_number(form: &[u8]) -> bool {
    let mut brackets = form.split(|&byte| byte == b'[').skip(1);
    brackets.any(|rest| rest.iter().skip(2).take(20).all(u8::is_ascii_digit) && rest.len() > 22)
}

fn nests((name, text): &Bytes) -> bool {
    RULES
        .definition(name, text)
        .is_ok_and(|one| !one.nested.is_empty())
}

fn chain_of_four(given: &[Bytes]) -> bool {
    let given: Vec<_> = given
        .iter()
        .map(|(name, text)| (&name[..], &text[..]))
        .collect();
    let three = Rules {
        longest_chain: 3,
        ..RULES
    };
    three.signatures(&given).is_err()
}

fn returns(given: &[Bytes]) -> bool {
    let alone = |text: &[u8]| {
        text.windows(2)
            .any(|two| two[0] == b'\r' && two[1] != b'\n')
    };
    given.iter().any(|(_, text)| alone(text))
}

fn fault_cases(
    given: &[Bytes],
    refusal: &Refusal,
    room: usize,
    records: usize,
) -> Vec<&'static str> {
    let later = &given[refusal.definition..];
    let at_fault = |(name, text): &Bytes| RULES.definition(name, text).is_err();
    let cases = [
        ("40: the name, line 0", refusal.line == 0),
        ("40: a line above 15", refusal.line > 15),
        (
            "40: a definition that is not the first",
            refusal.definition > 1,
        ),
        (
            "40: output or records too short as well",
            room == 0 || records < RECORD_SIZE,
        ),
        (
            "40: another definition at fault as well",
            later.iter().any(at_fault),
        ),
    ];
    let seen = cases.into_iter().filter(|(_, is)| *is);
    seen.map(|(case, _)| case).collect()
}

/// The definitions, for the eye.
fn shown(given: &[Bytes]) -> String {
    let one = |(name, text): &Bytes| format!("{} {}", name.escape_ascii(), text.escape_ascii());
    given.iter().map(one).collect::<Vec<_>>().join(" | ")
}
