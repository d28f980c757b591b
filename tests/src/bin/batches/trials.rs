//! Batches compared, byte for byte.

use crate::faults::FAULTS;
use crate::lent::Pair;
use crate::make;
use crate::random::Random;
use crate::sides::{receive_many, Call, Side};
use crate::states;
use reference::batch::{Record, RECORD, RESULT};
use reference::entry::FAULT;
use reference::receive::{Frame, LONGEST_PAYLOAD};
use reference::state::{self, get_u64, BLOCK_BYTES, SIZE};
use std::collections::BTreeMap;

const NUMBERS: [u64; 19] = [
    0, 1, 2, 3, 4, 5, 6, 7, 8, 9, 11, 12, 19, 26, 30, 31, 32, 33, 34,
];
const CASES: [&str; 12] = [
    "state at fault",
    "no record",
    "100 records",
    "every record used up",
    "no room for another result",
    "too little room for another payload",
    "output buffer under 512 bytes",
    "several payloads",
    "an empty payload, and more after it",
    "a length above 8",
    "a length above 8 after an ID that 2 refuses",
    "a part of a record at the end",
];

pub struct Trials {
    side: Side,
    random: Random,
    state: Pair,
    records: Pair,
    results: Pair,
    out: Pair,
    seen: BTreeMap<String, u64>,
}

impl Trials {
    pub fn new(side: Side, mut random: Random) -> Trials {
        let mut room = |bytes| Pair::new(bytes, &mut random);
        let (state, out) = (room(SIZE + 40), room(make::MOST_ROOM));
        let records = room((make::MOST + 1) * RECORD);
        let results = room((make::MOST + 1) * RESULT);
        Trials {
            side,
            random,
            state,
            records,
            results,
            out,
            seen: BTreeMap::new(),
        }
    }

    /// Compares so many batches, or up to the first difference.
    pub fn run(&mut self, batches: u64) -> Result<(), String> {
        for batch in 0..batches {
            self.one()
                .map_err(|what| format!("batch {batch}: {what}"))?;
        }
        Ok(())
    }

    fn one(&mut self) -> Result<(), String> {
        self.lend();
        let before = self.state.expected.content().to_vec();
        let given = self.out.expected.content().to_vec();
        let expected = receive_many(&mut Call {
            state: &mut self.state.expected,
            records: &mut self.records.expected,
            results: &mut self.results.expected,
            out: &mut self.out.expected,
        });
        let actual = (self.side.many)(&mut Call {
            state: &mut self.state.actual,
            records: &mut self.records.actual,
            results: &mut self.results.actual,
            out: &mut self.out.actual,
        });
        if actual != expected {
            return Err(format!("word {actual:#x} in place of {expected:#x}"));
        }
        let buffers = [
            ("state", &self.state),
            ("records", &self.records),
            ("results", &self.results),
            ("output", &self.out),
        ];
        for (name, pair) in buffers {
            if let Some((at, right, wrong)) = pair.difference() {
                return Err(format!("{name}[{at}] is {wrong} in place of {right}"));
            }
        }
        self.count(expected);
        self.singly(before, given, expected)
    }

    /// New buffers: a state, mostly without a fault, records for it, and room.
    fn lend(&mut self) {
        let random = &mut self.random;
        let clock = random.below(1 << 40);
        let crowded = random.once_in(3);
        let receiver = states::receiver(random, clock, crowded);
        let records = make::records(random, &receiver, clock);
        self.state.lend(SIZE + random.pick(&[0, 0, 0, 40]), false);
        state::write(&receiver, self.state.expected.content_mut());
        match random.below(24) {
            0 => {
                let (_, spoil) = FAULTS[random.index(FAULTS.len())];
                spoil(random, self.state.expected.content_mut());
            }
            1 => self
                .state
                .lend(random.pick(&[0, 1, BLOCK_BYTES, SIZE - 1]), true),
            _ => {}
        }
        self.state.level();
        self.records.lend_content(&records, true);
        let most = records.len() / RECORD;
        let results = match random.below(4) {
            0 => random.index(most + 1) * RESULT + random.index(RESULT),
            _ => most * RESULT + random.index(RESULT),
        };
        self.results.lend(results, true);
        let room = match random.below(8) {
            0 => random.index(LONGEST_PAYLOAD),
            1 | 2 => LONGEST_PAYLOAD + random.index(16),
            3 => LONGEST_PAYLOAD + random.index(600),
            _ => random.between(1000, make::MOST_ROOM as u64) as usize,
        };
        self.out.lend(room, true);
        for pair in [&mut self.results, &mut self.out] {
            random.fill(pair.expected.content_mut());
            pair.level();
        }
    }

    /// As many single calls of the same library leave the same.
    fn singly(&self, mut state: Vec<u8>, mut out: Vec<u8>, word: u64) -> Result<(), String> {
        let used = (word >> 8) as usize;
        let mut past = 0;
        let records = self.records.expected.content();
        for (i, record) in records.chunks_exact(RECORD).take(used).enumerate() {
            let record = Record::new(record);
            let frame = Frame {
                id: record.id(),
                data: &record.data(),
                interface: record.interface(),
                time: record.time(),
            };
            let single = (self.side.single)(&mut state, &frame, &mut out[past..]);
            let result = get_u64(self.results.actual.content(), i * RESULT);
            if single != result {
                return Err(format!("record {i}: {result:#x}, singly {single:#x}"));
            }
            past += (single >> 8 & 1023) as usize;
        }
        if state != self.state.actual.content() {
            return Err("the state is not that of single calls".into());
        }
        if out != self.out.actual.content() {
            return Err("the output buffer is not that of single calls".into());
        }
        Ok(())
    }

    fn case(&mut self, name: &str, holds: bool) {
        if holds {
            *self.seen.entry(name.into()).or_default() += 1;
        }
    }

    fn count(&mut self, word: u64) {
        if word == u64::from(FAULT) {
            return self.case(CASES[0], true);
        }
        let used = (word >> 8) as usize;
        let records = self.records.expected.content().to_vec();
        let results = self.results.expected.content().to_vec();
        let room = self.out.expected.length();
        let words: Vec<u64> = (0..used).map(|i| get_u64(&results, i * RESULT)).collect();
        let numbers: Vec<u64> = words.iter().map(|word| word & 255).collect();
        let length = |word: &u64| (word >> 8 & 1023) as usize;
        let handed: usize = words.iter().map(length).sum();
        let (most, fits) = (records.len() / RECORD, results.len() / RESULT);
        let stopped = used < most.min(fits);
        let empty = |i: &usize| words[*i] & 0x3_FFFF == 1;
        let long = |i: &usize| records[i * RECORD + 13] > 8;
        for number in &numbers {
            self.case(&format!("answer {number}"), true);
        }
        self.case(CASES[1], most == 0);
        self.case(CASES[2], most == make::MOST);
        self.case(CASES[3], used == most);
        self.case(CASES[4], used == fits && fits < most);
        self.case(CASES[5], stopped && room - handed < LONGEST_PAYLOAD);
        self.case(CASES[6], room < LONGEST_PAYLOAD && numbers.contains(&8));
        self.case(
            CASES[7],
            words.iter().filter(|one| length(one) > 0).count() > 1,
        );
        self.case(CASES[8], (0..used.max(1) - 1).any(|i| empty(&i)));
        let over: Vec<usize> = (0..used).filter(long).collect();
        self.case(CASES[9], over.iter().any(|i| numbers[*i] == 3));
        self.case(CASES[10], over.iter().any(|i| numbers[*i] == 2));
        self.case(CASES[11], records.len() % RECORD != 0);
    }

    pub fn show(&self) {
        for (name, count) in &self.seen {
            println!("{count:>9} {name}");
        }
    }

    /// Every case and every answer was seen so often.
    pub fn is_thorough(&self, least: u64) -> bool {
        let answers = NUMBERS.iter().map(|number| format!("answer {number}"));
        let names = CASES.iter().map(|name| name.to_string()).chain(answers);
        let rare: Vec<String> = names
            .filter(|name| self.seen.get(name).is_none_or(|count| *count < least))
            .collect();
        for name in &rare {
            println!("seen too rarely: {name}");
        }
        rare.is_empty()
    }
}
