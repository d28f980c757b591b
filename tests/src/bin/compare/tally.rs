//! Counts of the answers and cases seen, and the difference that ends a comparison.

use crate::lent::Pair;
use reference::blocks::BLOCK;
use reference::state::{
    BLOCK_BYTES, BLOCK_LISTS, CONTROLS, COUNT, FREE, LIST, OWN, SIGNATURES, SIZE, STREAM_KEYS,
    SUBSCRIPTION_KEYS, TIMES,
};
use std::collections::BTreeMap;

/// What was seen of one call. Numbers and cases that can occur begin at zero, so that one never
/// seen shows.
pub struct Tally {
    call: &'static str,
    calls: u64,
    numbers: BTreeMap<u32, u64>,
    cases: BTreeMap<&'static str, u64>,
}

/// A frame at which old sessions are emptied, since no block is free.
pub const EMPTIED: &str = "emptied: old sessions with bytes in hand";
/// No block, and why a frame is passed over: these numbers, and `EMPTIED`, must be seen `OFTEN`
/// times as often as all else.
const OFTEN_NUMBERS: [u32; 6] = [26, 30, 31, 32, 33, 34];
const OFTEN: u64 = 10;

impl Tally {
    pub fn new(call: &'static str, numbers: &[u32], cases: &[&'static str]) -> Tally {
        Tally {
            call,
            calls: 0,
            numbers: numbers.iter().map(|&number| (number, 0)).collect(),
            cases: cases.iter().map(|&case| (case, 0)).collect(),
        }
    }

    pub fn calls(&self) -> u64 {
        self.calls
    }

    pub fn number(&mut self, number: u32) {
        self.calls += 1;
        *self.numbers.entry(number).or_insert(0) += 1;
    }

    pub fn case(&mut self, case: &'static str) {
        *self.cases.entry(case).or_insert(0) += 1;
    }

    /// Adds what another run saw of the same call.
    pub fn add(&mut self, other: &Tally) {
        self.calls += other.calls;
        for (number, count) in &other.numbers {
            *self.numbers.entry(*number).or_insert(0) += count;
        }
        for (case, count) in &other.cases {
            *self.cases.entry(case).or_insert(0) += count;
        }
    }

    pub fn print(&self) {
        println!("{}: {} calls", self.call, self.calls);
        for (number, count) in &self.numbers {
            println!("  {number:>3} {count:>10}");
        }
        for (case, count) in &self.cases {
            println!("      {count:>10}  {case}");
        }
    }

    /// What was seen fewer than `minimum` times, or than its own minimum.
    pub fn short_of(&self, minimum: u64) -> Vec<String> {
        let wanted = |often| if often { OFTEN * minimum } else { minimum };
        let numbers = self.numbers.iter().map(|(number, count)| {
            let wanted = wanted(OFTEN_NUMBERS.contains(number));
            (number.to_string(), count, wanted)
        });
        let cases = self
            .cases
            .iter()
            .map(|(case, count)| (case.to_string(), count, wanted(*case == EMPTIED)));
        numbers
            .chain(cases)
            .filter(|(_, count, wanted)| *count < wanted)
            .map(|(what, count, _)| format!("{} {what}: {count} times", self.call))
            .collect()
    }
}

/// A call on which the sides differ.
#[derive(Debug)]
pub struct Difference(pub String);

/// The field of a receiver's state that a byte lies in, for the eye.
fn field(at: isize) -> String {
    let Ok(at) = usize::try_from(at) else {
        return String::new();
    };
    let of = |start: usize, size: usize| (at - start) / size;
    let name = match at {
        OWN => "own ID".to_string(),
        COUNT => "number of subscriptions".to_string(),
        SIGNATURES..TIMES => format!("signature {}", of(SIGNATURES, 8)),
        TIMES..FREE => format!("time of place {}", of(TIMES, 8)),
        FREE..SUBSCRIPTION_KEYS => "free blocks".to_string(),
        SUBSCRIPTION_KEYS..STREAM_KEYS => format!("subscription {}", of(SUBSCRIPTION_KEYS, 4)),
        STREAM_KEYS..CONTROLS => format!("stream of place {}", of(STREAM_KEYS, 4)),
        CONTROLS..BLOCK_LISTS => format!("control {} of place {}", at % 4, of(CONTROLS, 4)),
        BLOCK_LISTS..BLOCK_BYTES => format!("blocks of place {}", of(BLOCK_LISTS, LIST)),
        BLOCK_BYTES..SIZE => format!("bytes of block {}", of(BLOCK_BYTES, BLOCK)),
        _ => return String::new(),
    };
    format!(" ({name})")
}

/// Fails if the two results or any pair of buffers differ. `call` describes the call.
pub fn compare<T: PartialEq + std::fmt::LowerHex>(
    results: (T, T),
    buffers: &[(&str, &Pair)],
    call: impl Fn() -> String,
) -> Result<(), Difference> {
    let mut found = Vec::new();
    let (expected, actual) = results;
    if expected != actual {
        found.push(format!("result: expected {expected:#x}, got {actual:#x}"));
    }
    for (name, pair) in buffers {
        if let Some((at, expected, actual)) = pair.difference() {
            let length = pair.expected.length();
            let field = if *name == "state" {
                field(at)
            } else {
                String::new()
            };
            found.push(format!(
                "{name} (length {length}) at {at}{field}: expected {expected:02X}, got {actual:02X}"
            ));
        }
    }
    if found.is_empty() {
        return Ok(());
    }
    Err(Difference(format!("{}: {}", call(), found.join("; "))))
}
