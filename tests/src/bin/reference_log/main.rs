//! The second implementation as the log program, and logs to compare the two on.
//!
//! `reference_log < LOG` prints what the log program should; `reference_log --random SEED LINES`
//! prints a log with every kind of frame; `reference_log --tally MINIMUM < OUTPUT` counts the answers
//! in an output, and fails if one that a log can show is there fewer than MINIMUM times.

#[path = "../compare/random.rs"]
#[allow(dead_code)]
mod random;
mod traffic;

use random::Random;
use std::collections::BTreeMap;
use std::io::{self, Read, Write};
use std::process::ExitCode;

/// The answers a log can show, as its third word; 1 is a transfer.
const ANSWERS: [u32; 17] = [0, 1, 2, 3, 4, 5, 6, 7, 9, 11, 12, 18, 26, 30, 31, 32, 33];

fn main() -> ExitCode {
    let words: Vec<String> = std::env::args().skip(1).collect();
    let words: Vec<&str> = words.iter().map(String::as_str).collect();
    match words.as_slice() {
        [] => print(&reference::logs::run(&input())),
        ["--random", seed, lines] => {
            let mut random = Random::new(number(seed));
            print(&traffic::log(&mut random, number(lines)));
        }
        ["--tally", minimum] => return tally(&input(), number(minimum)),
        _ => {
            eprintln!("usage: reference_log [--random SEED LINES | --tally MINIMUM]");
            return ExitCode::from(2);
        }
    }
    ExitCode::SUCCESS
}

fn number(word: &str) -> u64 {
    word.parse().expect("a number")
}

fn input() -> Vec<u8> {
    let mut bytes = Vec::new();
    io::stdin().read_to_end(&mut bytes).expect("standard input");
    bytes
}

fn print(bytes: &[u8]) {
    io::stdout().write_all(bytes).expect("standard output");
}

fn tally(output: &[u8], minimum: u64) -> ExitCode {
    let mut seen: BTreeMap<u32, u64> = BTreeMap::new();
    for line in String::from_utf8_lossy(output).lines().skip(1) {
        let words: Vec<&str> = line.split(' ').collect();
        match words.as_slice() {
            [_, "-" | "+", answer] => {
                *seen.entry(answer.parse().expect("a number")).or_default() += 1
            }
            ["end", ..] => (),
            _ => *seen.entry(1).or_default() += 1,
        }
    }
    for (answer, times) in &seen {
        println!("{answer:>4} {times:>8}");
    }
    let rare: Vec<u32> = ANSWERS
        .into_iter()
        .filter(|answer| seen.get(answer).copied().unwrap_or(0) < minimum)
        .collect();
    if rare.is_empty() {
        return ExitCode::SUCCESS;
    }
    println!("fewer than {minimum} times: {rare:?}");
    ExitCode::FAILURE
}
