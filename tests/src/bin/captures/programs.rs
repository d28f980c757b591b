//! The programs of RULES 18.7 by the reference, from standard input to standard output, and logs to
//! try them on.

use crate::logs;
use crate::random::Random;
use reference::captures::*;
use std::io::{self, Read, Write};
use std::process::ExitCode;

/// `--capture`, `--uncapture`: a refusal prints its number and, with 18 and 23, the first line or
/// record that is refused. `--make SEED LINES`: a well-formed log.
pub fn run(words: &[&str]) -> Option<ExitCode> {
    let output = match words {
        ["--capture"] => captured(&input()),
        ["--uncapture"] => uncaptured(&input()),
        ["--make", seed, lines] => Ok(made(seed.parse().ok()?, lines.parse().ok()?)),
        _ => return None,
    };
    match &output {
        Ok(bytes) => io::stdout().write_all(bytes).expect("standard output"),
        Err(refusal) => eprintln!("{refusal}"),
    }
    Some(ExitCode::from(u8::from(output.is_err())))
}

fn input() -> Vec<u8> {
    let mut bytes = Vec::new();
    io::stdin().read_to_end(&mut bytes).expect("standard input");
    bytes
}

/// What the call writes, given the most room that it can need.
fn converted(call: fn(&[u8], &mut [u8]) -> Written, input: &[u8]) -> Result<Vec<u8>, Refusal> {
    let mut out = vec![0; 3 * input.len() + TRAILER];
    let length = call(input, &mut out)?;
    out.truncate(length);
    Ok(out)
}

fn captured(log: &[u8]) -> Result<Vec<u8>, String> {
    converted(capture, log).map_err(|refusal| {
        let mut lines = log.split_inclusive(|&byte| byte == b'\n');
        let first = lines.position(|line| read_log(line).is_none());
        told(refusal, first)
    })
}

fn uncaptured(capture: &[u8]) -> Result<Vec<u8>, String> {
    converted(uncapture, capture).map_err(|refusal| {
        let records = find_records(capture).unwrap_or_default();
        let mut records = records.chunks_exact(RECORD);
        told(refusal, records.position(|record| !is_carried(record)))
    })
}

fn told(refusal: Refusal, first: Option<usize>) -> String {
    match first {
        Some(index) => format!("{} {}", refusal.number(), index + 1),
        None => refusal.number().to_string(),
    }
}

fn made(seed: u64, count: usize) -> Vec<u8> {
    let mut random = Random::new(seed);
    let lines: Vec<_> = (0..count).map(|_| logs::line(&mut random)).collect();
    write_log(&lines)
}
