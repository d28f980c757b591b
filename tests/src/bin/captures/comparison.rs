//! Calls on random files, beside the reference: result, output buffer, input and guards.

use crate::damage::{self, Capture};
use crate::lent::Pair;
use crate::logs;
use crate::random::Random;
use crate::sides::{Call, Side, REFERENCE};
use crate::tally::{compare, Difference, Tally};
use reference::captures::{write_log, RECORD, TRAILER};

/// How many files of each sort a round has.
pub struct Amounts {
    pub logs: u64,
    pub damaged_logs: u64,
    pub captures: u64,
    pub damaged_captures: u64,
}

pub struct Comparison {
    side: Side,
    random: Random,
    pub capture: Tally,
    pub uncapture: Tally,
}

/// A file, how much is written for it if nothing refuses it, and the number that it must be answered
/// with, given the room, if that is known.
struct File {
    bytes: Vec<u8>,
    needed: usize,
    number: Option<u32>,
}

const RETURNED: &str = "returned, byte for byte";
const WHOLE_LOG: &str = "a whole log";

impl Comparison {
    pub fn new(side: Side, seed: u64) -> Comparison {
        let mut logs: Vec<_> = logs::DAMAGES.iter().map(|damage| damage.0).collect();
        logs.extend([WHOLE_LOG, RETURNED]);
        let mut captures: Vec<_> = damage::DAMAGES.iter().map(|damage| damage.0).collect();
        captures.extend(damage::PREFACES.iter().map(|preface| preface.0));
        captures.push(RETURNED);
        Comparison {
            side,
            random: Random::new(seed),
            capture: Tally::new("log to capture", &[0, 8, 18], &logs),
            uncapture: Tally::new("capture to log", &[0, 8, 22, 23], &captures),
        }
    }

    pub fn run(&mut self, amounts: &Amounts) -> Result<(), Difference> {
        (0..amounts.logs).try_for_each(|_| self.log())?;
        (0..amounts.damaged_logs).try_for_each(|_| self.damaged_log())?;
        (0..amounts.captures).try_for_each(|_| self.whole_capture())?;
        (0..amounts.damaged_captures).try_for_each(|_| self.damaged_capture())
    }

    fn log(&mut self) -> Result<(), Difference> {
        let lines = logs::lines(&mut self.random);
        let log = File {
            bytes: write_log(&lines),
            needed: RECORD * lines.len() + TRAILER,
            number: Some(0),
        };
        self.capture.case(WHOLE_LOG);
        let Some(capture) = self.captured(&log, WHOLE_LOG)? else {
            return Ok(());
        };
        let back = File {
            bytes: capture,
            needed: log.bytes.len(),
            number: Some(0),
        };
        if let Some(back) = self.uncaptured(&back, RETURNED)? {
            self.capture.case(RETURNED);
            returned(&back, &log.bytes)?;
        }
        Ok(())
    }

    fn damaged_log(&mut self) -> Result<(), Difference> {
        let mut lines = logs::lines(&mut self.random);
        while lines.is_empty() {
            lines = logs::lines(&mut self.random);
        }
        let (name, damage, refused) = self.random.pick(&logs::DAMAGES);
        let log = File {
            bytes: logs::damaged(&mut self.random, &lines, damage),
            needed: RECORD * lines.len() + TRAILER,
            number: refused.then_some(18),
        };
        self.capture.case(name);
        self.captured(&log, name).map(|_| ())
    }

    fn whole_capture(&mut self) -> Result<(), Difference> {
        let (name, preface) = self.random.pick(&damage::PREFACES);
        let mut capture = Capture::new(&logs::lines(&mut self.random));
        let bare = capture.bytes();
        capture.preface = preface(&mut self.random);
        let file = File {
            bytes: capture.bytes(),
            needed: capture.log,
            number: Some(0),
        };
        self.uncapture.case(name);
        let Some(log) = self.uncaptured(&file, name)? else {
            return Ok(());
        };
        let back = File {
            bytes: log,
            needed: bare.len(),
            number: Some(0),
        };
        if let Some(back) = self.captured(&back, RETURNED)? {
            self.uncapture.case(RETURNED);
            returned(&back, &bare)?;
        }
        Ok(())
    }

    fn damaged_capture(&mut self) -> Result<(), Difference> {
        let (_, preface) = self.random.pick(&damage::PREFACES);
        let mut capture = Capture::new(&logs::lines(&mut self.random));
        capture.preface = preface(&mut self.random);
        let (name, damage) = self.random.pick(&damage::DAMAGES);
        let number = damage(&mut self.random, &mut capture);
        let file = File {
            bytes: capture.bytes(),
            needed: capture.log,
            number,
        };
        self.uncapture.case(name);
        self.uncaptured(&file, name).map(|_| ())
    }

    fn captured(&mut self, log: &File, name: &str) -> Result<Option<Vec<u8>>, Difference> {
        let calls = [REFERENCE.capture, self.side.capture];
        let (number, written) = call(&mut self.random, calls, log, name)?;
        self.capture.number(number);
        Ok(written)
    }

    fn uncaptured(&mut self, capture: &File, name: &str) -> Result<Option<Vec<u8>>, Difference> {
        let calls = [REFERENCE.uncapture, self.side.uncapture];
        let (number, written) = call(&mut self.random, calls, capture, name)?;
        self.uncapture.number(number);
        Ok(written)
    }
}

fn returned(back: &[u8], file: &[u8]) -> Result<(), Difference> {
    if back == file {
        return Ok(());
    }
    let (back, file) = (text(back), text(file));
    Err(Difference(format!("{file}: came back as {back}")))
}

/// The number, and what the side wrote if it is 0.
fn call(
    random: &mut Random,
    calls: [Call; 2],
    file: &File,
    name: &str,
) -> Result<(u32, Option<Vec<u8>>), Difference> {
    let room = room(random, file.needed);
    let null = random.coin();
    let mut input = Pair::new(file.bytes.len(), random);
    input.lend_content(&file.bytes, null);
    let mut out = Pair::new(room, random);
    out.lend(room, null);
    let expected = calls[0].make(&mut input.expected, &mut out.expected);
    let actual = calls[1].make(&mut input.actual, &mut out.actual);
    let described = || format!("{name}, {}, room {room}", text(&file.bytes));
    compare(
        (expected, actual),
        &[("input", &input), ("out", &out)],
        described,
    )?;
    let number = (actual & 255) as u32;
    let must = match file.number {
        Some(0) if room < file.needed => Some(8),
        known => known,
    };
    if must.is_some_and(|must| must != number) {
        return Err(Difference(format!(
            "{}: {number}, not {must:?}",
            described()
        )));
    }
    let length = (actual >> 8) as usize;
    let written = (number == 0).then(|| out.actual.content()[..length].to_vec());
    Ok((number, written))
}

/// Just enough, one too few, more, none or any.
fn room(random: &mut Random, needed: usize) -> usize {
    match random.below(8) {
        0..=2 => needed,
        3 => needed.saturating_sub(1),
        4 => random.index(needed + 1),
        5 if random.once_in(4) => 0,
        _ => needed + random.index(100),
    }
}

/// The start of a file, for the eye.
fn text(bytes: &[u8]) -> String {
    let start: String = bytes
        .iter()
        .take(120)
        .map(|byte| format!("{byte:02X}"))
        .collect();
    format!("{} bytes {start}", bytes.len())
}
