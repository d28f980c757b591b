//! The program of RULES 19.11 by the reference, on captures of any size, and captures to try it on.

use crate::damage::{places, DAMAGES};
use crate::files;
use crate::random::Random;
use crate::traffic;
use reference::captures::{trailer, Fields, RECORD, TRAILER};
use reference::crc::crc16_by_table;
use reference::frame::{next_transfer_id, Stream, TransferType};
use reference::judge::pass::{Pass, Plain};
use reference::judge::{list, subscribed, Answer, Frame, Verdict, NO_CAPTURE};
use reference::logs;
use reference::receive::{Receiver, Subscription};
use reference::send::split;
use std::fs::File;
use std::io::{self, BufWriter, Read, Seek, SeekFrom, Write};
use std::process::ExitCode;

pub const USAGE: &str = "--judge FILE [--subscriptions LIST] | --make SEED RECORDS | \
    --sample SEED FILE [LIST]";

/// Statuses: a frame of the capture is at fault; a file is bad.
const FAILS: u8 = 1;
const BAD_FILE: u8 = 2;

/// `--judge`: the first line alone. `--make`: a capture that passes, of so many records, to standard
/// output. `--sample`: a small capture, right or wrong, and its list, or one under the types of the
/// log program.
pub fn run(words: &[&str]) -> Option<ExitCode> {
    let done = match *words {
        ["--judge", file] => judged(file, Some(list::standard())),
        ["--judge", file, "--subscriptions", text] => {
            std::fs::read(text).and_then(|text| judged(file, list::read(&text)))
        }
        ["--make", seed, records] => made(seed.parse().ok()?, records.parse().ok()?),
        ["--sample", seed, file] => sampled(seed.parse().ok()?, file, None),
        ["--sample", seed, file, list] => sampled(seed.parse().ok()?, file, Some(list)),
        _ => return None,
    };
    Some(ExitCode::from(done.unwrap_or_else(|error| {
        eprintln!("judge: {error}");
        BAD_FILE
    })))
}

fn judged(file: &str, list: Option<Vec<u8>>) -> io::Result<u8> {
    let mut file = File::open(file)?;
    let Some(receiver) = list.and_then(|list| subscribed(&list)) else {
        eprintln!("judge: the list is bad");
        return Ok(BAD_FILE);
    };
    let answer = answer(&receiver, &mut file)?;
    println!("{}", answer.line());
    Ok(match answer {
        Answer::Refused(_) => BAD_FILE,
        Answer::Judged(Verdict::Passes) => 0,
        Answer::Judged(_) => FAILS,
    })
}

/// The records that are read at a time.
const BLOCK: usize = 4096;

/// The same as the call's, in fixed memory: the trailer, then block by block.
fn answer(receiver: &Receiver, file: &mut File) -> io::Result<Answer> {
    let refused = Ok(Answer::Refused(NO_CAPTURE));
    let length = file.seek(SeekFrom::End(0))?;
    let Some(before) = length.checked_sub(TRAILER as u64) else {
        return refused;
    };
    let mut trailer = [0; TRAILER];
    file.seek(SeekFrom::Start(before))?;
    file.read_exact(&mut trailer)?;
    let fields = Fields::read(&trailer);
    let whole = RECORD as u64 * u64::from(fields.count);
    if fields.mark != *b"CT" || fields.distance != whole || whole > before {
        return refused;
    }
    file.seek(SeekFrom::Start(before - whole))?;
    let (verdict, checksum) = verdict(receiver, &mut file.take(whole))?;
    if checksum != fields.checksum {
        return refused;
    }
    Ok(Answer::Judged(verdict))
}

fn verdict(receiver: &Receiver, records: &mut impl Read) -> io::Result<(Verdict, u16)> {
    let mut pass = Pass::new(&Plain, receiver);
    let (mut verdict, mut checksum) = (Verdict::Passes, 0xFFFF);
    let mut block = vec![0; BLOCK * RECORD];
    loop {
        let length = fill(records, &mut block)?;
        checksum = crc16_by_table(checksum, &block[..length]);
        let (frames, _) = block[..length].as_chunks();
        for record in frames {
            if verdict != Verdict::Passes {
                break;
            }
            if let Err(fails) = pass.frame(&Frame::of_record(record)) {
                verdict = fails;
            }
        }
        if length < block.len() {
            return Ok((verdict, checksum));
        }
    }
}

/// As much as there is, until the block is full.
fn fill(input: &mut impl Read, block: &mut [u8]) -> io::Result<usize> {
    let mut length = 0;
    while length < block.len() {
        match input.read(&mut block[length..])? {
            0 => break,
            more => length += more,
        }
    }
    Ok(length)
}

/// Writes records with their trailer.
struct Recorder<W: Write> {
    output: W,
    checksum: u16,
    count: u32,
}

impl<W: Write> Recorder<W> {
    fn new(output: W) -> Recorder<W> {
        Recorder {
            output,
            checksum: 0xFFFF,
            count: 0,
        }
    }

    fn write(&mut self, frame: &Frame) -> io::Result<()> {
        let record = frame.record();
        self.checksum = crc16_by_table(self.checksum, &record);
        self.count += 1;
        self.output.write_all(&record)
    }

    fn close(mut self) -> io::Result<()> {
        self.output.write_all(&trailer(self.count, self.checksum))?;
        self.output.flush()
    }
}

/// A stream of the traffic that is made: what it sends, and what is left of its transfer.
struct Sending {
    stream: Stream,
    signature: u64,
    longest: u64,
    transfer_id: u8,
    left: Vec<Vec<u8>>,
}

/// What 64 streams send that share a bus, a frame at a time. Times are whole milliseconds.
fn made(seed: u64, records: u32) -> io::Result<u8> {
    let mut random = Random::new(seed);
    let mut streams = streams();
    let mut recorder = Recorder::new(BufWriter::with_capacity(1 << 20, io::stdout().lock()));
    let mut time = 1_000_000;
    for _ in 0..records {
        let at = random.index(streams.len());
        let sending = &mut streams[at];
        if sending.left.is_empty() {
            let length = random.between(0, sending.longest) as usize;
            let payload = random.bytes(length);
            sending.left = split(&payload, sending.signature, sending.transfer_id);
            sending.left.reverse();
            sending.transfer_id = next_transfer_id(sending.transfer_id);
        }
        let data = sending.left.pop().expect("a frame at least");
        recorder.write(&Frame::new(time, sending.stream.id(16, 0), &data))?;
        time += 1000 * u64::from(random.once_in(5));
    }
    recorder.close()?;
    Ok(0)
}

/// Four types from each of twelve nodes, and eight nodes that ask node 1 and are answered.
fn streams() -> Vec<Sending> {
    let list = logs::subscriptions();
    let sending = |one: &Subscription, transfer_type, source, destination, longest| Sending {
        stream: Stream {
            transfer_type,
            type_id: one.type_id,
            source,
            destination,
        },
        signature: one.signature,
        longest,
        transfer_id: source % 32,
        left: Vec::new(),
    };
    let types = [(0, 7), (2, 62), (5, 53), (6, 35)];
    let messages = types.iter().flat_map(|&(at, longest)| {
        let one = &list[at];
        (20..32).map(move |node| sending(one, TransferType::Message, node, 0, longest))
    });
    let asked = (40..48).flat_map(|node| {
        let request = sending(&list[4], TransferType::Request, node, 1, 0);
        [
            request,
            sending(&list[4], TransferType::Response, 1, node, 300),
        ]
    });
    messages.chain(asked).collect()
}

/// A small capture as the comparison makes them, half of them damaged.
fn sampled(seed: u64, file: &str, text: Option<&str>) -> io::Result<u8> {
    let mut random = Random::new(seed);
    let list = match text {
        Some(_) => traffic::subscriptions(&mut random),
        None => logs::subscriptions(),
    };
    let (_, mut traffic) = traffic::any(&mut random, list);
    if random.coin() {
        let places = places(&traffic.frames);
        // without a list the subscriptions must stay
        let kept = traffic.subscriptions.clone();
        let (_, damage) = random.pick(&DAMAGES);
        damage(&mut random, &mut traffic, &places);
        if text.is_none() {
            traffic.subscriptions = kept;
        }
    }
    let preface = files::preface(&mut random, &traffic);
    std::fs::write(file, [preface, files::capture(&traffic.frames)].concat())?;
    if let Some(text) = text {
        std::fs::write(text, listed(&mut random, &traffic.subscriptions))?;
    }
    Ok(0)
}

/// The list as text, with lines between that are ignored.
fn listed(random: &mut Random, list: &[Subscription]) -> String {
    let mut text = String::new();
    for one in list {
        text.push_str(random.pick(&["", "", "", "\n", "# M 1\n", "#\n\n"]));
        let kind = if one.service { 'S' } else { 'M' };
        text.push_str(&format!("{kind} {} {:016X}\n", one.type_id, one.signature));
    }
    if random.once_in(4) {
        text.pop();
    }
    text
}
