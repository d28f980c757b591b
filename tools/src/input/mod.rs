//! Where frames come from: a log, a capture or a candump recording, in a file or as it comes, or CAN interfaces. Memory is fixed, whatever comes.

pub mod candump;
mod capture;
pub mod lines;
mod progress;
mod socketcan;

use crate::failure::Failure;
use crate::frame::Frame;
use crate::library::{frames_of_lines, sentence, LINE_NOT_WELL_FORMED};
use crate::text;
use candump::{Clock, Names};
use lines::Lines;
use progress::Progress;
use std::ffi::OsString;
use std::fs::File;
use std::io::{self, IsTerminal, Read};
use std::os::fd::AsFd;
use std::path::{Path, PathBuf};

/// What takes the frames.
pub trait Sink {
    fn frame(&mut self, frame: &Frame) -> Result<(), Failure>;

    /// A line, counted from 1, that gives no frame.
    fn fault(&mut self, line: u64, fault: &Fault) -> Result<(), Failure>;

    /// All that has come so far was handed over, and more is waited for.
    fn pause(&mut self) -> Result<(), Failure> {
        Ok(())
    }

    /// The input is a capture.
    fn capture(&mut self) -> Result<(), Failure> {
        Ok(())
    }

    /// A new name of an interface in a recording; frames by it have the number of names before it.
    fn interface(&mut self, _name: &str) -> Result<(), Failure> {
        Ok(())
    }

    /// Something about the whole input that a reader should know. It is told once.
    fn note(&mut self, text: &str) -> Result<(), Failure> {
        eprintln!("tecelume: {text}");
        Ok(())
    }
}

/// Why a line gives no frame.
#[derive(Debug, PartialEq, Eq)]
pub enum Fault {
    /// 18: it is not a line of a log; nor, where the form is not known yet, of candump. With the line's front.
    NotWellFormed(Vec<u8>),
    /// A line of candump about something that a receiver takes no part in, or no line of candump.
    LeftOut(&'static str),
}

/// The bytes of a faulty line that are kept.
const FRONT: usize = 80;

impl Fault {
    fn not_well_formed(line: &[u8]) -> Fault {
        Fault::NotWellFormed(line[..line.len().min(FRONT)].to_vec())
    }

    pub fn sentence(&self) -> &'static str {
        match self {
            Fault::NotWellFormed(_) => sentence(LINE_NOT_WELL_FORMED),
            Fault::LeftOut(reason) => reason,
        }
    }
}

#[derive(Clone, Copy, Debug, PartialEq, Eq)]
pub enum Form {
    Log,
    Candump,
}

pub enum Source {
    Standard,
    File(PathBuf),
    /// Names of CAN interfaces; the first is interface 0.
    Can(Vec<String>),
}

/// A source that is open. It is opened once: a pipe that is closed again has lost its writer.
pub enum Opened<'a> {
    File(File),
    Can(&'a [String]),
}

/// How lines are read.
#[derive(Clone, Copy)]
pub struct Reading {
    /// What they are; without it, what the first line that is of any form is.
    pub form: Option<Form>,
    /// Seconds to take off the times of a candump recording; without it, those of its first stamp.
    pub offset: Option<u64>,
}

impl Source {
    /// A file, or standard input.
    pub fn of_words(words: &[OsString]) -> Result<Source, Failure> {
        match words {
            [] => Ok(Source::Standard),
            [name] if name == "-" => Ok(Source::Standard),
            [name] => Ok(Source::File(PathBuf::from(name))),
            _ => Err(Failure::Words("there may be one file".to_string())),
        }
    }

    pub fn open(&self) -> Result<Opened<'_>, Failure> {
        match self {
            Source::Can(names) => Ok(Opened::Can(names)),
            Source::File(path) => open(path).map(Opened::File),
            Source::Standard => {
                let owned = io::stdin().as_fd().try_clone_to_owned();
                let file = owned.map(File::from).map_err(|_| Failure::reading())?;
                Ok(Opened::File(file))
            }
        }
    }

    /// For people.
    pub fn name(&self) -> String {
        match self {
            Source::Standard => "standard input".to_string(),
            Source::File(path) => path
                .file_name()
                .unwrap_or_default()
                .to_string_lossy()
                .into_owned(),
            Source::Can(names) => names.join(", "),
        }
    }
}

/// Hands all frames of the source over.
pub fn run(opened: Opened, reading: &Reading, sink: &mut dyn Sink) -> Result<(), Failure> {
    let mut file = match opened {
        Opened::Can(names) => return socketcan::run(names, sink),
        Opened::File(file) => file,
    };
    let kind = file.metadata().map_err(|_| Failure::reading())?;
    if kind.is_dir() {
        return Err(Failure::reading());
    }
    if kind.is_file() {
        if let Some(trailer) = capture::trailer(&mut file)? {
            sink.capture()?;
            return capture::run(&mut file, &trailer, sink);
        }
    }
    let progress = Progress::new(kind.is_file().then_some(kind.len()));
    Text::new(reading, !kind.is_file()).run(file, progress, sink)
}

fn open(path: &Path) -> Result<File, Failure> {
    if path.is_dir() {
        return Err(Failure::Reading(format!(
            "{} is a directory",
            text::path(path)
        )));
    }
    File::open(path).map_err(|_| Failure::Reading(format!("cannot read {}", text::path(path))))
}

/// Lines of text, from whichever form.
struct Text {
    form: Option<Form>,
    live: bool,
    /// Lines so far.
    count: u64,
    clock: Clock,
    names: Names,
    /// A carriage return was told of.
    told_return: bool,
    /// Room for the records of a block's lines.
    records: Vec<u8>,
}

impl Text {
    fn new(reading: &Reading, live: bool) -> Text {
        Text {
            form: reading.form,
            live,
            count: 0,
            clock: Clock::new(live, reading.offset),
            names: Names::new(),
            told_return: false,
            records: Vec::new(),
        }
    }

    fn run(
        &mut self,
        file: impl Read,
        mut progress: Progress,
        sink: &mut dyn Sink,
    ) -> Result<(), Failure> {
        let mut lines = Lines::new(file, candump::LONGEST);
        while let Some(block) = lines.next().map_err(|_| Failure::reading())? {
            self.block(block, sink)?;
            if self.live {
                sink.pause()?;
            }
            progress.add(block.len());
        }
        progress.end();
        // bytes after the last line feed: no line of a log, but perhaps one of candump
        let rest = lines.rest();
        if rest.is_empty() || self.form != Some(Form::Log) && self.candump(rest, sink)? {
            return Ok(());
        }
        self.fault(rest, sink)?;
        match frames_of_lines(&[rest, b"\n"].concat(), 1, &mut self.records) {
            Some(_) => sink.note("the last line has no line feed, and may be cut"),
            None => Ok(()),
        }
    }

    /// Whole lines.
    fn block(&mut self, block: &[u8], sink: &mut dyn Sink) -> Result<(), Failure> {
        if self.form == Some(Form::Log) {
            let count = block.iter().filter(|byte| **byte == b'\n').count();
            return self.log(block, count, sink);
        }
        let mut rest = block;
        while let Some(end) = rest.iter().position(|byte| *byte == b'\n') {
            let (line, after) = rest.split_at(end + 1);
            self.line(line, sink)?;
            rest = after;
            if self.form == Some(Form::Log) {
                return self.block(rest, sink);
            }
        }
        Ok(())
    }

    /// One line with its line feed, which may tell the form.
    fn line(&mut self, line: &[u8], sink: &mut dyn Sink) -> Result<(), Failure> {
        let text = &line[..line.len() - 1];
        if self.candump(text, sink)? {
            return Ok(());
        }
        if self.form == Some(Form::Candump) {
            return self.fault(text, sink);
        }
        if frames_of_lines(line, 1, &mut self.records).is_some() {
            self.form = Some(Form::Log);
        }
        self.log(line, 1, sink)
    }

    /// So many lines of a log. If one is not well formed, each half is tried by itself.
    fn log(&mut self, lines: &[u8], count: usize, sink: &mut dyn Sink) -> Result<(), Failure> {
        if count == 0 {
            return Ok(());
        }
        if let Some(frames) = frames_of_lines(lines, count, &mut self.records) {
            self.count += count as u64;
            return frames.into_iter().try_for_each(|frame| sink.frame(&frame));
        }
        if count == 1 {
            return self.fault(&lines[..lines.len() - 1], sink);
        }
        let mut ends = lines.iter().enumerate().filter(|(_, byte)| **byte == b'\n');
        let (middle, _) = ends.nth(count / 2 - 1).expect("there are as many");
        let (front, back) = lines.split_at(middle + 1);
        self.log(front, count / 2, sink)?;
        self.log(back, count - count / 2, sink)
    }

    /// Whether this is a line of candump; then it was handed over, or said why not.
    fn candump(&mut self, line: &[u8], sink: &mut dyn Sink) -> Result<bool, Failure> {
        let recorded = match candump::parse(line) {
            Ok(recorded) => recorded,
            Err(candump::NOT_CANDUMP) => return Ok(false),
            Err(reason) => {
                self.count += 1;
                self.form = Some(Form::Candump);
                return sink
                    .fault(self.count, &Fault::LeftOut(reason))
                    .map(|()| true);
            }
        };
        self.count += 1;
        self.form = Some(Form::Candump);
        let (interface, new) = self.names.number(recorded.interface);
        if let Some(name) = new {
            sink.interface(name)?;
        }
        let time = self.clock.time(recorded.stamp);
        if let Some(note) = self.clock.note() {
            sink.note(&note)?;
        }
        match time {
            Ok(time) => sink.frame(&recorded.frame(time, interface))?,
            Err(reason) => sink.fault(self.count, &Fault::LeftOut(reason))?,
        }
        Ok(true)
    }

    fn fault(&mut self, line: &[u8], sink: &mut dyn Sink) -> Result<(), Failure> {
        self.count += 1;
        if self.form == Some(Form::Candump) {
            return sink.fault(self.count, &Fault::LeftOut(candump::NOT_CANDUMP));
        }
        sink.fault(self.count, &Fault::not_well_formed(line))?;
        // what is wrong with such a line is not seen
        let returns = line.ends_with(b"\r") && !std::mem::replace(&mut self.told_return, true);
        match returns {
            true => sink.note("lines of a log end with a line feed alone; here a carriage return is before it, which tr -d '\\r' takes out"),
            false => Ok(()),
        }
    }
}

/// Whether progress may be told: standard error is a terminal, and the output does not go to it.
pub fn tells_progress() -> bool {
    io::stderr().is_terminal() && !io::stdout().is_terminal()
}
