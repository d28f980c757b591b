//! `show`: a line for each transfer, and refusals with their sentences.

mod objects;
mod plain;

use crate::bus::Bus;
use crate::failure::Failure;
use crate::frame::Frame;
use crate::input::{self, Fault, Sink};
use crate::interrupt;
use crate::library::{Answer, Transfer, LINE_NOT_WELL_FORMED};
use crate::options::{unknown, Listening, Words};
use crate::output;
use crate::refusals::{Group, Place, Refusals, GROUPS_MAX};
use crate::types::Types;
use std::collections::BTreeMap;
use std::ffi::OsString;

pub fn run(words: Vec<OsString>) -> Result<(), Failure> {
    let mut listening = Listening::new();
    let mut all = false;
    let mut teller = &plain::TELLER;
    let mut words = Words::new(words);
    while let Some(option) = words.option() {
        match option.as_str() {
            "--all" => all = true,
            "--json" => teller = &objects::TELLER,
            option if listening.take(option, &mut words)? => (),
            option => return Err(unknown(option)),
        }
    }
    let source = listening.source(&words.plain)?;
    let mut show = Show {
        bus: Bus::new(listening.own, &listening.types)?,
        types: listening.types,
        all,
        teller,
        counts: Counts::default(),
        told_beyond: false,
        interfaces: Vec::new(),
        out: Vec::with_capacity(2 * output::GATHERED),
    };
    // to wait for the other end of a pipe is ended by Ctrl-C as usual
    let opened = source.open()?;
    interrupt::catch();
    input::run(opened, &listening.reading, &mut show)?;
    (show.teller.end)(&mut show.out, &show.types, &show.counts);
    show.pause()
}

/// How things are told: as text or as objects. Each ends with a line feed.
struct Teller {
    transfer: fn(&mut Vec<u8>, &Types, &Transfer),
    /// Of a frame, with its number.
    refusal: fn(&mut Vec<u8>, &Types, &Frame, u32),
    /// Of a line that gives no frame, counted from 1.
    fault: fn(&mut Vec<u8>, u64, &Fault),
    end: fn(&mut Vec<u8>, &Types, &Counts),
}

#[derive(Default)]
struct Counts {
    /// Lines, records or frames.
    lines: u64,
    transfers: u64,
    refusals: Refusals,
    /// Lines of candump that give no frame, by reason.
    left_out: BTreeMap<&'static str, u64>,
}

struct Show {
    bus: Bus,
    types: Types,
    /// Tell each refusal.
    all: bool,
    teller: &'static Teller,
    counts: Counts,
    told_beyond: bool,
    /// The names of a recording's interfaces.
    interfaces: Vec<String>,
    out: Vec<u8>,
}

impl Sink for Show {
    fn frame(&mut self, frame: &Frame) -> Result<(), Failure> {
        self.counts.lines += 1;
        match self.bus.receive(frame)? {
            Answer::Taken => Ok(()),
            Answer::HandedOut(transfer) => {
                self.counts.transfers += 1;
                (self.teller.transfer)(&mut self.out, &self.types, &transfer);
                output::write_enough(&mut self.out)
            }
            Answer::Refused(number) => self.refused(frame, number),
        }
    }

    fn fault(&mut self, line: u64, fault: &Fault) -> Result<(), Failure> {
        self.counts.lines += 1;
        let first = match fault {
            Fault::NotWellFormed(_) => {
                let (number, stream) = (LINE_NOT_WELL_FORMED, None);
                self.counts.refusals.add(Group { number, stream }, None) == Place::First
            }
            Fault::LeftOut(reason) => {
                let count = self.counts.left_out.entry(reason).or_default();
                *count += 1;
                *count == 1
            }
        };
        if self.all || first {
            (self.teller.fault)(&mut self.out, line, fault);
        }
        output::write_enough(&mut self.out)
    }

    fn interface(&mut self, name: &str) -> Result<(), Failure> {
        let number = self.interfaces.len();
        self.interfaces.push(name.to_string());
        let first = &self.interfaces[0];
        match number {
            0 => Ok(()),
            1 => self.note(&format!("{first} is interface 0, {name} interface 1")),
            _ => self.note(&format!("{name} is interface {number}")),
        }
    }

    fn pause(&mut self) -> Result<(), Failure> {
        output::write(&mut self.out)
    }
}

impl Show {
    fn refused(&mut self, frame: &Frame, number: u32) -> Result<(), Failure> {
        let stream = frame.stream();
        let place = self
            .counts
            .refusals
            .add(Group { number, stream }, Some(frame.time));
        if self.all || place == Place::First {
            (self.teller.refusal)(&mut self.out, &self.types, frame, number);
        } else if place == Place::Beyond && !self.told_beyond {
            self.told_beyond = true;
            let told = "further ones are counted by number alone";
            self.note(&format!(
                "more than {GROUPS_MAX} streams with refusals: {told}"
            ))?;
        }
        output::write_enough(&mut self.out)
    }
}
