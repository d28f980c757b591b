//! `candump`: a recording of candump as a log.

use crate::failure::Failure;
use crate::frame::Frame;
use crate::input::{self, Fault, Form, Reading, Sink, Source};
use crate::options::{unknown, Words};
use crate::output;
use crate::text;
use std::ffi::OsString;

pub fn run(words: Vec<OsString>) -> Result<(), Failure> {
    let (mut offset, mut only) = (None, None);
    let mut words = Words::new(words);
    while let Some(option) = words.option() {
        match option.as_str() {
            "--offset" => offset = Some(words.number(&option, 0, 999_999_999_999)?),
            "--interface" => only = Some(words.text(&option)?),
            option => return Err(unknown(option)),
        }
    }
    let source = Source::of_words(&words.plain)?;
    let reading = Reading {
        form: Some(Form::Candump),
        offset,
    };
    let mut candump = Candump {
        only,
        interfaces: Vec::new(),
        left_out: 0,
        out: Vec::new(),
    };
    input::run(source.open()?, &reading, &mut candump)?;
    candump.end()
}

/// A name of an interface, and the frames by it.
struct Interface {
    name: String,
    frames: u64,
}

struct Candump {
    /// The interface whose frames are taken; without it, all are.
    only: Option<String>,
    interfaces: Vec<Interface>,
    left_out: u64,
    out: Vec<u8>,
}

impl Sink for Candump {
    fn frame(&mut self, frame: &Frame) -> Result<(), Failure> {
        let interface = &mut self.interfaces[frame.interface as usize];
        interface.frames += 1;
        if self
            .only
            .as_ref()
            .is_some_and(|only| *only != interface.name)
        {
            return Ok(());
        }
        let (seconds, millis) = (frame.time / 1_000_000, frame.time / 1000 % 1000);
        put!(&mut self.out, "{seconds}.{millis:03} {:08X}", frame.id);
        for byte in frame.data() {
            put!(&mut self.out, " {byte:02X}");
        }
        self.out.push(b'\n');
        output::write_enough(&mut self.out)
    }

    fn fault(&mut self, line: u64, fault: &Fault) -> Result<(), Failure> {
        self.left_out += 1;
        eprintln!("line {line} left out: {}", fault.sentence());
        Ok(())
    }

    fn capture(&mut self) -> Result<(), Failure> {
        let told = "this is a capture, not a recording: tecelume uncapture makes a log of it";
        Err(Failure::Refused(format!("tecelume: {told}")))
    }

    fn interface(&mut self, name: &str) -> Result<(), Failure> {
        self.interfaces.push(Interface {
            name: name.to_string(),
            frames: 0,
        });
        Ok(())
    }

    fn pause(&mut self) -> Result<(), Failure> {
        output::write(&mut self.out)
    }
}

impl Candump {
    fn end(mut self) -> Result<(), Failure> {
        self.pause()?;
        self.tell_interfaces();
        match self.left_out {
            0 => Ok(()),
            lines => Err(Failure::Refused(format!(
                "tecelume: {} left out",
                text::counted(lines, "line")
            ))),
        }
    }

    /// Unless all frames came by one interface, and they were wanted.
    fn tell_interfaces(&self) {
        let is_wanted = |one: &Interface| self.only.as_ref().is_none_or(|only| *only == one.name);
        if self.interfaces.len() < 2 && self.interfaces.iter().all(is_wanted) {
            return;
        }
        let counts = self.interfaces.iter();
        let counts: Vec<_> = counts
            .map(|one| format!("{} ({})", one.name, one.frames))
            .collect();
        let (told, names) = match &self.only {
            Some(only) => (
                format!("only frames by {only} are in the log"),
                "there were",
            ),
            None => ("a log has no interfaces".to_string(), "its frames came by"),
        };
        eprintln!("tecelume: {told}; {names} {}", counts.join(", "));
    }
}
