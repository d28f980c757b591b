//! The words of a command.

use crate::bus::Own;
use crate::failure::Failure;
use crate::input::{Form, Reading, Source};
use crate::types::Types;
use std::ffi::OsString;
use std::path::Path;

/// What show, page and watch have in common.
pub struct Listening {
    pub own: Own,
    pub types: Types,
    pub reading: Reading,
    /// Names of CAN interfaces.
    pub can: Vec<String>,
    /// Of the bus, in bits a second.
    pub bit_rate: u64,
}

/// The most CAN interfaces.
const INTERFACES_MAX: usize = 3;
/// What most DroneCAN buses have.
const BIT_RATE: u64 = 1_000_000;

/// The words after a command, taken one by one.
pub struct Words {
    words: std::vec::IntoIter<OsString>,
    /// Those that are no options.
    pub plain: Vec<OsString>,
    options_end: bool,
}

impl Words {
    pub fn new(words: Vec<OsString>) -> Words {
        Words {
            words: words.into_iter(),
            plain: Vec::new(),
            options_end: false,
        }
    }

    /// The next option; words that are none are put aside.
    pub fn option(&mut self) -> Option<String> {
        for word in self.words.by_ref() {
            match word.to_str() {
                Some("--") if !self.options_end => self.options_end = true,
                Some(option)
                    if !self.options_end && option.len() > 1 && option.starts_with('-') =>
                {
                    return Some(option.to_string());
                }
                _ => self.plain.push(word),
            }
        }
        None
    }

    /// The word that goes with an option.
    pub fn value(&mut self, option: &str) -> Result<OsString, Failure> {
        let missing = || Failure::Words(format!("{option} wants a word after it"));
        self.words.next().ok_or_else(missing)
    }

    /// The same, of letters.
    pub fn text(&mut self, option: &str) -> Result<String, Failure> {
        let word = self.value(option)?.into_string();
        word.map_err(|word| Failure::Words(format!("{option} does not take {word:?}")))
    }

    /// A number that goes with an option.
    pub fn number(&mut self, option: &str, from: u64, to: u64) -> Result<u64, Failure> {
        let word = self.text(option)?;
        let number = word
            .parse()
            .ok()
            .filter(|number| (from..=to).contains(number));
        number.ok_or_else(|| {
            Failure::Words(format!(
                "{option} wants a number from {from} to {to}, not {word:?}"
            ))
        })
    }
}

pub fn unknown(option: &str) -> Failure {
    Failure::Words(format!(
        "there is no option {option:?} here; --help tells which there are"
    ))
}

impl Listening {
    pub fn new() -> Listening {
        Listening {
            own: Own::Node(1),
            types: Types::standard(),
            reading: Reading {
                form: None,
                offset: None,
            },
            can: Vec::new(),
            bit_rate: BIT_RATE,
        }
    }

    /// Takes the option, if it is one of these.
    pub fn take(&mut self, option: &str, words: &mut Words) -> Result<bool, Failure> {
        match option {
            "--own" => self.own = Own::Node(words.number(option, 0, 127)? as u32),
            "--listen" => self.own = Own::Every,
            "--types" => self.subscribe(Path::new(&words.value(option)?))?,
            "--form" => {
                self.reading.form = Some(match words.text(option)?.as_str() {
                    "log" => Form::Log,
                    "candump" => Form::Candump,
                    other => {
                        return Err(Failure::Words(format!(
                            "{option} wants log or candump, not {other:?}"
                        )))
                    }
                })
            }
            "--bitrate" => self.bit_rate = words.number(option, 1, 1_000_000_000)?,
            "--can" => self.can.push(words.text(option)?),
            _ => return Ok(false),
        }
        if self.can.len() > INTERFACES_MAX {
            return Err(Failure::Words(format!(
                "there may be {INTERFACES_MAX} interfaces at most"
            )));
        }
        Ok(true)
    }

    fn subscribe(&mut self, folder: &Path) -> Result<(), Failure> {
        let types = std::mem::replace(&mut self.types, Types::standard());
        let (types, left_out) = types.with(folder)?;
        self.types = types;
        if !left_out.is_empty() {
            let names = left_out.join(", ");
            eprintln!("tecelume: a receiver subscribes to 64 types at most; left out: {names}");
        }
        Ok(())
    }

    /// A file, standard input, or the interfaces.
    pub fn source(&self, words: &[OsString]) -> Result<Source, Failure> {
        match (self.can.is_empty(), words) {
            (true, words) => Source::of_words(words),
            (false, []) => Ok(Source::Can(self.can.clone())),
            (false, _) => Err(Failure::Words(
                "there is a file as well as --can".to_string(),
            )),
        }
    }
}
