//! The command line.

use crate::mutants::{self, Mutant};

pub enum Side {
    Archive,
    Reference,
    Mutant(Box<Mutant>),
    Mutants,
    /// The codec program, by its path.
    Codec(String),
}

pub struct Options {
    pub side: Side,
    /// Of the first round; each further one has the next.
    pub seed: u64,
    pub rounds: u64,
    /// Few rounds begin once so many have passed.
    pub seconds: u64,
    /// How many calls of each kind a round makes.
    pub setups: u64,
    pub frames: u64,
    pub sends: u64,
    pub allocations: u64,
    pub messages: u64,
    /// How many lines the codec program gets.
    pub lines: u64,
    /// How often every answer and case must be seen.
    pub minimum: u64,
}

const USAGE: &str =
    "usage: compare [--self | --mutants | --mutant NAME | --codec PATH] [--seed N] \
    [--rounds N | --seconds N] [--setups N] [--frames N] [--sends N] [--allocations N] \
    [--messages N] [--lines N] [--minimum N]";

impl Options {
    pub fn parse(mut words: impl Iterator<Item = String>) -> Result<Options, String> {
        let mut options = Options {
            side: Side::Archive,
            seed: 1,
            rounds: 50,
            seconds: u64::MAX,
            setups: 20_000,
            frames: 600_000,
            sends: 200_000,
            allocations: 100_000,
            messages: 100_000,
            lines: 600_000,
            minimum: 1000,
        };
        while let Some(word) = words.next() {
            match word.as_str() {
                "--self" => options.side = Side::Reference,
                "--mutants" => options.side = Side::Mutants,
                "--mutant" => options.side = Side::Mutant(mutant(words.next())?),
                "--codec" => options.side = Side::Codec(words.next().ok_or(USAGE)?),
                name => *options.number(name)? = number(name, words.next())?,
            }
        }
        if options.seconds < u64::MAX {
            options.rounds = u64::MAX;
        }
        Ok(options)
    }

    fn number(&mut self, name: &str) -> Result<&mut u64, String> {
        match name {
            "--seed" => Ok(&mut self.seed),
            "--rounds" => Ok(&mut self.rounds),
            "--seconds" => Ok(&mut self.seconds),
            "--setups" => Ok(&mut self.setups),
            "--frames" => Ok(&mut self.frames),
            "--sends" => Ok(&mut self.sends),
            "--allocations" => Ok(&mut self.allocations),
            "--messages" => Ok(&mut self.messages),
            "--lines" => Ok(&mut self.lines),
            "--minimum" => Ok(&mut self.minimum),
            _ => Err(USAGE.to_string()),
        }
    }
}

fn number(name: &str, word: Option<String>) -> Result<u64, String> {
    let number = word.and_then(|word| word.parse().ok());
    number.ok_or_else(|| format!("{name} wants a number\n{USAGE}"))
}

fn mutant(name: Option<String>) -> Result<Box<Mutant>, String> {
    let mut mutants = mutants::all();
    let found = mutants
        .iter()
        .position(|mutant| Some(mutant.name) == name.as_deref());
    match found {
        Some(index) => Ok(Box::new(mutants.swap_remove(index))),
        None => {
            let names: Vec<&str> = mutants.iter().map(|mutant| mutant.name).collect();
            Err(format!("mutants: {}", names.join(", ")))
        }
    }
}
