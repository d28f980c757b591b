//! How far a long run is, on a terminal.

use crate::text::grouped;
use std::time::{Duration, Instant};

const EVERY: Duration = Duration::from_millis(250);

/// The least input of which it is told how much has come, where it is not known how much there is.
const MUCH: u64 = 1_000_000;

pub struct Progress {
    tells: bool,
    done: u64,
    /// Bytes in all, if that is known.
    all: Option<u64>,
    told: Option<Instant>,
    begun: Instant,
}

impl Progress {
    /// Of an input of so many bytes, if that is known.
    pub fn new(all: Option<u64>) -> Progress {
        Progress {
            tells: super::tells_progress(),
            done: 0,
            all: all.filter(|all| *all > 0),
            told: None,
            begun: Instant::now(),
        }
    }

    pub fn add(&mut self, bytes: usize) {
        self.done += bytes as u64;
        let last = self.told.unwrap_or(self.begun);
        if !self.tells || last.elapsed() < EVERY || self.all.is_none() && self.done < MUCH {
            return;
        }
        let megabytes = |bytes: u64| grouped(bytes.div_ceil(1_000_000));
        match self.all {
            Some(all) => eprint!("\r{:3} % of {} MB", self.done * 100 / all, megabytes(all)),
            None => eprint!("\r{} MB", megabytes(self.done)),
        }
        self.told = Some(Instant::now());
    }

    pub fn end(&mut self) {
        if self.told.is_some() {
            eprint!("\r\x1b[K");
        }
    }
}
