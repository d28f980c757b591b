//! Standard output, written in large parts.

use crate::failure::Failure;
use std::io::{self, Write};

/// Bytes that are gathered before they are written.
pub const GATHERED: usize = 1 << 16;

/// Writes all that was gathered.
pub fn write(gathered: &mut Vec<u8>) -> Result<(), Failure> {
    let mut to = io::stdout().lock();
    let written = to.write_all(gathered).and_then(|()| to.flush());
    gathered.clear();
    written.map_err(|_| Failure::writing())
}

/// The same, if it is enough.
pub fn write_enough(gathered: &mut Vec<u8>) -> Result<(), Failure> {
    match gathered.len() < GATHERED {
        true => Ok(()),
        false => write(gathered),
    }
}
