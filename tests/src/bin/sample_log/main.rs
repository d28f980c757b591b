//! Logs for those who look at a bus, made by the second implementation's sender.
//!
//! `sample_log flight` prints examples/logs/flight.log: a minute of a small aircraft's bus, with some
//! damage. `sample_log hostile` prints a bus whose texts would rather be something else: control
//! characters, HTML, scripts. `sample_log crowd COUNT` prints so many frames of different types,
//! most of them not subscribed to, from every node; `sample_log many COUNT` so many messages of 55
//! types from every node, far apart. `sample_log private` prints a bus with the types
//! of tests/show/types.

mod bus;
mod flight;
mod hostile;
mod private;

use std::io::{self, Write};
use std::process::ExitCode;

fn main() -> ExitCode {
    let words: Vec<String> = std::env::args().skip(1).collect();
    let words: Vec<&str> = words.iter().map(String::as_str).collect();
    let log = match words.as_slice() {
        ["flight"] => flight::log(),
        ["hostile"] => hostile::log(),
        ["private"] => private::log(),
        ["many", count] => hostile::many(count.parse().expect("a number")),
        ["crowd", count] => hostile::crowd(count.parse().expect("a number")),
        _ => {
            eprintln!("usage: sample_log flight | hostile | private | crowd COUNT | many COUNT");
            return ExitCode::from(2);
        }
    };
    io::stdout().write_all(&log).expect("standard output");
    ExitCode::SUCCESS
}
