//! Tecelume for people who look at a bus. `./tecelume` builds and starts this program; docs/help has its commands. All answers are those of the proved
//! library, which is linked in; what is printed of them is this program's and tested.

#[macro_use]
mod text;
mod bus;
mod candump;
mod codec;
mod failure;
mod frame;
mod input;
mod interrupt;
mod json;
mod library;
mod messages;
mod model;
mod options;
mod output;
mod page;
mod refusals;
mod sha256;
mod show;
#[cfg(test)]
mod test;
mod types;
mod watch;
mod wire;

use failure::Failure;
use std::process::ExitCode;

/// As of other programs that Ctrl-C ends.
const INTERRUPTED: u8 = 130;

fn main() -> ExitCode {
    let mut words = std::env::args_os().skip(1);
    let command = words.next().unwrap_or_default();
    let command = command.to_string_lossy();
    let words = words.collect();
    assert!(
        library::is_of_header(),
        "dist/tecelume.c and its header go together"
    );
    // all but a server end silently when nobody reads their output any more
    if command != "watch" {
        interrupt::end_with_reader();
    }
    let done = match command.as_ref() {
        "show" => show::run(words),
        "page" => page::run(words),
        "watch" => watch::run(words),
        "candump" => candump::run(words),
        "codec" => codec::run(words),
        _ => Err(Failure::Words(format!("there is no command {command:?}"))),
    };
    match done {
        Err(failure) => failure.end(),
        Ok(()) if interrupt::came() => ExitCode::from(INTERRUPTED),
        Ok(()) => ExitCode::SUCCESS,
    }
}
