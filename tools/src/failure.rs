//! How a command ends when it does not end well. The statuses are those of the launcher.

use std::process::ExitCode;

#[derive(Debug)]
pub enum Failure {
    /// A file or a definition was refused; the text begins with the number.
    Refused(String),
    /// The words of the command are not understood, or do not go together.
    Words(String),
    Reading(String),
    Writing(String),
}

impl Failure {
    pub fn reading() -> Failure {
        Failure::Reading("reading failed".to_string())
    }

    pub fn writing() -> Failure {
        Failure::Writing("writing failed".to_string())
    }

    /// Says it, and gives the status.
    pub fn end(self) -> ExitCode {
        match self {
            Failure::Refused(text) => {
                eprintln!("{text}");
                ExitCode::from(1)
            }
            Failure::Words(text) => told(2, &text),
            Failure::Reading(text) => told(3, &text),
            Failure::Writing(text) => told(4, &text),
        }
    }
}

fn told(status: u8, text: &str) -> ExitCode {
    eprintln!("tecelume: {text}");
    ExitCode::from(status)
}
