//! Why a command did not do what it was asked.

use std::io::{self, Write};
use std::process::ExitCode;

/// What an error says, without the number that the system gives it.
pub fn plain(error: &io::Error) -> String {
    let text = error.to_string();
    match text.split_once(" (os error") {
        Some((text, _)) => text.to_string(),
        None => text,
    }
}

/// A message and what it means for the exit status.
#[derive(Debug)]
pub enum Fault {
    /// What a file says is refused: the drawing, its words or a run of positions.
    Refused(String),
    /// The command line is wrong, or a file cannot be read or written.
    Unusable(String),
    /// Whoever reads the output wants no more of it.
    Closed,
}

impl Fault {
    /// A file or a stream that cannot be read or written.
    pub fn file(name: &str, error: &io::Error) -> Fault {
        match error.kind() {
            io::ErrorKind::BrokenPipe => Fault::Closed,
            io::ErrorKind::NotFound => Fault::Unusable(format!("zones: there is no file {name}")),
            _ => Fault::Unusable(format!("zones: {name}: {}", plain(error))),
        }
    }

    /// Says the message; gives the exit status.
    pub fn report(&self) -> ExitCode {
        let (message, status) = match self {
            Fault::Refused(message) => (message, 1),
            Fault::Unusable(message) => (message, 2),
            Fault::Closed => return ExitCode::SUCCESS,
        };
        // Where nobody reads the messages, the exit status still says it.
        _ = writeln!(io::stderr(), "{message}");
        status.into()
    }
}
