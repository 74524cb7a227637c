//! The command `zones` as a library: drawings in words and as records, pictures, positions and zone logs, over the package `zones`.

#![forbid(unsafe_code)]

mod args;
mod check;
mod commands;
mod convert;
mod draw;
mod explain;
mod fault;
mod help;
mod log;
mod output;
pub mod png;
mod progress;
pub mod record;
mod source;
mod spot;
mod text;
mod tree;
pub mod words;

use std::ffi::OsString;
use std::process::ExitCode;

/// Does what the words of a command line ask; gives the exit status.
pub fn run(words: Vec<OsString>) -> ExitCode {
    match commands::run(words) {
        Ok(()) => ExitCode::SUCCESS,
        Err(fault) => fault.report(),
    }
}
