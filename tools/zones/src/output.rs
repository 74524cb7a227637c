//! Where results go: standard output, or the file that is named.

use std::ffi::OsStr;
use std::fs::{self, File};
use std::io::{self, BufWriter, IsTerminal, Write};

use crate::args::{Args, Flag};
use crate::fault::{plain, Fault};
use crate::source::{name_of, STREAM};

pub const OUT: Flag = Flag::valued("--output", "OUT").or_short('o');

const STANDARD_OUTPUT: &str = "standard output";

/// Text to standard output.
pub fn print(text: &str) -> Result<(), Fault> {
    to_stream(text.as_bytes())
}

/// Text to the file of the option, or to standard output.
pub fn text(args: &Args, text: &str) -> Result<(), Fault> {
    match target(args)? {
        Some(file) => to_file(file, text.as_bytes()),
        None => to_stream(text.as_bytes()),
    }
}

/// The same with bytes that are no text.
pub fn bytes(args: &Args, bytes: &[u8]) -> Result<(), Fault> {
    match target(args)? {
        Some(file) => to_file(file, bytes),
        None => {
            no_terminal(
                "records",
                "give -o FILE, or send them to a file or a program",
            )?;
            to_stream(bytes)
        }
    }
}

/// The file of the option.
fn target(args: &Args) -> Result<Option<&OsStr>, Fault> {
    let file = args.value(&OUT).filter(|file| *file != STREAM);
    file.map(|file| not_input(args, file).map(|()| file))
        .transpose()
}

/// No file is written over the one that it is made from.
fn not_input(args: &Args, file: &OsStr) -> Result<(), Fault> {
    let input = args.operand(0);
    let same = match (fs::canonicalize(input), fs::canonicalize(file)) {
        (Ok(input), Ok(file)) => input == file,
        _ => false,
    };
    if same && input != STREAM {
        let name = name_of(file);
        return Err(args.wrong(&format!("{name} is read; give another file to write")));
    }
    Ok(())
}

fn no_terminal(what: &str, instead: &str) -> Result<(), Fault> {
    if io::stdout().is_terminal() {
        let text = format!("zones: {what} are not written to a terminal: {instead}");
        return Err(Fault::Unusable(text));
    }
    Ok(())
}

fn to_stream(bytes: &[u8]) -> Result<(), Fault> {
    let mut out = io::stdout().lock();
    let done = out.write_all(bytes).and_then(|()| out.flush());
    done.map_err(|error| Fault::file(STANDARD_OUTPUT, &error))
}

fn to_file(file: &OsStr, bytes: &[u8]) -> Result<(), Fault> {
    fs::write(file, bytes).map_err(|error| unwritten(file, &error))
}

pub fn unwritten(file: &OsStr, error: &io::Error) -> Fault {
    if file == STREAM {
        return Fault::file(STANDARD_OUTPUT, error);
    }
    let (name, why) = (name_of(file), plain(error));
    Fault::Unusable(format!("zones: {name} cannot be written: {why}"))
}

/// The file of a picture, to be written as it is drawn.
pub fn picture(args: &Args, file: &OsStr) -> Result<Box<dyn Write>, Fault> {
    if file == STREAM {
        no_terminal(
            "pictures",
            "name a file, or send them to a file or a program",
        )?;
        return Ok(Box::new(BufWriter::new(io::stdout())));
    }
    not_input(args, file)?;
    let created = File::create(file).map_err(|error| unwritten(file, &error))?;
    Ok(Box::new(BufWriter::new(created)))
}
