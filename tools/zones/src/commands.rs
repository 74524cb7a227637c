//! The commands.

use std::ffi::OsString;

use crate::args::{Args, Asked, Flag, HELP};
use crate::fault::Fault;
use crate::text::{nearest, shown};
use crate::{check, convert, draw, help, log, output, spot, tree};

/// A command: how it is written and what it does.
#[derive(Debug)]
pub struct Command {
    pub name: &'static str,
    pub operands: &'static [&'static str],
    pub flags: &'static [&'static Flag],
    /// The whole line in one.
    pub usage: &'static str,
    /// What it does, in full.
    pub help: &'static str,
    pub run: fn(&Args) -> Result<(), Fault>,
}

static COMMANDS: [Command; 6] = [
    Command {
        name: "check",
        operands: &["FILE"],
        flags: &[&tree::THRESHOLD, &tree::LIMIT],
        usage: "zones check FILE [--threshold N] [--limit N]",
        help: help::CHECK,
        run: check::run,
    },
    Command {
        name: "where",
        operands: &["FILE", "X", "Y"],
        flags: &[&tree::THRESHOLD, &tree::LIMIT],
        usage: "zones where FILE X Y [--threshold N] [--limit N]",
        help: help::WHERE,
        run: spot::run,
    },
    Command {
        name: "log",
        operands: &["FILE", "RUN.csv"],
        flags: &[&tree::THRESHOLD, &tree::LIMIT],
        usage: "zones log FILE RUN.csv [--threshold N] [--limit N]",
        help: help::LOG,
        run: log::run,
    },
    Command {
        name: "draw",
        operands: &["FILE", "OUT.png"],
        flags: &[
            &draw::SIZE,
            &draw::PART,
            &draw::CELLS,
            &tree::THRESHOLD,
            &tree::LIMIT,
        ],
        usage: "zones draw FILE OUT.png [--size W | --size WxH] [--part X,Y,WIDTH,HEIGHT]
                  [--cells] [--threshold N] [--limit N]",
        help: help::DRAW,
        run: draw::run,
    },
    Command {
        name: "records",
        operands: &["FILE"],
        flags: &[&output::OUT, &convert::UNCHECKED],
        usage: "zones records FILE [-o OUT] [--unchecked]",
        help: help::RECORDS,
        run: convert::records,
    },
    Command {
        name: "words",
        operands: &["FILE"],
        flags: &[&output::OUT, &convert::UNCHECKED],
        usage: "zones words FILE [-o OUT] [--unchecked]",
        help: help::WORDS,
        run: convert::words,
    },
];

/// Does what the words of a command line ask.
pub fn run(words: Vec<OsString>) -> Result<(), Fault> {
    let mut words = words.into_iter();
    let Some(first) = words.next() else {
        return Err(Fault::Unusable(help::SHORT.to_string()));
    };
    let first = first.to_string_lossy();
    if HELP.contains(&first.as_ref()) || first == "help" {
        return match words.next() {
            Some(name) => command(&name.to_string_lossy()).and_then(help_on),
            None => output::print(help::WHOLE),
        };
    }
    if ["--version", "-V"].contains(&first.as_ref()) {
        return output::print(concat!("zones ", env!("CARGO_PKG_VERSION"), "\n"));
    }
    let command = command(&first)?;
    match Args::parse(command, words.collect())? {
        Asked::Help => help_on(command),
        Asked::Run(args) => (command.run)(&args),
    }
}

fn help_on(command: &Command) -> Result<(), Fault> {
    let Command { usage, help, .. } = command;
    let status = help::STATUS;
    output::print(&format!("usage: {usage}\n\n{help}\n{status}"))
}

fn command(name: &str) -> Result<&'static Command, Fault> {
    let found = COMMANDS.iter().find(|command| command.name == name);
    found.ok_or_else(|| {
        let names = COMMANDS.iter().map(|command| command.name);
        let hint = match nearest(name, names) {
            Some(near) => format!("; did you mean zones {near}?"),
            None => String::new(),
        };
        let name = shown(name);
        Fault::Unusable(format!(
            "zones: there is no command {name}{hint}\nTry zones --help."
        ))
    })
}
