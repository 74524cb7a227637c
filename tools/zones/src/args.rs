//! The words of a command line: operands and options.

use std::ffi::{OsStr, OsString};
use std::ops::RangeInclusive;

use crate::commands::Command;
use crate::fault::Fault;
use crate::text::{nearest, no_number, number, shown};

/// An option of a command.
#[derive(Debug)]
pub struct Flag {
    pub name: &'static str,
    /// A single letter that says the same.
    pub short: Option<char>,
    /// What its value is called, if it has one.
    pub value: Option<&'static str>,
}

impl Flag {
    pub const fn plain(name: &'static str) -> Flag {
        Flag {
            name,
            short: None,
            value: None,
        }
    }

    pub const fn valued(name: &'static str, value: &'static str) -> Flag {
        Flag {
            name,
            short: None,
            value: Some(value),
        }
    }

    pub const fn or_short(self, letter: char) -> Flag {
        Flag {
            short: Some(letter),
            ..self
        }
    }
}

/// Asked for instead of what a command does.
pub const HELP: [&str; 2] = ["--help", "-h"];

/// What a command was given.
#[derive(Debug)]
pub struct Args {
    command: &'static Command,
    operands: Vec<OsString>,
    given: Vec<(&'static Flag, OsString)>,
}

/// What the words of a command ask for.
#[derive(Debug)]
pub enum Asked {
    Help,
    Run(Args),
}

impl Args {
    /// The words behind a command's name.
    pub fn parse(command: &'static Command, words: Vec<OsString>) -> Result<Asked, Fault> {
        let mut args = Args {
            command,
            operands: Vec::new(),
            given: Vec::new(),
        };
        let mut words = words.into_iter();
        while let Some(word) = words.next() {
            match word.to_str() {
                Some("--") => {
                    args.operands.extend(words);
                    break;
                }
                Some(help) if HELP.contains(&help) => return Ok(Asked::Help),
                Some(option) if is_option(option) => args.option(option, &mut words)?,
                _ => args.operands.push(word),
            }
        }
        args.counted().map(Asked::Run)
    }

    fn option(
        &mut self,
        word: &str,
        words: &mut impl Iterator<Item = OsString>,
    ) -> Result<(), Fault> {
        let (name, joined) = split(word);
        let found = self.command.flags.iter().copied().find(|flag| {
            let short = flag.short.map(|letter| format!("-{letter}"));
            flag.name == name || short.as_deref() == Some(name)
        });
        let flag = found.ok_or_else(|| self.unknown(name))?;
        let value = match (flag.value, joined) {
            (None, None) => OsString::new(),
            (None, Some(_)) => return Err(self.wrong(&format!("{name} takes no value"))),
            (Some(_), Some(value)) => value.into(),
            (Some(what), None) => words
                .next()
                .ok_or_else(|| self.wrong(&format!("{name} needs a value: {name} {what}")))?,
        };
        if self.value(flag).is_some() {
            return Err(self.wrong(&format!("{} is given twice", flag.name)));
        }
        self.given.push((flag, value));
        Ok(())
    }

    fn unknown(&self, name: &str) -> Fault {
        let names = self.command.flags.iter().map(|flag| flag.name);
        let hint = match nearest(name, names.chain(["--help"])) {
            Some(near) => format!("; did you mean {near}?"),
            None => String::new(),
        };
        self.wrong(&format!("there is no option {}{hint}", shown(name)))
    }

    /// As many operands as the command has.
    fn counted(self) -> Result<Args, Fault> {
        let names = self.command.operands;
        if let Some(missing) = names.get(self.operands.len()) {
            return Err(self.wrong(&format!("{missing} is missing")));
        }
        match self.operands.get(names.len()) {
            None => Ok(self),
            Some(word) => {
                let word = shown(&word.to_string_lossy());
                Err(self.wrong(&format!("{word} is one word too many")))
            }
        }
    }

    /// A fault of the command line: what is wrong, how it is written, and where to read more.
    pub fn wrong(&self, what: &str) -> Fault {
        let Command { name, usage, .. } = self.command;
        let more = format!("Try zones {name} --help.");
        Fault::Unusable(format!("zones {name}: {what}\nusage: {usage}\n{more}"))
    }

    /// An operand that the command has.
    pub fn operand(&self, index: usize) -> &OsStr {
        &self.operands[index]
    }

    /// An operand that is a number.
    pub fn position(&self, index: usize, range: RangeInclusive<u32>) -> Result<u32, Fault> {
        self.in_range(self.command.operands[index], self.operand(index), range)
    }

    pub fn has(&self, flag: &Flag) -> bool {
        self.value(flag).is_some()
    }

    /// The value of an option, empty if it takes none.
    pub fn value(&self, flag: &Flag) -> Option<&OsStr> {
        let mut given = self.given.iter();
        let found = given.find(|(given, _)| given.name == flag.name);
        found.map(|(_, value)| value.as_os_str())
    }

    /// The value of an option that is a number.
    pub fn number(&self, flag: &Flag, range: RangeInclusive<u32>) -> Result<Option<u32>, Fault> {
        let value = self.value(flag);
        let number = value.map(|value| self.in_range(flag.name, value, range));
        number.transpose()
    }

    fn in_range(&self, name: &str, word: &OsStr, range: RangeInclusive<u32>) -> Result<u32, Fault> {
        let word = word.to_string_lossy();
        number(&word, &range)
            .ok_or_else(|| self.wrong(&format!("{name}: {}", no_number(&word, &range))))
    }
}

/// Not the operand `-`, nor a number below zero, of which the command itself says what is wrong.
fn is_option(word: &str) -> bool {
    let behind = word.strip_prefix('-').unwrap_or_default();
    !behind.is_empty() && !behind.starts_with(|letter: char| letter.is_ascii_digit())
}

/// An option and the value that is joined to it: `--size=512`, `-oFILE`.
fn split(word: &str) -> (&str, Option<&str>) {
    if word.starts_with("--") {
        return match word.split_once('=') {
            Some((name, value)) => (name, Some(value)),
            None => (word, None),
        };
    }
    let end = word.char_indices().nth(2).map_or(word.len(), |(at, _)| at);
    let (name, value) = word.split_at(end);
    (name, Some(value).filter(|value| !value.is_empty()))
}
