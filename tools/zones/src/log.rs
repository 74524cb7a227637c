//! `zones log`: where the material changes along a run of positions.

use std::fmt::Write;

use zones::{Map, Refused, MOST_POSITION};

use crate::args::Args;
use crate::fault::Fault;
use crate::output;
use crate::source::{self, Source, STREAM};
use crate::text::{no_number, number, shown};
use crate::tree::Choice;
use crate::words::{Mistake, Place, Ranges};

/// A run of over a hundred million positions is not read at once.
const MOST_BYTES: u64 = 1 << 30;

pub fn run(args: &Args) -> Result<(), Fault> {
    if args.operand(0) == STREAM && args.operand(1) == STREAM {
        return Err(args.wrong("standard input is one file: FILE and RUN.csv cannot both be -"));
    }
    let choice = Choice::of(args)?;
    let source = Source::open(args.operand(0), Ranges::Drawing)?;
    let (map, _) = choice.grown(&source)?;
    let (name, bytes) = source::read(args.operand(1), MOST_BYTES)?;
    let run = run_of(&String::from_utf8_lossy(&bytes));
    let run = run.map_err(|mistake| Fault::Refused(format!("{name}:{mistake}")))?;
    let text = log(&map, &run).map_err(|refused| Fault::Refused(format!("{name}: {refused}")))?;
    output::print(&text)
}

/// The positions of a run.
#[derive(Default)]
struct Run {
    xs: Vec<u32>,
    ys: Vec<u32>,
}

/// The log as lines of index, x, y and material.
fn log(map: &Map, run: &Run) -> Result<String, Refused> {
    let mut text = "index,x,y,material\n".to_string();
    for index in map.zone_log(&run.xs, &run.ys)? {
        let (x, y) = (run.xs[index], run.ys[index]);
        let material = map.position(x, y)?.material;
        _ = writeln!(text, "{index},{x},{y},{material}");
    }
    Ok(text)
}

fn run_of(text: &str) -> Result<Run, Mistake> {
    let text = text.strip_prefix('\u{FEFF}').unwrap_or(text);
    let mut run = Run::default();
    for (text, number) in text.lines().zip(1..) {
        let header = number == 1 && is_header(text);
        if header || text.trim().is_empty() {
            continue;
        }
        let [x, y] = Line { text, number }.position()?;
        run.xs.push(x);
        run.ys.push(y);
    }
    Ok(run)
}

/// The first line is a header where none of its fields begins as a number does.
fn is_header(line: &str) -> bool {
    let begins = |field: &str| {
        let first = field.trim().chars().next();
        first.is_some_and(|letter| !letter.is_ascii_digit() && !"+-.".contains(letter))
    };
    line.split(',').all(begins)
}

/// A line of a run, and its number.
struct Line<'a> {
    text: &'a str,
    number: usize,
}

impl Line<'_> {
    fn position(&self) -> Result<[u32; 2], Mistake> {
        let Some((x, y)) = self.text.split_once(',') else {
            let word = shown(self.text.trim());
            return Err(self.mistake(0, format!("a line X,Y is expected, not {word}")));
        };
        let y_at = x.len() + 1;
        if let Some(comma) = y.find(',') {
            let text = "two numbers X,Y are expected, not a third".to_string();
            return Err(self.mistake(y_at + comma + 1, text));
        }
        Ok([self.coordinate(0, x)?, self.coordinate(y_at, y)?])
    }

    /// The number of a field that begins at a byte of the line.
    fn coordinate(&self, at: usize, field: &str) -> Result<u32, Mistake> {
        let range = 0..=MOST_POSITION;
        let word = field.trim();
        number(word, &range).ok_or_else(|| self.mistake(at, no_number(word, &range)))
    }

    /// A mistake at the first letter from a byte of the line on.
    fn mistake(&self, at: usize, text: String) -> Mistake {
        let rest = &self.text[at..];
        let space = rest.len() - rest.trim_start().len();
        let before = &self.text[..at + space];
        let place = Place {
            line: self.number,
            column: before.chars().count() + 1,
        };
        Mistake { place, text }
    }
}
