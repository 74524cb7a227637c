//! A drawing in words (docs/SAMPLES.md): a line for each area, contour and delimiter.

mod line;
mod said;

use std::fmt;

use zones::MOST_COORDINATE;

use crate::record::Bytes;
pub use said::{said, text};

/// A place in a text: its line and its character in the line, from 1 on.
#[derive(Clone, Copy, PartialEq, Eq, Debug)]
pub struct Place {
    pub line: usize,
    pub column: usize,
}

impl fmt::Display for Place {
    fn fmt(&self, out: &mut fmt::Formatter<'_>) -> fmt::Result {
        write!(out, "{}:{}", self.line, self.column)
    }
}

/// Where words are no drawing in words, and why.
#[derive(Clone, PartialEq, Eq, Debug)]
pub struct Mistake {
    pub place: Place,
    pub text: String,
}

impl fmt::Display for Mistake {
    fn fmt(&self, out: &mut fmt::Formatter<'_>) -> fmt::Result {
        write!(out, "{}: {}", self.place, self.text)
    }
}

/// Which numbers words may have.
#[derive(Clone, Copy, PartialEq, Eq, Debug)]
pub enum Ranges {
    /// Those of a drawing.
    Drawing,
    /// Those that fit in the bytes of a record, for drawings that are to be refused.
    Records,
}

impl Ranges {
    const fn most_coordinate(self) -> u32 {
        match self {
            Ranges::Drawing => MOST_COORDINATE,
            Ranges::Records => u32::MAX,
        }
    }

    const fn least_material(self) -> u32 {
        match self {
            Ranges::Drawing => 1,
            Ranges::Records => 0,
        }
    }
}

/// The records of a text.
#[derive(Clone, PartialEq, Eq, Debug)]
pub struct Words {
    pub records: Vec<Bytes>,
    /// The word that made each record, then the end of the text.
    pub places: Vec<Place>,
}

/// The records of a text and their places. Only the form of the words and the ranges of the numbers are looked at: the records may
/// be a drawing that is refused.
pub fn parse(text: &str, ranges: Ranges) -> Result<Words, Mistake> {
    let text = text.strip_prefix('\u{FEFF}').unwrap_or(text);
    let mut words = Words {
        records: Vec::new(),
        places: Vec::new(),
    };
    let mut end = 1;
    for (text, number) in text.lines().zip(1..) {
        for (record, place) in line::records(text, number, ranges)? {
            words.records.push(record.bytes());
            words.places.push(place);
        }
        end = number + 1;
    }
    words.places.push(Place {
        line: end,
        column: 1,
    });
    Ok(words)
}

/// The records of a text alone.
pub fn records(text: &str) -> Result<Vec<Bytes>, Mistake> {
    parse(text, Ranges::Drawing).map(|words| words.records)
}
