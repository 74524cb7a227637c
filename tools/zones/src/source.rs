//! A drawing that is given: a file of records or a drawing in words, from a file or from standard input.

use std::ffi::OsStr;
use std::fs::File;
use std::io::{self, Read};

use zones::{Map, Refused};

use crate::explain;
use crate::fault::Fault;
use crate::record::Bytes;
use crate::text::shown;
use crate::words::{self, Place, Ranges, Words};

/// No drawing is longer, in words with many comments either.
const MOST_BYTES: u64 = 1 << 24;

/// The operand that stands for standard input or output.
pub const STREAM: &str = "-";

/// A drawing's records, and where they come from.
#[derive(Debug)]
pub struct Source {
    /// The file as messages name it.
    pub name: String,
    pub records: Vec<u8>,
    /// Of a drawing in words: the place of each record, then of the end.
    pub places: Option<Vec<Place>>,
}

impl Source {
    /// The drawing of an operand.
    pub fn open(operand: &OsStr, ranges: Ranges) -> Result<Source, Fault> {
        let (name, bytes) = read(operand, MOST_BYTES)?;
        Source::of(name, bytes, ranges)
    }

    /// Which of the two a file is, its bytes say: every record has a byte that is zero, and words have none.
    fn of(name: String, bytes: Vec<u8>, ranges: Ranges) -> Result<Source, Fault> {
        if bytes.starts_with(&[0xFF, 0xFE]) || bytes.starts_with(&[0xFE, 0xFF]) {
            let what = "this is text of 16 bits a letter; save it as UTF-8";
            return Err(Fault::Refused(format!("{name}: {what}")));
        }
        if bytes.contains(&0) {
            return Ok(Source {
                name,
                records: bytes,
                places: None,
            });
        }
        let Words { records, places } = words_of(&name, &bytes, ranges)?;
        Ok(Source {
            name,
            records: records.concat(),
            places: Some(places),
        })
    }

    /// The drawing, read by the library. There is no tree yet.
    pub fn read(&self) -> Result<Map, Fault> {
        Map::read(&self.records).map_err(|refused| self.refused(refused))
    }

    /// The whole records of the file.
    pub fn rows(&self) -> &[Bytes] {
        self.records.as_chunks().0
    }

    pub fn refused(&self, refused: Refused) -> Fault {
        Fault::Refused(explain::refusal(self, refused))
    }

    /// The place of a record as messages begin with it.
    pub fn place(&self, record: usize) -> String {
        match self.places.as_ref().and_then(|places| places.get(record)) {
            Some(place) => format!("{}:{place}", self.name),
            None => self.name.clone(),
        }
    }
}

fn words_of(name: &str, bytes: &[u8], ranges: Ranges) -> Result<Words, Fault> {
    let text = str::from_utf8(bytes).map_err(|error| {
        let byte = error.valid_up_to();
        let what = "neither records, as no byte is zero, nor words in UTF-8";
        Fault::Refused(format!("{name}: {what}: see byte {byte}"))
    })?;
    let parsed = words::parse(text, ranges);
    parsed.map_err(|mistake| Fault::Refused(format!("{name}:{mistake}")))
}

/// The bytes of a file or of standard input, and its name.
pub fn read(operand: &OsStr, most: u64) -> Result<(String, Vec<u8>), Fault> {
    let mut bytes = Vec::new();
    let (name, done) = if operand == STREAM {
        let stream = io::stdin().lock();
        let name = "standard input".to_string();
        (name, stream.take(most + 1).read_to_end(&mut bytes))
    } else {
        let file = File::open(operand);
        let read = file.and_then(|file| file.take(most + 1).read_to_end(&mut bytes));
        (name_of(operand), read)
    };
    done.map_err(|error| Fault::file(&name, &error))?;
    if bytes.len() as u64 > most {
        let most = most >> 20;
        let what = format!("zones: {name} has over {most} MB, which this command does not take");
        return Err(Fault::Unusable(what));
    }
    Ok((name, bytes))
}

/// A file's name as messages have it.
pub fn name_of(operand: &OsStr) -> String {
    match operand.to_str() {
        Some(name) if !name.chars().any(char::is_control) => name.to_string(),
        _ => shown(&operand.to_string_lossy()),
    }
}
