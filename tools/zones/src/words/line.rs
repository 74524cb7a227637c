//! One line of a drawing in words.

use std::ops::RangeInclusive;

use zones::{Area, FillRule, Role};

use super::{Mistake, Place, Ranges};
use crate::record::{Corner, Delimiter, Record};
use crate::text::{no_number, number, shown};

const PAINT: &str = "paint RULE ALPHA RED GREEN BLUE MATERIAL";
const CLIP: &str = "clip RULE";
const CONTOUR: &str = "contour X,Y X,Y X,Y ...";

/// The records of a line, each with the place of the word that made it.
pub fn records(text: &str, number: usize, ranges: Ranges) -> Result<Vec<(Record, Place)>, Mistake> {
    let mut line = Line::of(text, number, ranges);
    let Some(first) = line.words.next() else {
        return Ok(vec![]);
    };
    let made = match first.text {
        "paint" => vec![(line.paint()?, first.place)],
        "clip" => vec![(Record::clip(line.fill_rule(CLIP)?), first.place)],
        "contour" => line.contour()?,
        _ => {
            let delimiter = delimiter(first)?;
            line.ended("(, | and ) have each a line of their own: the end of it is expected")?;
            return Ok(vec![(Record::Delimiter(delimiter), first.place)]);
        }
    };
    line.ended("the end of the line is expected").map(|()| made)
}

fn delimiter(word: Word) -> Result<Delimiter, Mistake> {
    let mut all = Delimiter::ALL.into_iter();
    let found = all.find(|delimiter| delimiter.word() == word.text);
    found.ok_or_else(|| word.expected("a line begins with paint, clip, contour, (, | or )"))
}

#[derive(Clone, Copy)]
struct Word<'a> {
    text: &'a str,
    place: Place,
}

impl Word<'_> {
    fn mistake(&self, text: String) -> Mistake {
        Mistake {
            place: self.place,
            text,
        }
    }

    fn expected(&self, what: &str) -> Mistake {
        self.mistake(format!("{what}, not {}", shown(self.text)))
    }

    fn number(&self, range: RangeInclusive<u32>) -> Result<u32, Mistake> {
        number(self.text, &range).ok_or_else(|| self.mistake(no_number(self.text, &range)))
    }

    /// A number whose name is said where there is none.
    fn named(&self, name: &str, range: RangeInclusive<u32>) -> Result<u32, Mistake> {
        self.number(range).map_err(|mistake| Mistake {
            text: format!("{name}: {}", mistake.text),
            ..mistake
        })
    }
}

/// The words of a line that are still to be read.
struct Line<'a> {
    words: std::vec::IntoIter<Word<'a>>,
    end: Place,
    ranges: Ranges,
}

impl<'a> Line<'a> {
    fn of(text: &'a str, line: usize, ranges: Ranges) -> Line<'a> {
        let text = text.split('#').next().unwrap_or_default();
        let mut words = Vec::new();
        let mut rest = text;
        let mut column = 1;
        loop {
            let begun = rest.trim_start();
            column += rest[..rest.len() - begun.len()].chars().count();
            let length = begun.find(char::is_whitespace).unwrap_or(begun.len());
            let (word, after) = begun.split_at(length);
            if word.is_empty() {
                break;
            }
            let place = Place { line, column };
            words.push(Word { text: word, place });
            column += word.chars().count();
            rest = after;
        }
        // Behind the last word, where a missing one would stand.
        let column = text.trim_end().chars().count() + 1;
        Line {
            words: words.into_iter(),
            end: Place { line, column },
            ranges,
        }
    }

    /// The next word; `form` is how the whole line is written.
    fn next(&mut self, name: &str, form: &str) -> Result<Word<'a>, Mistake> {
        let place = self.end;
        let text = || format!("{name} is missing: {form}");
        self.words.next().ok_or_else(|| Mistake {
            place,
            text: text(),
        })
    }

    fn ended(&mut self, expected: &str) -> Result<(), Mistake> {
        match self.words.next() {
            None => Ok(()),
            Some(word) => Err(word.expected(expected)),
        }
    }

    fn fill_rule(&mut self, form: &str) -> Result<FillRule, Mistake> {
        let word = self.next("RULE", form)?;
        match word.text {
            "non-zero" => Ok(FillRule::NonZero),
            "even-odd" => Ok(FillRule::EvenOdd),
            _ => Err(word.expected("non-zero or even-odd is expected")),
        }
    }

    fn byte(&mut self, name: &str) -> Result<u8, Mistake> {
        let number = self.next(name, PAINT)?.named(name, 0..=255)?;
        Ok(number as u8)
    }

    fn paint(&mut self) -> Result<Record, Mistake> {
        let fill = self.fill_rule(PAINT)?;
        let alpha = self.byte("ALPHA")?;
        let colour = [self.byte("RED")?, self.byte("GREEN")?, self.byte("BLUE")?];
        let least = self.ranges.least_material();
        let word = self.next("MATERIAL", PAINT)?;
        let material = word.named("MATERIAL", least..=65_535)?;
        Ok(Record::Area(Area {
            role: Role::Paint,
            fill,
            alpha,
            colour,
            material: material as u16,
        }))
    }

    /// The corners of a contour. The word `control` says that the next is the control corner of a curve.
    fn contour(&mut self) -> Result<Vec<(Record, Place)>, Mistake> {
        let mut made = Vec::new();
        let mut word = Some(self.next("X,Y", CONTOUR)?);
        while let Some(place) = word {
            let (kind, place) = match place.text {
                "control" => (Corner::Control, self.next("X,Y", "control X,Y X,Y")?),
                _ if made.is_empty() => (Corner::First, place),
                _ => (Corner::Next, place),
            };
            made.push((self.corner(kind, place)?, place.place));
            word = self.words.next();
        }
        Ok(made)
    }

    fn corner(&self, kind: Corner, word: Word) -> Result<Record, Mistake> {
        let no_corner = || word.expected("a corner X,Y with no space in it is expected");
        let (x, y) = word.text.split_once(',').ok_or_else(no_corner)?;
        if x.is_empty() || y.is_empty() {
            return Err(no_corner());
        }
        let column = word.place.column + x.chars().count() + 1;
        let behind = Place {
            column,
            ..word.place
        };
        let [x, y] = [(x, word.place), (y, behind)].map(|(text, place)| Word { text, place });
        let range = 0..=self.ranges.most_coordinate();
        Ok(Record::Corner {
            kind,
            x: x.number(range.clone())?,
            y: y.number(range)?,
        })
    }
}
