//! Records said in words.

use zones::{Area, FillRule, Role};

use crate::record::{Bytes, Corner, Record};

/// The words of records; of the first record that words cannot say, its number.
pub fn text(records: &[Bytes]) -> Result<String, usize> {
    let mut text = String::new();
    // Whether the line so far is a contour, which the next corner goes on.
    let mut contour = false;
    for (number, bytes) in records.iter().enumerate() {
        let record = Record::of(bytes).ok_or(number)?;
        let begins = match record {
            Record::Corner { kind, .. } => {
                if kind == Corner::Next && !contour {
                    return Err(number);
                }
                kind == Corner::First || !contour
            }
            _ => true,
        };
        if begins && number > 0 {
            text.push('\n');
        }
        text += match record {
            Record::Corner { .. } if begins => "contour ",
            Record::Corner { .. } => " ",
            _ => "",
        };
        text += &said(&record);
        contour = matches!(record, Record::Corner { .. });
    }
    if !text.is_empty() {
        text.push('\n');
    }
    Ok(text)
}

/// One record.
pub fn said(record: &Record) -> String {
    match record {
        Record::Area(area) => area_said(area),
        Record::Corner { kind, x, y } => match kind {
            Corner::Control => format!("control {x},{y}"),
            Corner::First | Corner::Next => format!("{x},{y}"),
        },
        Record::Delimiter(delimiter) => delimiter.word().to_string(),
    }
}

fn area_said(area: &Area) -> String {
    let rule = match area.fill {
        FillRule::NonZero => "non-zero",
        FillRule::EvenOdd => "even-odd",
    };
    let [red, green, blue] = area.colour;
    match area.role {
        Role::Paint => {
            let (alpha, material) = (area.alpha, area.material);
            format!("paint {rule} {alpha} {red} {green} {blue} {material}")
        }
        Role::Clip => format!("clip {rule}"),
    }
}
