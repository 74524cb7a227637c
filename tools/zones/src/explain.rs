//! A refusal of a drawing, turned back into the line of the words or the bytes of the file.

use zones::{Refusal, Refused, Role, MOST_RECORDS, RECORD_BYTES};

use crate::record::{Corner, Delimiter, Record};
use crate::source::Source;
use crate::text::{count, grouped};
use crate::words;

/// What is said of a drawing that the library refuses to read: where and why, then notes.
pub fn refusal(source: &Source, refused: Refused) -> String {
    let Refused { refusal, place } = refused;
    let number = refusal.number();
    if !refusal.at_record() {
        return match refusal {
            Refusal::Length => length(source),
            _ => format!("{}: refused {number}: {refusal}", source.name),
        };
    }
    let place = place as usize;
    let at = match place < source.rows().len() {
        true => format!("record {}", grouped(place as u64)),
        false => "the end".to_string(),
    };
    let mut lines = vec![format!(
        "{}: refused {number} at {at}: {refusal}",
        source.place(place)
    )];
    lines.extend(bytes_said(source, place));
    lines.extend(note(source, refusal, place));
    lines.join("\n")
}

/// Refusal 1, with what the file has.
fn length(source: &Source) -> String {
    let text = Refusal::Length.text();
    let bytes = source.records.len();
    let has = match bytes % RECORD_BYTES {
        0 => count(bytes / RECORD_BYTES, "record"),
        _ => count(bytes, "byte"),
    };
    // The first record too many, where the file has that many.
    let place = source.place(MOST_RECORDS);
    let first = format!("{place}: refused 1: {text}; it has {has}");
    match taken_as_records(source) {
        Some(note) => format!("{first}\n{note}"),
        None => first,
    }
}

/// Of a file that may be something else: why it was read as records.
fn taken_as_records(source: &Source) -> Option<String> {
    let name = &source.name;
    let note = "it was taken as records, not as words, because a byte of it is zero";
    source.places.is_none().then(|| format!("{name}: {note}"))
}

/// Of a file of records, which bytes the record has and what they say.
fn bytes_said(source: &Source, record: usize) -> Option<String> {
    let bytes = source.rows().get(record)?;
    if source.places.is_some() {
        return None;
    }
    let from = RECORD_BYTES * record;
    let to = from + RECORD_BYTES - 1;
    let said = match Record::of(bytes) {
        Some(record) => words::said(&record),
        None => bytes.map(|byte| format!("{byte:02x}")).join(" "),
    };
    let name = &source.name;
    Some(format!("{name}: bytes {from} to {to} are: {said}"))
}

/// What else helps to mend the drawing.
fn note(source: &Source, refusal: Refusal, place: usize) -> Option<String> {
    let rows = source.rows();
    let record = rows.get(place).and_then(Record::of);
    let mut before = rows[..place.min(rows.len())].iter().map(Record::of);
    match (refusal, record) {
        (Refusal::Kind, _) if place == 0 => taken_as_records(source),
        (Refusal::Short, _) => {
            let mut first = before.enumerate().filter(|(_, record)| {
                matches!(record, Some(Record::Corner { kind, .. }) if *kind == Corner::First)
            });
            let (first, _) = first.next_back()?;
            Some(named(source, first, "the contour begins here"))
        }
        (Refusal::Unfit, None) if place >= rows.len() => Some(unclosed(source)),
        (Refusal::Unfit, Some(record)) => {
            let hint = unfit(&record, before.next_back().flatten());
            Some(format!("{}: {hint}", source.place(place)))
        }
        (Refusal::Curve, _) => {
            let hint =
                "a curve goes from the corner before its control corner to the one behind it; \
                draw a longer or turning one as several";
            Some(format!("{}: {hint}", source.place(place)))
        }
        _ => None,
    }
}

/// A note at a record.
fn named(source: &Source, record: usize, note: &str) -> String {
    let place = source.place(record);
    match source.places {
        Some(_) => format!("{place}: {note}"),
        None => format!("{place}: {note}: record {}", grouped(record as u64)),
    }
}

/// At the end: the group that is still open, or the curve without an end.
fn unclosed(source: &Source) -> String {
    let mut open = Vec::new();
    let rows = source.rows();
    for (number, row) in rows.iter().enumerate() {
        match Record::of(row) {
            Some(Record::Delimiter(Delimiter::Open)) => open.push(number),
            Some(Record::Delimiter(Delimiter::Close)) => _ = open.pop(),
            _ => {}
        }
    }
    match open.last() {
        Some(group) => named(source, *group, "this group is not closed"),
        None => named(
            source,
            rows.len().saturating_sub(1),
            "a control corner is followed by the corner that ends its curve",
        ),
    }
}

/// Where a record of this kind fits.
fn unfit(record: &Record, before: Option<Record>) -> &'static str {
    if let Some(Record::Corner {
        kind: Corner::Control,
        ..
    }) = before
    {
        return "a control corner is followed by the corner that ends its curve";
    }
    match record {
        Record::Area(area) if area.role == Role::Paint => {
            "a paint area stands outside all groups, or right of the | of a group that stands where a paint area may"
        }
        Record::Area(_) => {
            "a clip area stands left of a |, or on either side in a group that stands left of one; elsewhere areas are paint"
        }
        Record::Corner { kind, .. } => match kind {
            Corner::First => "a contour stands straight behind its area or behind another contour of it",
            Corner::Next => "a corner stands behind another of its contour, the first one excepted",
            Corner::Control => "a control corner stands between two corners of its contour",
        },
        Record::Delimiter(Delimiter::Open) => "a group cannot open here",
        Record::Delimiter(Delimiter::Bar) => "each group has one |, and no group whose | is missing is open here",
        Record::Delimiter(Delimiter::Close) => "a ) stands behind the | of its group",
    }
}
