//! Drawings in words: random records said in words make the same records again.

use zones_tests::damage;
use zones_tests::random::Random;
use zones_tests::record::Record;
use zones_tests::samples;
use zones_tests::scenes;
use zones_tests::tally::Tally;
use zones_tools::record;
use zones_tools::words::{self, Place, Ranges};

/// The records of the words of records, which are the same. Each place is where the record stands in its line.
fn there_and_back(records: &[Record], ranges: Ranges) {
    let text = words::text(records).expect("words for each record");
    let back = words::parse(&text, ranges).expect("words of a drawing");
    assert!(back.records == records, "{text}");
    assert_eq!(words::text(&back.records).as_ref(), Ok(&text));
    assert_eq!(back.places.len(), records.len() + 1);
    let lines: Vec<&str> = text.lines().collect();
    for (bytes, place) in records.iter().zip(&back.places) {
        let said = words::said(&record::Record::of(bytes).expect("a record with words"));
        let said = said.strip_prefix("control ").unwrap_or(&said);
        let from = &lines[place.line - 1][place.column - 1..];
        let whole = from
            .strip_prefix(said)
            .is_some_and(|rest| rest.is_empty() || rest.starts_with(' '));
        assert!(whole, "{place}: {said} in {text}");
    }
    let end = Place {
        line: lines.len() + 1,
        column: 1,
    };
    assert_eq!(back.places.last(), Some(&end));
}

#[test]
fn random_drawings() {
    let random = &mut Random::for_test(210);
    for round in 0..1_500 {
        let records = match round % 4 {
            0 => samples::drawing(random, true),
            1 => samples::curved(random, false),
            2 => scenes::curved(random),
            _ => samples::drawing(random, false),
        };
        there_and_back(&records, Ranges::Drawing);
    }
    there_and_back(&samples::fullest(random), Ranges::Drawing);
    there_and_back(&[], Ranges::Drawing);
}

/// Damaged records: words say them, and then they come back as they were, or name the first that they cannot say.
#[test]
fn damaged_drawings() {
    let random = &mut Random::for_test(211);
    let mut tally = Tally::default();
    for _ in 0..3_000 {
        let records = samples::curved(random, true);
        let bytes = damage::damaged(random, records);
        let (records, _) = bytes.as_chunks();
        match words::text(records) {
            Ok(text) => {
                let back = words::parse(&text, Ranges::Records).expect("words of records");
                assert!(back.records == records, "{text}");
                tally.note("said".to_string());
            }
            Err(number) => {
                assert!(words::text(&records[..number]).is_ok());
                tally.note("not said".to_string());
            }
        }
    }
    tally.print("words of damaged records");
    for end in ["said", "not said"] {
        tally.reached(end, 100);
    }
}
