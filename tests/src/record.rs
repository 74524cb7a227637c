//! Single records, chosen and random.

use crate::drawing::{
    AREA, BAR, CLIP, CLOSE, CONTROL, FIRST, MOST_COORDINATE, MOST_KIND, NEXT, OPEN, PAINT,
    RECORD_BYTES,
};
use crate::random::Random;

pub type Record = [u8; RECORD_BYTES];

pub fn area(role: u32, rule: u8, alpha: u8, colour: [u8; 3], material: u16) -> Record {
    let mut record = [0; RECORD_BYTES];
    record[..4].copy_from_slice(&[AREA, role as u8, rule, alpha]);
    record[4..7].copy_from_slice(&colour);
    record[8..10].copy_from_slice(&material.to_le_bytes());
    record
}

pub fn paint() -> Record {
    area(PAINT, 0, 255, [1, 2, 3], 4)
}

pub fn clip() -> Record {
    area(CLIP, 0, 0, [0, 0, 0], 0)
}

/// A record of kind 2, 3 or 7.
pub fn corner(kind: u8, x: u32, y: u32) -> Record {
    let mut record = [0; RECORD_BYTES];
    record[0] = kind;
    record[4..8].copy_from_slice(&x.to_le_bytes());
    record[8..12].copy_from_slice(&y.to_le_bytes());
    record
}

/// A record of kind 4, 5 or 6.
pub fn delimiter(kind: u8) -> Record {
    let mut record = [0; RECORD_BYTES];
    record[0] = kind;
    record
}

/// Records from letters: `p` paint, `c` clip, `2`, `3`, `7`, `(`, `|`, `)`. A curve from 2 to 3 fits, one
/// from 3 to 3 breaks the order.
pub fn letters(text: &str) -> Vec<Record> {
    let record = |letter| match letter {
        'p' => paint(),
        'c' => clip(),
        '2' => corner(FIRST, 10, 20),
        '3' => corner(NEXT, 30, 5),
        '7' => corner(CONTROL, 20, 12),
        '(' => delimiter(OPEN),
        '|' => delimiter(BAR),
        ')' => delimiter(CLOSE),
        _ => panic!("no record has the letter {letter}"),
    };
    text.chars().map(record).collect()
}

pub fn random_area(random: &mut Random, role: u32) -> Record {
    let rule = random.below(2) as u8;
    if role == CLIP {
        return area(CLIP, rule, 0, [0, 0, 0], 0);
    }
    let mut byte = || match random.below(4) {
        0 => 0,
        1 => 255,
        _ => random.byte(),
    };
    let (alpha, colour) = (byte(), [byte(), byte(), byte()]);
    let material = match random.below(4) {
        0 => 1,
        1 => 65_535,
        2 => 256,
        _ => random.within(1..=65_535) as u16,
    };
    area(PAINT, rule, alpha, colour, material)
}

pub fn random_corner(random: &mut Random, kind: u8) -> Record {
    let mut coordinate = || match random.below(8) {
        0 => 0,
        1 => MOST_COORDINATE,
        2 => MOST_COORDINATE - 1,
        3 => random.below(20) as u32,
        _ => random.below(MOST_COORDINATE as usize + 1) as u32,
    };
    let (x, y) = (coordinate(), coordinate());
    corner(kind, x, y)
}

pub fn random_record(random: &mut Random) -> Record {
    match random.within(1..=MOST_KIND.into()) as u8 {
        AREA => {
            let role = random.pick(&[PAINT, CLIP]);
            random_area(random, role)
        }
        kind @ (FIRST | NEXT | CONTROL) => random_corner(random, kind),
        kind => delimiter(kind),
    }
}
