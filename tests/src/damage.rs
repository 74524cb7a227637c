//! Damage to the records of a file, and to lent tables.

use crate::bends;
use crate::drawing::{
    AREA, AREA_WORDS, BAR, CLIP, CLOSE, CONTROL, FIRST, MOST_COORDINATE, MOST_KIND, MOST_RECORDS,
    NEXT, OPEN, PAINT, PLAN_COUNTS, RECORD_BYTES,
};
use crate::lent::LentTables;
use crate::random::Random;
use crate::record::{delimiter, random_area, random_corner, random_record, Record};

/// An index below `end`, often the first or the last.
fn place(random: &mut Random, end: usize) -> usize {
    match random.below(4) {
        0 => 0,
        1 => end - 1,
        _ => random.below(end),
    }
}

/// The places of the records of a kind.
fn places_of(records: &[Record], kinds: &[u8]) -> Vec<usize> {
    (0..records.len())
        .filter(|i| kinds.contains(&records[*i][0]))
        .collect()
}

/// Damages records in one random way and gives the bytes of the file.
pub fn damaged(random: &mut Random, mut records: Vec<Record>) -> Vec<u8> {
    if records.is_empty() {
        records.push(random_record(random));
    }
    let at = place(random, records.len());
    match random.below(24) {
        0 => records[at][random.below(RECORD_BYTES)] ^= 1 << random.below(8),
        1 => records[at][random.below(RECORD_BYTES)] = random.byte(),
        2 => _ = records.remove(at),
        3 => records.insert(at, records[at]),
        4 => {
            let other = place(random, records.len());
            records.swap(at, other);
        }
        5 => records.insert(at, random_record(random)),
        6 => records.truncate(at),
        7 => records[at][0] = random.within(1..=MOST_KIND.into()) as u8,
        8 => records[at] = random_record(random),
        9 => records[at][0] = random.pick(&[0, MOST_KIND + 1, 9, 16, 128 + 1, 255]),
        10 => {
            let unnamed: &[usize] = match records[at][0] {
                AREA => &[7, 10, 11, 12, 13, 14, 15],
                FIRST | NEXT | CONTROL => &[1, 2, 3, 12, 13, 14, 15],
                _ => &[1, 2, 3, 4, 5, 6, 7, 8, 9, 10, 11, 12, 13, 14, 15],
            };
            records[at][random.pick(unnamed)] = random.within(1..=255) as u8;
        }
        11 => out_of_range(random, &mut records),
        12 => wrong_role(random, &mut records),
        13..16 => short_contour(random, &mut records),
        16 => {
            // A group left open, or one that was never opened.
            let kind = random.pick(&[OPEN, BAR, CLOSE]);
            records.push(delimiter(kind));
        }
        17 => {
            let closes = places_of(&records, &[BAR, CLOSE]);
            if !closes.is_empty() {
                records.remove(random.pick(&closes));
            }
        }
        18 => {
            let mut bytes = records.concat();
            match random.below(2) {
                0 => bytes.truncate(random.below(bytes.len())),
                _ => bytes.extend((0..random.within(1..=15)).map(|_| random.byte())),
            }
            return bytes;
        }
        20..24 => damage_curve(random, &mut records),
        _ => {
            // Too many records, by a few; not often, as they are long.
            if random.one_in(6) {
                let too_many = MOST_RECORDS + random.within(1..=20);
                let more = too_many.saturating_sub(records.len());
                let again = records.clone();
                records.extend(again.iter().cycle().take(more));
            } else {
                records.swap_remove(at);
            }
        }
    }
    records.concat()
}

/// Puts a field of an area or corner out of its range.
fn out_of_range(random: &mut Random, records: &mut [Record]) {
    let some = places_of(records, &[AREA, FIRST, NEXT, CONTROL]);
    if some.is_empty() {
        return;
    }
    let record = &mut records[some[place(random, some.len())]];
    if record[0] == AREA {
        match random.below(4) {
            0 => record[1] = random.within(2..=255) as u8,
            1 => record[2] = random.within(2..=255) as u8,
            2 if u32::from(record[1]) == PAINT => record[8..10].fill(0),
            _ if u32::from(record[1]) == PAINT => record[1] = CLIP as u8,
            _ => record[random.pick(&[3, 4, 5, 6, 8, 9])] = random.within(1..=255) as u8,
        }
    } else {
        let coordinate = match random.below(4) {
            0 => MOST_COORDINATE + 1,
            1 => u32::MAX,
            2 => MOST_COORDINATE << random.within(1..=15),
            _ => random.word() | (MOST_COORDINATE + 1),
        };
        let first = random.pick(&[4, 8]);
        record[first..first + 4].copy_from_slice(&coordinate.to_le_bytes());
    }
}

/// Gives an area the other role, with fields in range.
fn wrong_role(random: &mut Random, records: &mut [Record]) {
    let areas = places_of(records, &[AREA]);
    if !areas.is_empty() {
        let at = areas[place(random, areas.len())];
        let other = match u32::from(records[at][1]) {
            PAINT => CLIP,
            _ => PAINT,
        };
        records[at] = random_area(random, other);
    }
}

/// Leaves one or two corners of a contour, or gives an area such a contour.
fn short_contour(random: &mut Random, records: &mut Vec<Record>) {
    let firsts = places_of(records, &[FIRST]);
    let areas = places_of(records, &[AREA]);
    let left = random.within(1..=2);
    if !firsts.is_empty() && random.one_in(2) {
        let at = firsts[place(random, firsts.len())];
        let rest = records[at + 1..].iter();
        let more = rest.take_while(|record| [NEXT, CONTROL].contains(&record[0]));
        let contour = 1 + more.count();
        records.drain(at + left.min(contour)..at + contour);
    } else if !areas.is_empty() {
        let at = areas[place(random, areas.len())] + 1;
        let corners = [random_corner(random, FIRST), random_corner(random, NEXT)];
        records.splice(at..at, corners.into_iter().take(left));
    }
}

/// Moves a corner of a curve so that it does not fit, takes a record beside a control corner away, or
/// makes a corner one.
fn damage_curve(random: &mut Random, records: &mut Vec<Record>) {
    let controls = places_of(records, &[CONTROL]);
    let corners = places_of(records, &[FIRST, NEXT]);
    if let (false, 0..3) = (controls.is_empty(), random.below(4)) {
        let at = controls[place(random, controls.len())];
        let (Some(before), Some(behind)) = (at.checked_sub(1), records.get(at + 1)) else {
            return;
        };
        let number = |record: &Record, from: usize| {
            let bytes = record[from..from + 4].try_into();
            u32::from_le_bytes(bytes.expect("four bytes")).min(MOST_COORDINATE)
        };
        let curve = [&records[before], &records[at], behind];
        let curve = curve.map(|record| (number(record, 4), number(record, 8)));
        if random.one_in(3) {
            let gone = random.pick(&[before, at, at + 1]);
            records.remove(gone);
            return;
        }
        for (record, (x, y)) in (before..).zip(bends::broken(random, curve)) {
            records[record][4..8].copy_from_slice(&x.to_le_bytes());
            records[record][8..12].copy_from_slice(&y.to_le_bytes());
        }
    } else if !corners.is_empty() {
        let at = corners[place(random, corners.len())];
        records[at][0] = CONTROL;
    }
}

/// A word near a limit, or one that a narrower number would take for a smaller.
fn odd_word(random: &mut Random, word: u32) -> u32 {
    match random.below(7) {
        0 => word.wrapping_add(1),
        1 => word.wrapping_sub(1),
        2 => word.wrapping_add(1 << random.within(8..=31)),
        3 => random.pick(&[255, 256, 65_535, 65_536, 65_537]),
        4 => random.below(10) as u32,
        5 => u32::MAX,
        _ => random.word(),
    }
}

fn change(random: &mut Random, words: &mut [u32]) {
    if !words.is_empty() {
        let at = place(random, words.len());
        words[at] = odd_word(random, words[at]);
    }
}

/// Ways to damage a lent drawing in one word or one length.
#[derive(Clone, Copy, PartialEq, Eq, Debug)]
pub enum Damage {
    CountOfRecords,
    CountOfAreas,
    CountOfCorners,
    Kind,
    KindsSwapped,
    AreaField,
    EighthWord,
    Coordinate,
    PlanShorter,
    AreasShorter,
    CornersShorter,
    PairUnequal,
}

pub const DAMAGES: [Damage; 12] = [
    Damage::CountOfRecords,
    Damage::CountOfAreas,
    Damage::CountOfCorners,
    Damage::Kind,
    Damage::KindsSwapped,
    Damage::AreaField,
    Damage::EighthWord,
    Damage::Coordinate,
    Damage::PlanShorter,
    Damage::AreasShorter,
    Damage::CornersShorter,
    Damage::PairUnequal,
];

/// A count near the right one, near what the table holds, or far off.
fn odd_count(random: &mut Random, count: u32, holds: usize) -> u32 {
    let holds = holds as u32;
    let odd = odd_word(random, count);
    random.pick(&[odd, holds, holds + 1, count + 1, count.wrapping_sub(1)])
}

/// Damages a lent drawing whose counts are right. What a shorter table loses becomes guard.
pub fn damage_tables(random: &mut Random, lent: &mut LentTables, damage: Damage) {
    let LentTables {
        plan,
        areas,
        xs,
        ys,
    } = lent;
    let [records_in_use, areas_in_use, corners_in_use] = [0, 1, 2].map(|i| plan.table()[i]);
    let kinds = PLAN_COUNTS..PLAN_COUNTS + records_in_use as usize;
    let area_words = AREA_WORDS * areas_in_use as usize;
    let corners = corners_in_use as usize;
    match damage {
        Damage::CountOfRecords => {
            let holds = plan.table().len() - PLAN_COUNTS;
            plan.table_mut()[0] = odd_count(random, records_in_use, holds);
        }
        Damage::CountOfAreas => {
            let holds = areas.table().len() / AREA_WORDS;
            plan.table_mut()[1] = odd_count(random, areas_in_use, holds);
        }
        Damage::CountOfCorners => {
            plan.table_mut()[2] = odd_count(random, corners_in_use, xs.table().len());
        }
        Damage::Kind => change(random, &mut plan.table_mut()[kinds]),
        Damage::KindsSwapped => {
            let kinds = &mut plan.table_mut()[kinds];
            if !kinds.is_empty() {
                let (one, other) = (place(random, kinds.len()), place(random, kinds.len()));
                kinds.swap(one, other);
            }
        }
        Damage::AreaField => {
            if let Some(row) = some_row(random, &mut areas.table_mut()[..area_words]) {
                change(random, &mut row[..7]);
            }
        }
        Damage::EighthWord => {
            if let Some(row) = some_row(random, &mut areas.table_mut()[..area_words]) {
                row[7] = random.pick(&[1, 256, 1 << 31, u32::MAX]);
            }
        }
        Damage::Coordinate => {
            let table = if random.one_in(2) { xs } else { ys };
            change(random, &mut table.table_mut()[..corners]);
        }
        Damage::PlanShorter => plan.shorten(place(random, kinds.end)),
        Damage::AreasShorter => areas.shorten(place(random, area_words.max(1))),
        Damage::CornersShorter => {
            let len = place(random, corners.max(1));
            xs.shorten(len);
            ys.shorten(len);
        }
        Damage::PairUnequal => {
            let table = if random.one_in(2) { xs } else { ys };
            table.shorten(table.table().len().saturating_sub(1));
        }
    }
}

fn some_row<'a>(random: &mut Random, words: &'a mut [u32]) -> Option<&'a mut [u32]> {
    let rows = words.len() / AREA_WORDS;
    (rows > 0).then(|| {
        let first = AREA_WORDS * place(random, rows);
        &mut words[first..first + AREA_WORDS]
    })
}
