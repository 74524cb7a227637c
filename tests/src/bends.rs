//! Random curves that a drawing may have, and damage to them.

use crate::curve::{self, MOST_SPAN};
use crate::drawing::{CONTROL, FIRST, MOST_COORDINATE, NEXT, PLAN_COUNTS};
use crate::random::Random;
use crate::record::{corner, Record};
use crate::samples::Tables;

pub type Corner = (u32, u32);

/// How far a curve goes in one axis: 0, 1, 4,095, 4,096 units, a few, or any number between.
pub fn span(random: &mut Random) -> u32 {
    let few = random.within(2..=9) as u32;
    let any = random.below(MOST_SPAN as usize + 1) as u32;
    random.pick(&[0, 1, MOST_SPAN - 1, MOST_SPAN, few, few, any, any])
}

/// A coordinate so many units away, upward or downward as the grid has room.
fn away(random: &mut Random, from: u32, units: u32) -> u32 {
    let upward = random.one_in(2);
    match (from >= units, from + units <= MOST_COORDINATE) {
        (_, true) if upward => from + units,
        (false, _) => from + units,
        (true, _) => from - units,
    }
}

/// A number between two others, often one of them.
fn between(random: &mut Random, one: u32, other: u32) -> u32 {
    let (low, high) = (one.min(other), one.max(other));
    match random.below(6) {
        0 => low,
        1 => high,
        2 => low + (high - low) / 2,
        _ => random.within(low as usize..=high as usize) as u32,
    }
}

/// A control corner between two ends, so that the three are in order: often a corner of the box
/// around the ends, one of the ends, or the middle of the chord.
pub fn control(random: &mut Random, from: Corner, to: Corner) -> Corner {
    match random.below(8) {
        0 | 1 => (from.0, to.1),
        2 | 3 => (to.0, from.1),
        4 => random.pick(&[from, to]),
        5 => (from.0.midpoint(to.0), from.1.midpoint(to.1)),
        _ => (between(random, from.0, to.0), between(random, from.1, to.1)),
    }
}

/// The control corner and the other end of a curve that begins at a corner: of any of the four shapes,
/// straight, level or upright.
pub fn curve_from(random: &mut Random, from: Corner) -> (Corner, Corner) {
    let (wide, high) = (span(random), span(random));
    let to = (away(random, from.0, wide), away(random, from.1, high));
    (control(random, from, to), to)
}

/// The three corners of a curve, often with one on a border of the grid.
pub fn any_curve(random: &mut Random) -> [Corner; 3] {
    let mut coordinate = || match random.below(6) {
        0 => 0,
        1 => MOST_COORDINATE,
        2 => random.below(20) as u32,
        _ => random.below(MOST_COORDINATE as usize + 1) as u32,
    };
    let from = (coordinate(), coordinate());
    let (control, to) = curve_from(random, from);
    [from, control, to]
}

/// The records of a contour through some corners, of ten sides so many bent. A side that is too long
/// for a curve begins with one. The closing side is none: where it is to be bent, a curve leads to the
/// first corner or towards it.
pub fn contour(random: &mut Random, corners: &[Corner], curved: usize) -> Vec<Record> {
    let mut records = Vec::new();
    for (i, at) in corners.iter().enumerate() {
        let kind = if i == 0 { FIRST } else { NEXT };
        records.push(corner(kind, at.0, at.1));
        if curved == 0 || random.below(10) >= curved {
            continue;
        }
        let next = corners[(i + 1) % corners.len()];
        let mut towards = |from: u32, to: u32| match from.abs_diff(to) {
            near if near <= MOST_SPAN => to,
            _ if from < to => from + span(random),
            _ => from - span(random),
        };
        let to = (towards(at.0, next.0), towards(at.1, next.1));
        let (x, y) = control(random, *at, to);
        records.push(corner(CONTROL, x, y));
        if to != next || i + 1 == corners.len() {
            records.push(corner(NEXT, to.0, to.1));
        }
    }
    records
}

/// The numbers of the first corners of a drawing's curves, as its kinds say, if its tables hold them.
pub fn curves(tables: &Tables) -> Vec<u32> {
    let corners = tables.xs.len().min(tables.ys.len());
    let kinds = tables.plan.get(PLAN_COUNTS..).unwrap_or_default();
    let mut found = Vec::new();
    let mut number = 0;
    for kind in kinds {
        if *kind == CONTROL.into() && number > 0 && number + 1 < corners {
            found.push(number as u32 - 1);
        }
        number += usize::from([FIRST, NEXT, CONTROL].map(u32::from).contains(kind));
    }
    found
}

/// The corners of the curve that begins at a corner.
pub fn corners_at(tables: &Tables, from: u32) -> [Corner; 3] {
    [0, 1, 2].map(|more| {
        let number = from as usize + more;
        (tables.xs[number], tables.ys[number])
    })
}

/// Breaks the order or the span of three corners by moving one of them, on the grid.
pub fn broken(random: &mut Random, corners: [Corner; 3]) -> [Corner; 3] {
    loop {
        let mut moved = corners;
        let which = random.below(3);
        let at = &mut moved[which];
        let axis = if random.one_in(2) {
            &mut at.0
        } else {
            &mut at.1
        };
        let far = random.below(MOST_COORDINATE as usize + 1) as u32;
        let units = random.pick(&[1, 2, MOST_SPAN, MOST_SPAN + 1]);
        *axis = match random.below(4) {
            0 => far,
            1 => axis.saturating_sub(units),
            _ => (*axis + units).min(MOST_COORDINATE),
        };
        if !curve::fits(moved) {
            return moved;
        }
    }
}
