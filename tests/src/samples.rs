//! Random drawings of many shapes, as records and as tables.

use crate::bends;
use crate::drawing::{
    AREA, BAR, CLIP, CLOSE, CONTROL, FIRST, MOST_AREAS, MOST_CORNERS, MOST_GROUPS, MOST_RECORDS,
    NEXT, OPEN, PAINT, PLAN_COUNTS,
};
use crate::random::Random;
use crate::record::{corner, delimiter, random_area, random_corner, Record};

/// How large a drawing may grow, and what it is mostly made of.
#[derive(Clone, Copy)]
pub struct Shape {
    pub records: usize,
    pub areas: usize,
    pub corners: usize,
    pub groups: usize,
    /// Most contours of an area, most corners of a contour.
    pub contours: usize,
    pub contour: usize,
    /// How often an area, a `(`, and a `|` or `)` is chosen.
    pub often: [usize; 3],
    /// Of ten corners, how many end a curve.
    pub curved: usize,
}

/// A drawing whose shape is random; `over` lets it pass one of the limits of areas, corners, groups.
pub fn drawing(random: &mut Random, over: bool) -> Vec<Record> {
    let shape = any_shape(random, over);
    drawing_of(random, &shape)
}

/// The same with curves.
pub fn curved(random: &mut Random, over: bool) -> Vec<Record> {
    let mut shape = any_shape(random, over);
    shape.contours = shape.contours.max(1);
    shape.curved = random.within(1..=10);
    drawing_of(random, &shape)
}

fn any_shape(random: &mut Random, over: bool) -> Shape {
    let mut shape = Shape {
        records: random.within(8..=60),
        areas: MOST_AREAS,
        corners: MOST_CORNERS,
        groups: MOST_GROUPS,
        contours: random.below(4),
        contour: random.within(3..=7),
        often: [
            random.within(1..=4),
            random.within(1..=4),
            random.within(1..=4),
        ],
        curved: match random.below(3) {
            0 => random.within(1..=10),
            _ => 0,
        },
    };
    match random.below(40) {
        0..5 => shape.records = random.below(8),
        5..10 => shape.records = random.within(60..=600),
        // Deep, with groups in groups.
        10..15 => (shape.records, shape.often) = (random.within(20..=200), [2, 9, 3]),
        // Groups with little on their sides.
        15..18 => (shape.records, shape.often) = (random.within(20..=200), [1, 6, 9]),
        // Many areas.
        18..24 => {
            shape.records = random.within(64..=300);
            shape.contours = random.below(2);
            shape.often = [9, 1, 2];
        }
        // Many corners, in short or in long contours.
        24 => {
            shape.records = random.within(2_000..=MOST_RECORDS);
            shape.contours = 60;
            shape.contour = random.pick(&[3, 5, 50, 2_100]);
            shape.often = [9, 1, 2];
        }
        // Many records.
        25 => shape.records = MOST_RECORDS - random.below(3),
        _ => {}
    }
    if over {
        match random.below(16) {
            0..7 => {
                shape.areas = MOST_AREAS + random.within(1..=3);
                shape.records = random.within(70..=200);
                shape.contours = random.below(2);
                shape.often = [9, 1, 2];
            }
            7..14 => {
                shape.groups = MOST_GROUPS + random.within(1..=4);
                shape.records = random.within(30..=100);
                shape.often = [1, 9, 1];
            }
            _ => {
                shape.corners = MOST_CORNERS + random.within(1..=20);
                shape.records = random.within(2_200..=2_600);
                shape.contours = 60;
                shape.contour = random.pick(&[5, 50, 2_100]);
                shape.often = [9, 1, 2];
            }
        }
    }
    shape
}

/// A contour of so many records, 3 or more.
fn contour_of(random: &mut Random, records: usize, curved: usize) -> Vec<Record> {
    let mut contour = vec![random_corner(random, FIRST)];
    let mut ends = 1;
    while contour.len() < records {
        // A curve takes two records, and three corners that are no control corners must be there.
        let behind = records.saturating_sub(contour.len() + 2);
        let room = contour.len() + 2 <= records && ends + 1 + behind >= 3;
        if curved > 0 && room && random.below(10) < curved {
            let last = contour[contour.len() - 1];
            let number = |from: usize| last[from..].iter().take(4).rev();
            let number = |from: usize| number(from).fold(0, |n, b| n << 8 | u32::from(*b));
            let (control, to) = bends::curve_from(random, (number(4), number(8)));
            contour.push(corner(CONTROL, control.0, control.1));
            contour.push(corner(NEXT, to.0, to.1));
        } else {
            contour.push(random_corner(random, NEXT));
        }
        ends += 1;
    }
    contour
}

/// A drawing of a shape: accepted if the shape keeps the limits.
pub fn drawing_of(random: &mut Random, shape: &Shape) -> Vec<Record> {
    let mut records = Vec::new();
    // For each open group, the role of the side it is on and whether its bar was met.
    let mut groups: Vec<(u32, bool)> = Vec::new();
    let (mut areas, mut corners) = (0, 0);
    loop {
        let side = match groups.last() {
            None => PAINT,
            Some((around, true)) => *around,
            Some((_, false)) => CLIP,
        };
        // Records to keep for the bars and ends of open groups.
        let kept: usize = groups.iter().map(|group| if group.1 { 1 } else { 2 }).sum();
        let room = shape.records - records.len() - kept;
        let [mut often_area, mut often_open, mut often_on] = shape.often;
        if room == 0 || areas == shape.areas {
            often_area = 0;
        }
        if room < 3 || groups.len() == shape.groups {
            often_open = 0;
        }
        if groups.is_empty() {
            often_on = 0;
        }
        let all = often_area + often_open + often_on;
        if all == 0 {
            return records;
        }
        let chosen = random.below(all);
        if chosen < often_area {
            records.push(random_area(random, side));
            areas += 1;
            let mut room = room - 1;
            for _ in 0..random.within(0..=shape.contours) {
                let most = shape.contour.min(room).min(shape.corners - corners);
                if most < 3 {
                    break;
                }
                let contour = random.within(3..=most);
                records.extend(contour_of(random, contour, shape.curved));
                corners += contour;
                room -= contour;
            }
        } else if chosen < often_area + often_open {
            records.push(delimiter(OPEN));
            groups.push((side, false));
        } else {
            match groups.pop() {
                Some((around, false)) => {
                    records.push(delimiter(BAR));
                    groups.push((around, true));
                }
                _ => records.push(delimiter(CLOSE)),
            }
        }
    }
}

/// A drawing of so many areas, corners and groups: the groups in nests of eight, the areas spread
/// over the nests, by turns before one and on its innermost left side, the corners spread over
/// the areas (at least 3 for each, or none at all).
pub fn full(random: &mut Random, areas: usize, corners: usize, groups: usize) -> Vec<Record> {
    let mut records = Vec::new();
    let nests = groups.div_ceil(MOST_GROUPS).max(1);
    let (mut areas_made, mut corners_made, mut groups_made) = (0, 0, 0);
    for nest in 1..=nests {
        let deep = (groups - groups_made).min(MOST_GROUPS);
        let mut before = Vec::new();
        let mut inside = Vec::new();
        while areas_made < areas * nest / nests {
            let inner = deep > 0 && areas_made % 2 == 1;
            let (role, side) = match inner {
                true => (CLIP, &mut inside),
                false => (PAINT, &mut before),
            };
            side.push(random_area(random, role));
            areas_made += 1;
            for i in 0..corners * areas_made / areas - corners_made {
                side.push(random_corner(random, if i == 0 { FIRST } else { NEXT }));
            }
            corners_made = corners * areas_made / areas;
        }
        records.append(&mut before);
        records.extend((0..deep).map(|_| delimiter(OPEN)));
        records.append(&mut inside);
        for _ in 0..deep {
            records.extend([delimiter(BAR), delimiter(CLOSE)]);
        }
        groups_made += deep;
    }
    records
}

/// A drawing of as many records as a file may have: 64 areas and 2,046 corners. (With 2,048
/// corners 1,984 records are left, no multiple of the three that a group takes.)
pub fn fullest(random: &mut Random) -> Vec<Record> {
    let groups = (MOST_RECORDS - MOST_AREAS - (MOST_CORNERS - 2)) / 3;
    full(random, MOST_AREAS, MOST_CORNERS - 2, groups)
}

/// A drawing's four tables.
#[derive(Clone, PartialEq, Eq, Debug)]
pub struct Tables {
    pub plan: Vec<u32>,
    pub areas: Vec<u32>,
    pub xs: Vec<u32>,
    pub ys: Vec<u32>,
}

/// The tables of records, exactly as long as needed, whether or not the records are accepted.
pub fn tables(records: &[Record]) -> Tables {
    let mut tables = Tables {
        plan: vec![0; PLAN_COUNTS],
        areas: vec![],
        xs: vec![],
        ys: vec![],
    };
    for record in records {
        let number = |bytes: &[u8]| bytes.iter().rev().fold(0, |n, b| n << 8 | u32::from(*b));
        tables.plan[0] += 1;
        tables.plan.push(record[0].into());
        if record[0] == AREA {
            tables.plan[1] += 1;
            tables
                .areas
                .extend(record[1..7].iter().map(|byte| u32::from(*byte)));
            tables.areas.extend([number(&record[8..10]), 0]);
        } else if [FIRST, NEXT, CONTROL].contains(&record[0]) {
            tables.plan[2] += 1;
            tables.xs.push(number(&record[4..8]));
            tables.ys.push(number(&record[8..12]));
        }
    }
    tables
}
