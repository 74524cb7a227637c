//! Random drawings for the tree. Corners lie on the borders of cells or one beside them, contours
//! often are the squares of cells, so that whole cells are covered or left out and every rule of
//! pruning is used; groups stand in groups, up to eight deep.

use std::iter;

use crate::bends;
use crate::class::{Square, WHOLE_SIDE};
use crate::curve::{self, Curve};
use crate::drawing::{
    check, BAR, CLIP, CLOSE, FIRST, MOST_AREAS, MOST_COORDINATE, MOST_CORNERS, MOST_GROUPS,
    MOST_RECORDS, NEXT, OPEN, PAINT,
};
use crate::meaning::MOST_POSITION;
use crate::random::Random;
use crate::record::{self, area, corner, delimiter, Record};
use crate::samples::{self, Tables};

/// How large a drawing may grow, what it is mostly made of, and where it lies.
#[derive(Clone, Copy, Debug)]
pub struct Look {
    pub records: usize,
    pub areas: usize,
    pub corners: usize,
    /// Most items on a side, and most on the top level.
    pub items: usize,
    pub top: usize,
    /// Most groups open at once, and how many of ten items are groups.
    pub groups: usize,
    pub grouped: usize,
    /// Most contours of an area, most corners of a contour.
    pub contours: usize,
    pub contour: usize,
    /// Of ten contours, how many are the square of a cell.
    pub filling: usize,
    /// Of ten sides of a contour, how many are curves or begin with one.
    pub curved: usize,
    /// Of ten paint areas, how many have alpha 255.
    pub opaque: usize,
    /// Where most corners lie, on multiples of `step`, of ten coordinates so many one beside.
    pub base: Square,
    pub step: u32,
    pub beside: usize,
}

/// A cell's square inside `around`, so many levels below it (side 1 at the deepest).
pub fn square_in(random: &mut Random, around: Square, levels: u32) -> Square {
    (0..levels).fold(around, |square, _| match square.quarters() {
        Some(quarters) => random.pick(&quarters),
        None => square,
    })
}

impl Look {
    /// Any look.
    pub fn any(random: &mut Random) -> Look {
        let base = match random.below(4) {
            0 => {
                let levels = random.within(1..=13) as u32;
                square_in(random, Square::WHOLE, levels)
            }
            _ => Square::WHOLE,
        };
        let step = match random.below(8) {
            0 => 1,
            _ => base.side >> random.within(0..=5),
        };
        let mut look = Look {
            records: 400,
            areas: random.within(1..=10),
            corners: 300,
            items: random.within(1..=4),
            top: random.within(1..=6),
            groups: random.within(0..=MOST_GROUPS),
            grouped: random.within(0..=7),
            contours: random.within(1..=3),
            contour: random.within(3..=8),
            filling: random.within(0..=10),
            curved: 0,
            opaque: random.within(0..=10),
            base,
            step: step.max(1),
            beside: random.pick(&[0, 0, 1, 3]),
        };
        match random.below(12) {
            // One area, or none.
            0 => (look.areas, look.top) = (random.below(2), 1),
            // Many areas.
            1 => (look.areas, look.top) = (MOST_AREAS, 4 * MOST_AREAS),
            // Deep, with many groups.
            2..5 => {
                look.groups = random.within(5..=MOST_GROUPS);
                look.grouped = 8;
                (look.areas, look.items) = (MOST_AREAS, 3);
            }
            // Squares of cells in groups: what is covered or left out as a whole.
            5..9 => {
                (look.filling, look.beside) = (9, 0);
                (look.areas, look.grouped, look.groups) = (40, 6, 5);
                (look.items, look.top) = (4, 8);
            }
            _ => {}
        }
        if random.one_in(3) {
            look.curved = random.within(1..=10);
        }
        look
    }

    /// Any look, with curves: often in a square as large as a curve, or some of them.
    pub fn curved(random: &mut Random) -> Look {
        let mut look = Look {
            curved: random.within(1..=10),
            ..Look::any(random)
        };
        if random.one_in(2) {
            let levels = random.within(2..=7) as u32;
            look.base = square_in(random, Square::WHOLE, levels);
            look.step = random.pick(&[1, look.base.side / 16, look.base.side / 4]);
        }
        look
    }

    /// Areas and corners up to what a drawing may have, spread over the whole grid.
    pub fn fullest(random: &mut Random) -> Look {
        Look {
            records: MOST_RECORDS,
            areas: MOST_AREAS,
            corners: MOST_CORNERS,
            items: 8,
            top: 400,
            groups: MOST_GROUPS,
            grouped: 5,
            contours: 4,
            contour: 40,
            filling: random.pick(&[0, 0, 5]),
            curved: random.pick(&[0, 0, 4]),
            opaque: random.within(0..=3),
            base: Square::WHOLE,
            step: random.pick(&[1, 256, 4_096]),
            beside: random.pick(&[0, 3]),
        }
    }
}

/// A drawing of any look.
pub fn any(random: &mut Random) -> Vec<Record> {
    let look = Look::any(random);
    of(random, &look)
}

/// A drawing with curves of any look.
pub fn curved(random: &mut Random) -> Vec<Record> {
    let look = Look::curved(random);
    of(random, &look)
}

/// The tables of a drawing of any look.
pub fn tables(random: &mut Random) -> Tables {
    let records = any(random);
    assert!(check(&records.concat()).is_ok());
    samples::tables(&records)
}

/// Those of any look, once in `rare` of one of the largest.
pub fn any_tables(random: &mut Random, rare: usize) -> Tables {
    if random.one_in(rare) {
        let look = Look::fullest(random);
        return samples::tables(&of(random, &look));
    }
    tables(random)
}

/// A drawing of a look: always accepted.
pub fn of(random: &mut Random, look: &Look) -> Vec<Record> {
    let mut maker = Maker {
        records: Vec::new(),
        room: look.records,
        areas: 0,
        corners: 0,
        look,
        random,
    };
    maker.side(PAINT, 0, look.top, look.areas);
    maker.records
}

struct Maker<'a> {
    records: Vec<Record>,
    /// Records still to be had.
    room: usize,
    areas: usize,
    corners: usize,
    look: &'a Look,
    random: &'a mut Random,
}

impl Maker<'_> {
    /// A side with so many open groups around it. `end` is how many areas there may be after it: the
    /// items share what is left, and of a group its left side has about half.
    fn side(&mut self, role: u32, open: usize, most: usize, end: usize) {
        let least = if self.random.one_in(8) { 0 } else { 1 };
        let items = self.random.within(least..=most);
        for item in 0..items {
            let left = end.saturating_sub(self.areas);
            let share = left.min(left * 2 / (items - item) + 1);
            let group = self.random.below(10) < self.look.grouped
                && open < self.look.groups
                && self.room >= 3
                && (share >= 2 || self.random.one_in(10));
            if group {
                let end = self.areas + share;
                let half = self.areas + self.random.within(share.div_ceil(3)..=share.div_ceil(2));
                self.room -= 3;
                self.records.push(delimiter(OPEN));
                self.side(CLIP, open + 1, self.look.items, half);
                self.records.push(delimiter(BAR));
                self.side(role, open + 1, self.look.items, end);
                self.records.push(delimiter(CLOSE));
            } else if share > 0 && self.room >= 1 {
                self.area(role);
            }
        }
    }

    fn area(&mut self, role: u32) {
        self.room -= 1;
        self.areas += 1;
        let mut area = record::random_area(self.random, role);
        if role == PAINT {
            // Materials that are often equal, so that logs pass borders without a change.
            let material = self.random.within(1..=5) as u16;
            area[8..10].copy_from_slice(&material.to_le_bytes());
            let byte = self.random.byte();
            area[3] = match self.random.below(10) < self.look.opaque {
                true => 255,
                false => self.random.pick(&[254, 128, 127, 1, 0, byte]),
            };
        }
        self.records.push(area);
        let contours = match self.random.one_in(12) {
            true => 0,
            false => self.random.within(1..=self.look.contours),
        };
        for _ in 0..contours {
            let mut corners = self.contour(role);
            if self.random.one_in(2) {
                corners.reverse();
            }
            // Twice around, now and then: windings beyond 1.
            if self.random.one_in(8) {
                corners.extend(corners.clone());
            }
            let records = bends::contour(self.random, &corners, self.look.curved);
            let most = self.room.min(self.look.corners - self.corners);
            if records.len() > most {
                return;
            }
            self.room -= records.len();
            self.corners += records.len();
            self.records.extend(records);
        }
    }

    fn contour(&mut self, role: u32) -> Vec<(u32, u32)> {
        let base = self.look.base;
        if self.random.below(10) < self.look.filling {
            // The square of a cell around the base, of the base, or of one inside it; a clip area's
            // is large more often.
            let square = match self.random.below(if role == CLIP { 4 } else { 6 }) {
                0 => Square::WHOLE,
                1 => around(self.random, base),
                2 => base,
                _ => {
                    let levels = self.random.within(1..=3) as u32;
                    square_in(self.random, base, levels)
                }
            };
            return self.rectangle(square.x, square.y, square.side, square.side);
        }
        if self.random.one_in(4) {
            let (x, y) = self.corner();
            let (other_x, other_y) = self.corner();
            let (wide, high) = (x.abs_diff(other_x), y.abs_diff(other_y));
            return self.rectangle(x.min(other_x), y.min(other_y), wide, high);
        }
        let corners = self.random.within(3..=self.look.contour);
        (0..corners).map(|_| self.corner()).collect()
    }

    fn rectangle(&mut self, x: u32, y: u32, wide: u32, high: u32) -> Vec<(u32, u32)> {
        let mut corners = vec![(x, y), (x + wide, y), (x + wide, y + high), (x, y + high)];
        corners.rotate_left(self.random.below(4));
        corners
    }

    fn corner(&mut self) -> (u32, u32) {
        let base = self.look.base;
        (self.coordinate(base.x), self.coordinate(base.y))
    }

    fn coordinate(&mut self, low: u32) -> u32 {
        let Look {
            base, step, beside, ..
        } = *self.look;
        if self.random.one_in(30) {
            return self.random.pick(&[0, MOST_COORDINATE]);
        }
        let steps = (base.side / step) as usize;
        let on_step = low + step * self.random.within(0..=steps) as u32;
        match self.random.below(10) < beside {
            true if self.random.one_in(2) => on_step.saturating_sub(1),
            true => (on_step + 1).min(MOST_COORDINATE),
            false => on_step,
        }
    }
}

/// A cell's square that holds another.
fn around(random: &mut Random, square: Square) -> Square {
    let mut side = square.side;
    for _ in 0..random.within(0..=square.depth() as usize) {
        side *= 2;
    }
    let side = side.min(WHOLE_SIDE);
    Square {
        x: square.x / side * side,
        y: square.y / side * side,
        side,
    }
}

/// A position: near a corner of the drawing, near a border of cells, or anywhere.
pub fn position(random: &mut Random, tables: &Tables) -> (u32, u32) {
    let corners = tables.xs.len().min(tables.ys.len());
    let any = |random: &mut Random| (corners > 0).then(|| random.below(corners));
    let number = any(random);
    let x = coordinate(random, number.map(|n| tables.xs[n]));
    let number = match random.one_in(2) {
        true => number,
        false => any(random),
    };
    let y = coordinate(random, number.map(|n| tables.ys[n]));
    (x, y)
}

fn coordinate(random: &mut Random, corner: Option<u32>) -> u32 {
    let near = match (random.below(4), corner) {
        (0, _) => return random.below(WHOLE_SIDE as usize) as u32,
        (1 | 2, Some(corner)) => corner,
        _ => {
            let step = 1 << random.within(0..=15);
            step * random.within(0..=(WHOLE_SIDE / step) as usize) as u32
        }
    };
    let beside = match random.below(4) {
        0 => near + 1,
        1 | 2 => near.saturating_sub(1),
        _ => near,
    };
    beside.min(MOST_POSITION)
}

/// A position on the line from one corner to the next, or one beside it.
pub fn position_on_edge(random: &mut Random, tables: &Tables) -> (u32, u32) {
    let corners = tables.xs.len().min(tables.ys.len());
    if corners < 2 {
        return position(random, tables);
    }
    let from = random.below(corners - 1);
    let part = random.below(65_537) as i64;
    let mut between = |table: &[u32]| {
        let (low, high) = (i64::from(table[from]), i64::from(table[from + 1]));
        let on = low + (high - low) * part / 65_536;
        let beside = on + random.pick(&[0, 0, 1, -1]);
        beside.clamp(0, i64::from(MOST_POSITION)) as u32
    };
    (between(&tables.xs), between(&tables.ys))
}

/// A position in a row of a curve, on it or one or two beside it.
pub fn position_on_curve(random: &mut Random, curve: Curve) -> (u32, u32) {
    let rows = curve.ends().rows();
    let (first, end) = (rows.start, rows.end);
    let y = match random.below(8) {
        0 => first,
        1 => end - 1,
        2 => first - 1,
        3 => end,
        _ if first < end => first + random.below((end - first) as usize) as i64,
        _ => first,
    };
    let x = match rows.contains(&y) {
        true => curve.floor_at(y),
        false => curve.from.0,
    };
    let x = x + random.pick(&[0, 0, 1, -1, -2]);
    let [x, y] = [x, y].map(|at| at.clamp(0, MOST_POSITION.into()) as u32);
    (x, y)
}

/// On a line, a curve, a corner or a border of cells, or one beside it, or anywhere.
pub fn any_position(random: &mut Random, tables: &Tables) -> (u32, u32) {
    let curves = bends::curves(tables);
    if !curves.is_empty() && random.one_in(2) {
        let corners = bends::corners_at(tables, random.pick(&curves));
        // Damaged tables may hold what is no curve.
        if curve::fits(corners) {
            return position_on_curve(random, Curve::of(corners));
        }
    }
    match random.below(3) {
        0 => position_on_edge(random, tables),
        _ => position(random, tables),
    }
}

/// A run of positions: steps along a line, or jumps.
pub fn run(random: &mut Random, tables: &Tables, len: usize) -> (Vec<u32>, Vec<u32>) {
    let (x, y) = position(random, tables);
    let step = random.pick(&[1, 7, 300, 5_000]);
    let jump = random.one_in(2);
    let mut run = (Vec::new(), Vec::new());
    for i in 0..len as u32 {
        let (x, y) = match jump {
            true => position(random, tables),
            false => ((x + i * step).min(65_535), y),
        };
        run.0.push(x);
        run.1.push(y);
    }
    run
}

// ---- chosen ones ----

/// A contour through some corners.
pub fn contour(corners: &[(u32, u32)]) -> Vec<Record> {
    let kinds = iter::once(FIRST).chain(iter::repeat(NEXT));
    let pairs = kinds.zip(corners);
    pairs.map(|(kind, (x, y))| corner(kind, *x, *y)).collect()
}

/// The contour of a square.
pub fn square_at(x: u32, y: u32, side: u32) -> Vec<Record> {
    contour(&[(x, y), (x + side, y), (x + side, y + side), (x, y + side)])
}

/// A paint area of material 7.
pub fn painted(alpha: u8, colour: [u8; 3], contour: Vec<Record>) -> Vec<Record> {
    [vec![area(PAINT, 0, alpha, colour, 7)], contour].concat()
}

/// Faint areas that overlap, in a square of the grid: two of slanting sides, before a ramp of slices.
/// Each slice is all that lies right of a slanting line, so that most pixels have samples of several
/// shown sets.
pub fn faint(random: &mut Random, square: Square) -> Vec<Record> {
    let Square { x, y, side } = square;
    let (right, top) = (x + side, y + side);
    let mut paint = |corners: &[(u32, u32)]| {
        let colour = [0; 3].map(|_| random.byte());
        painted(random.within(1..=40) as u8, colour, contour(corners))
    };
    let quarter = side / 4;
    let mut records = [
        paint(&[(x, y), (right, y + quarter), (right - quarter, top)]),
        paint(&[(right, y), (x + quarter, top), (x, y + quarter)]),
    ]
    .concat();
    for slice in 0..FAINT_SLICES {
        let low = x + slice * side / FAINT_SLICES;
        let high = x + (slice + FAINT_SLICES / 2) * side / (2 * FAINT_SLICES);
        records.extend(paint(&[(low, y), (right, y), (right, top), (high, top)]));
    }
    records
}

/// Slices of a ramp.
const FAINT_SLICES: u32 = 16;

/// Corners of an area, and rows and columns of a block of the grid.
const ZIGZAG_CORNERS: u32 = 32;
const HIGH: u32 = 65_536 / 8;
const WIDE: u32 = 65_536 / 4;

/// 64 areas of 32 corners each, two in each of 32 blocks of the grid: a zigzag between its lowest and
/// highest row. Every other block's are a clip area and what it shows.
pub fn zigzags(random: &mut Random) -> Vec<Record> {
    let mut zigzag = |block: u32| {
        let (low_x, low_y) = (block % 4 * WIDE, block / 4 * HIGH);
        let corners: Vec<(u32, u32)> = (0..ZIGZAG_CORNERS)
            .map(|i| {
                let step = WIDE / ZIGZAG_CORNERS;
                let x = low_x + i * step + random.below(step as usize) as u32;
                (x, low_y + i % 2 * HIGH)
            })
            .collect();
        contour(&corners)
    };
    let mut records = Vec::new();
    for block in 0..32 {
        let paint = |alpha: u8| area(PAINT, 0, alpha, [block as u8; 3], 1 + block as u16);
        if block % 2 == 0 {
            records.extend([delimiter(OPEN), area(CLIP, 0, 0, [0; 3], 0)]);
            records.extend(zigzag(block));
            records.extend([delimiter(BAR), paint(255)]);
            records.extend(zigzag(block));
            records.push(delimiter(CLOSE));
        } else {
            for alpha in [128, 255] {
                records.push(paint(alpha));
                records.extend(zigzag(block));
            }
        }
    }
    records
}
