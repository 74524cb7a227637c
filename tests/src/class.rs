//! Squares of cells, their keys, and what becomes of an edge or a curve in a square: document 01,
//! "Cells", and document 02, Item 2: "In cells, streams, their grammar and pruning a curve goes as an
//! edge or line does".

use std::ops::Range;

use crate::curve::Segment;

/// "Cell 0 is the square of side 65,536 at (0, 0)."
pub const WHOLE_SIDE: u32 = 65_536;

/// "A cell's square holds its low sides and not its high ones."
#[derive(Clone, Copy, PartialEq, Eq, Debug)]
pub struct Square {
    pub x: u32,
    pub y: u32,
    pub side: u32,
}

impl Square {
    pub const WHOLE: Square = Square {
        x: 0,
        y: 0,
        side: WHOLE_SIDE,
    };

    pub fn holds(&self, x: u32, y: u32) -> bool {
        self.xs().contains(&x.into()) && self.ys().contains(&y.into())
    }

    fn xs(&self) -> Range<i64> {
        self.x.into()..i64::from(self.x) + i64::from(self.side)
    }

    fn ys(&self) -> Range<i64> {
        self.y.into()..i64::from(self.y) + i64::from(self.side)
    }

    /// "four cells of half the side ...: low x low y, high x low y, low x high y, high x high y."
    /// A square of side 1 has none.
    pub fn quarters(&self) -> Option<[Square; 4]> {
        let side = self.side / 2;
        (side > 0).then(|| {
            [(0, 0), (1, 0), (0, 1), (1, 1)].map(|(high_x, high_y)| Square {
                x: self.x + side * high_x,
                y: self.y + side * high_y,
                side,
            })
        })
    }

    /// How many halvings of cell 0's side lead to this one.
    pub fn depth(&self) -> u32 {
        WHOLE_SIDE.ilog2() - self.side.ilog2()
    }

    /// "A cell's key is that of its low corner."
    pub fn key(&self) -> u32 {
        key(self.x, self.y)
    }
}

/// "The key of (x, y): bit i of x at 2i, bit i of y at 2i + 1".
pub fn key(x: u32, y: u32) -> u32 {
    (0..16).fold(0, |key, i| {
        key | (x >> i & 1) << (2 * i) | (y >> i & 1) << (2 * i + 1)
    })
}

/// What becomes in a square of an edge, a curve, a line or a shortcut.
#[derive(Clone, Copy, PartialEq, Eq, Debug)]
pub enum Class {
    /// "no rows, or it counts at none of the cell's positions: dropped"
    Dropped,
    /// "it counts at every position in those rows: a shortcut with its sign and those rows"
    Shortcut { sign: i32, first: u32, end: u32 },
    /// "or, if they are all the cell's rows, its sign is added to the area's start number"
    Start { sign: i32 },
    /// "otherwise: kept as a line."
    Line,
}

/// At how many of some positions something counts.
#[derive(Clone, Copy, PartialEq, Eq)]
enum Where {
    Nowhere,
    Everywhere,
    Somewhere,
}

impl Where {
    fn among(counts: impl Iterator<Item = bool>) -> Where {
        let (mut some, mut all) = (false, true);
        for one in counts {
            some |= one;
            all &= one;
        }
        match (some, all) {
            (false, _) => Where::Nowhere,
            (true, true) => Where::Everywhere,
            (true, false) => Where::Somewhere,
        }
    }
}

/// "taking only those rows of an edge that fall in it"
fn rows_in(rows: Range<i64>, square: Square) -> Range<i64> {
    let within = square.ys();
    rows.start.max(within.start)..rows.end.min(within.end)
}

fn class(sign: i32, rows: Range<i64>, square: Square, counted: Where) -> Class {
    if rows.is_empty() {
        return Class::Dropped;
    }
    match counted {
        Where::Nowhere => Class::Dropped,
        Where::Everywhere if rows == square.ys() => Class::Start { sign },
        Where::Everywhere => Class::Shortcut {
            sign,
            first: rows.start as u32,
            end: rows.end as u32,
        },
        Where::Somewhere => Class::Line,
    }
}

/// The class of an edge or a curve by looking at every position of the square in those rows.
pub fn by_looking(segment: Segment, square: Square) -> Class {
    let rows = rows_in(segment.rows(), square);
    let positions = rows
        .clone()
        .flat_map(|y| square.xs().map(move |x| (x, y)))
        .map(|(x, y)| segment.counts(x, y));
    let counted = Where::among(positions);
    class(segment.sign(), rows, square, counted)
}

/// The same for squares of any size, by four positions.
///
/// In those rows an edge counts where P is above zero; P is linear in x and in y, so over the
/// positions of a box it is greatest at one of the four corner positions and least at one: it is
/// above zero at all positions, or at none, if it is at the four.
///
/// A curve that counts at a position counts, by the same fraction t, at each position left of it in
/// the row: curve x is above a smaller x too. Where its x do not fall, t serves every higher row of
/// it, as curve y is at most a larger y too; where its x fall, every lower one. So over the
/// positions of a box there is a corner position at which it counts if it counts anywhere, and one
/// at which it does not if there is any such position.
pub fn of(segment: Segment, square: Square) -> Class {
    let rows = rows_in(segment.rows(), square);
    if rows.is_empty() {
        return Class::Dropped;
    }
    let xs = square.xs();
    let corners = [
        (xs.start, rows.start),
        (xs.end - 1, rows.start),
        (xs.start, rows.end - 1),
        (xs.end - 1, rows.end - 1),
    ];
    let counted = Where::among(corners.into_iter().map(|(x, y)| segment.counts(x, y)));
    class(segment.sign(), rows, square, counted)
}

/// The class of a parent's shortcut, which counts at every position of its rows.
pub fn shortcut(sign: i32, first: u32, end: u32, square: Square) -> Class {
    let rows = rows_in(first.into()..end.into(), square);
    class(sign, rows, square, Where::Everywhere)
}
