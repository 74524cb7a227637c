//! What the words of the tables and of the answers say.

use core::iter;

use crate::limits::{
    AREA_WORDS, CELL_WORDS, HEAD_WORDS, LEAF_WORDS, MOST_CELLS, MOST_DEPTH, POSITION_WORDS,
};
use crate::{Drawing, Tree};

/// What a growing that is full adds to the splits made.
pub const FULL: u32 = 1 << 31;

/// What a growing did.
#[derive(Clone, Copy, PartialEq, Eq, Hash, Debug)]
pub struct Growth {
    /// The splits made.
    pub splits: u32,
    /// Whether there was no room for the next split. A tree that is full answers as well as one that is done.
    pub full: bool,
}

impl Growth {
    /// The result of an accepted growing.
    pub const fn of(result: u32) -> Growth {
        Growth {
            splits: result & !FULL,
            full: result & FULL != 0,
        }
    }
}

/// A leaf that was found.
#[derive(Clone, Copy, PartialEq, Eq, Hash, Debug)]
pub struct Leaf {
    pub cell: u32,
    /// Its low corner.
    pub x: u32,
    pub y: u32,
    pub side: u32,
    /// The steps down to it, which are its depth.
    pub steps: u32,
    pub entries: u32,
    /// How many of its entries are lines or curves.
    pub lines: u32,
    /// Whether no entry is a line, a curve or a shortcut: then each position of the leaf shows the same ([`Position::reaches`]).
    pub uniform: bool,
}

impl Leaf {
    /// The words of a leaf.
    pub const fn of(words: &[u32; LEAF_WORDS]) -> Leaf {
        let [cell, x, y, side, steps, entries, lines, uniform] = *words;
        Leaf {
            cell,
            x,
            y,
            side,
            steps,
            entries,
            lines,
            uniform: uniform != 0,
        }
    }
}

/// What shows at a position, and how far that reaches.
#[derive(Clone, Copy, PartialEq, Eq, Hash, Debug)]
pub struct Position {
    /// The shown set: bit n is area n.
    pub shown: u64,
    /// The material of the front area that shows, 0 if none does.
    pub material: u32,
    /// Red, green, blue.
    pub colour: [u8; 3],
    /// Whether the stream of the leaf that holds the position has no line, curve or shortcut: then each position of the leaf has this
    /// shown set, material and colour. Where it has one, nothing is said about the positions around.
    pub uniform: bool,
    /// The low corner of that leaf.
    pub x: u32,
    pub y: u32,
    /// Its side.
    pub side: u32,
}

impl Position {
    /// The words of a position.
    pub const fn of(words: &[u32; POSITION_WORDS]) -> Position {
        let [low, high, material, red, green, blue, uniform, x, y, side] = *words;
        Position {
            shown: (high as u64) << 32 | low as u64,
            material,
            colour: [red as u8, green as u8, blue as u8],
            uniform: uniform != 0,
            x,
            y,
            side,
        }
    }

    /// Whether this answer is known to be that of (x, y) too: the leaf is uniform and holds (x, y). A cab tablet that asks at every fix
    /// needs no call where it is. Not to be asked of an answer from before a split, a growing, an opening or a reading.
    ///
    /// ```
    /// use zones::Map;
    ///
    /// // The empty drawing is the white ground everywhere.
    /// let mut map = Map::read(&[])?;
    /// map.open()?;
    /// map.split(0)?;
    /// let here = map.position(40_000, 30_000)?;
    /// assert_eq!((here.uniform, here.x, here.y, here.side), (true, 32_768, 0, 32_768));
    /// assert!(here.reaches(32_768, 0) && here.reaches(65_535, 32_767));
    /// assert!(!here.reaches(32_767, 30_000) && !here.reaches(40_000, 32_768));
    /// # Ok::<(), zones::Refused>(())
    /// ```
    pub const fn reaches(&self, x: u32, y: u32) -> bool {
        self.uniform && x.wrapping_sub(self.x) < self.side && y.wrapping_sub(self.y) < self.side
    }

    /// Whether an area shows.
    pub const fn shows(&self, area: u32) -> bool {
        area < u64::BITS && self.shown >> area & 1 == 1
    }

    /// The areas that show, front first.
    pub fn areas(&self) -> impl Iterator<Item = u32> + '_ {
        (0..u64::BITS).filter(|area| self.shows(*area))
    }
}

/// Whether an area is painted or clips.
#[derive(Clone, Copy, PartialEq, Eq, Hash, Debug)]
pub enum Role {
    Paint,
    Clip,
}

/// Which windings pass: those that are not 0, or those that are odd.
#[derive(Clone, Copy, PartialEq, Eq, Hash, Debug)]
pub enum FillRule {
    NonZero,
    EvenOdd,
}

/// An area of a drawing.
#[derive(Clone, Copy, PartialEq, Eq, Hash, Debug)]
pub struct Area {
    pub role: Role,
    pub fill: FillRule,
    pub alpha: u8,
    /// Red, green, blue.
    pub colour: [u8; 3],
    /// 1 to 65,535; 0 for a clip area.
    pub material: u16,
}

impl Area {
    /// The words of an area. Words out of range are cut.
    pub const fn of(words: &[u32; AREA_WORDS]) -> Area {
        let [role, fill, alpha, red, green, blue, material, _] = *words;
        Area {
            role: if role == 0 { Role::Paint } else { Role::Clip },
            fill: if fill == 0 {
                FillRule::NonZero
            } else {
                FillRule::EvenOdd
            },
            alpha: alpha as u8,
            colour: [red as u8, green as u8, blue as u8],
            material: material as u16,
        }
    }
}

/// A cell of a tree.
#[derive(Clone, Copy, PartialEq, Eq, Hash, Debug)]
pub struct Cell {
    /// Its low corner.
    pub x: u32,
    pub y: u32,
    pub side: u32,
    /// The first of its four children, 0 for a leaf.
    pub child: u32,
    /// Its first entry.
    pub first: u32,
    pub entries: u32,
    /// How many of its entries are lines or curves. A cell that is split keeps first entry, entries and lines of its own stream.
    pub lines: u32,
    /// The number of its parent, the cell whose split made it; 0 for cell 0.
    pub parent: u32,
}

impl Cell {
    /// The words of a cell.
    pub const fn of(words: &[u32; CELL_WORDS]) -> Cell {
        let [x, y, side, child, first, entries, lines, parent] = *words;
        Cell {
            x,
            y,
            side,
            child,
            first,
            entries,
            lines,
            parent,
        }
    }

    pub const fn is_leaf(&self) -> bool {
        self.child == 0
    }
}

impl<'a> Drawing<'a> {
    /// The areas in use, in order.
    pub fn each_area(self) -> impl Iterator<Item = Area> + 'a {
        let areas = self.plan.get(1).copied().unwrap_or(0) as usize;
        let rows = self.areas.as_chunks::<AREA_WORDS>().0;
        rows.iter().take(areas).map(Area::of)
    }
}

impl<'a> Tree<'a> {
    /// Cells and entries in use.
    pub fn in_use(self) -> [u32; HEAD_WORDS] {
        let word = |at: usize| self.head.get(at).copied().unwrap_or(0);
        [word(0), word(1)]
    }

    /// The words of the cells in use.
    fn rows(self) -> &'a [[u32; CELL_WORDS]] {
        let cells = (self.in_use()[0] as usize).min(MOST_CELLS);
        let rows = self.cells.as_chunks::<CELL_WORDS>().0;
        &rows[..cells.min(rows.len())]
    }

    /// The cells in use, in order.
    pub fn each_cell(self) -> impl Iterator<Item = Cell> + 'a {
        self.rows().iter().map(Cell::of)
    }

    /// A cell in use.
    pub fn cell(self, number: u32) -> Option<Cell> {
        self.rows().get(number as usize).map(Cell::of)
    }

    /// A cell in use, its parent, the parent of that, and so on up to cell 0, each with its number: as many steps as the cell is
    /// deep. In tables that others wrote, whatever the parents are, it ends after [`MOST_DEPTH`] steps, or before a number that is not
    /// in use.
    ///
    /// ```
    /// use zones::{Tree, CELL_WORDS, MOST_DEPTH};
    ///
    /// // Three cells; the parent of cell 1 is cell 2, and that of cell 2 is cell 1.
    /// let mut cells = [0; 3 * CELL_WORDS];
    /// (cells[CELL_WORDS + 7], cells[2 * CELL_WORDS + 7]) = (2, 1);
    /// let tree = Tree { head: &[3, 0], cells: &cells, entries: &[] };
    /// assert_eq!(tree.upward(1).count() as u32, 1 + MOST_DEPTH);
    /// assert!(tree.upward(1).all(|(number, _)| number != 0));
    /// ```
    pub fn upward(self, cell: u32) -> impl Iterator<Item = (u32, Cell)> + 'a {
        let numbered = move |number| Some((number, self.cell(number)?));
        let above = move |(number, cell): &(u32, Cell)| match number {
            0 => None,
            _ => numbered(cell.parent),
        };
        iter::successors(numbered(cell), above).take(MOST_DEPTH as usize + 1)
    }
}
