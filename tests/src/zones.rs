//! The library under test, by the package `zones`: the nine calls on the tables of the second implementation, and their answers as
//! numbers.

use crate::meaning::Drawing;
use crate::tree::{Tree, TreeMut};

pub use ::zones::FULL;

/// What a call answers: its result, or the refusal's number and place.
#[derive(Clone, Copy, PartialEq, Eq, Debug)]
pub enum Answer {
    Accepted(u32),
    Refused { number: u32, place: u32 },
}

impl From<Result<u32, ::zones::Refused>> for Answer {
    fn from(answer: Result<u32, ::zones::Refused>) -> Answer {
        match answer {
            Ok(result) => Answer::Accepted(result),
            Err(refused) => Answer::Refused {
                number: refused.refusal.number(),
                place: refused.place,
            },
        }
    }
}

impl<'a> From<Drawing<'a>> for ::zones::Drawing<'a> {
    fn from(drawing: Drawing<'a>) -> ::zones::Drawing<'a> {
        ::zones::Drawing {
            plan: drawing.plan,
            areas: drawing.areas,
            xs: drawing.xs,
            ys: drawing.ys,
        }
    }
}

impl<'a> From<Tree<'a>> for ::zones::Tree<'a> {
    fn from(tree: Tree<'a>) -> ::zones::Tree<'a> {
        ::zones::Tree {
            head: tree.head,
            cells: tree.cells,
            entries: tree.entries,
        }
    }
}

fn lend<'a>(tree: &'a mut TreeMut) -> ::zones::TreeMut<'a> {
    ::zones::TreeMut {
        head: tree.head,
        cells: tree.cells,
        entries: tree.entries,
    }
}

/// Reads records into the drawing's tables; accepted: how many records.
pub fn read(
    records: &[u8],
    plan: &mut [u32],
    areas: &mut [u32],
    xs: &mut [u32],
    ys: &mut [u32],
) -> Answer {
    let into = ::zones::DrawingMut {
        plan,
        areas,
        xs,
        ys,
    };
    ::zones::read(records, into).into()
}

/// Writes a lent drawing out as records; accepted: how many bytes.
pub fn write(drawing: Drawing, out: &mut [u8]) -> Answer {
    ::zones::write(drawing.into(), out).into()
}

/// Opens a tree; accepted: how many entries.
pub fn open(drawing: Drawing, tree: &mut TreeMut) -> Answer {
    ::zones::open(drawing.into(), lend(tree)).into()
}

/// Splits a cell; accepted: the number of its first child.
pub fn split(drawing: Drawing, tree: &mut TreeMut, cell: u32) -> Answer {
    ::zones::split(drawing.into(), lend(tree), cell).into()
}

/// Grows; accepted: the splits made, and FULL more if there was no room for the next.
pub fn grow(drawing: Drawing, tree: &mut TreeMut, threshold: u32, limit: u32) -> Answer {
    let grown = ::zones::grow(drawing.into(), lend(tree), threshold, limit);
    let result = |grown: ::zones::Growth| grown.splits | if grown.full { FULL } else { 0 };
    grown.map(result).into()
}

/// Finds the leaf at a position and writes its eight words; accepted: its number.
pub fn find_leaf(drawing: Drawing, tree: Tree, x: u32, y: u32, out: &mut [u32]) -> Answer {
    ::zones::find_leaf(drawing.into(), tree.into(), x, y, out).into()
}

/// Reads at a position and writes ten words; accepted: the material.
pub fn position(drawing: Drawing, tree: Tree, x: u32, y: u32, out: &mut [u32]) -> Answer {
    ::zones::position(drawing.into(), tree.into(), x, y, out).into()
}

/// Fills red, green, blue for each pixel of `out`, from pixel `first` of a row on; accepted: 0.
pub fn pixel_row(drawing: Drawing, tree: Tree, row: u32, first: u32, out: &mut [u8]) -> Answer {
    let filled = ::zones::pixel_row(drawing.into(), tree.into(), row, first, out);
    filled.map(|()| 0).into()
}

/// Writes the zone log of a run of positions; accepted: how many indices.
pub fn zone_log(drawing: Drawing, tree: Tree, px: &[u32], py: &[u32], out: &mut [u32]) -> Answer {
    ::zones::zone_log(drawing.into(), tree.into(), px, py, out).into()
}
