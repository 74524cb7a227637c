//! The nine calls over tables that the caller lends.

use crate::refusal::{answer, Refused};
use crate::sys;
use crate::words::Growth;

/// The four tables of a drawing, lent to be read.
#[derive(Clone, Copy, Debug)]
pub struct Drawing<'a> {
    pub plan: &'a [u32],
    pub areas: &'a [u32],
    pub xs: &'a [u32],
    pub ys: &'a [u32],
}

/// The four tables of a drawing, lent to be written. `xs` and `ys` have one length.
#[derive(Debug)]
pub struct DrawingMut<'a> {
    pub plan: &'a mut [u32],
    pub areas: &'a mut [u32],
    pub xs: &'a mut [u32],
    pub ys: &'a mut [u32],
}

/// The three tables of a tree, lent to be read.
#[derive(Clone, Copy, Debug)]
pub struct Tree<'a> {
    pub head: &'a [u32],
    pub cells: &'a [u32],
    pub entries: &'a [u32],
}

/// The three tables of a tree, lent to be written.
#[derive(Debug)]
pub struct TreeMut<'a> {
    pub head: &'a mut [u32],
    pub cells: &'a mut [u32],
    pub entries: &'a mut [u32],
}

/// A call on a drawing that is only read: its four tables, then what else it takes.
macro_rules! on_drawing {
    ($call:ident, $drawing:expr $(, $more:expr)+) => {
        // Each pointer comes with the length of its own slice, and no slice that is written overlaps another.
        answer(unsafe {
            sys::$call(
                $drawing.plan.as_ptr(),
                $drawing.plan.len() as u64,
                $drawing.areas.as_ptr(),
                $drawing.areas.len() as u64,
                $drawing.xs.as_ptr(),
                $drawing.xs.len() as u64,
                $drawing.ys.as_ptr(),
                $drawing.ys.len() as u64,
                $($more),+
            )
        })
    };
}

/// A call on a drawing and a tree, whose pointers are `as_ptr` or `as_mut_ptr`.
macro_rules! on_tree {
    ($call:ident, $drawing:expr, $pointer:ident $tree:expr $(, $more:expr)*) => {
        on_drawing!(
            $call,
            $drawing,
            $tree.head.$pointer(),
            $tree.head.len() as u64,
            $tree.cells.$pointer(),
            $tree.cells.len() as u64,
            $tree.entries.$pointer(),
            $tree.entries.len() as u64
            $(, $more)*
        )
    };
}

/// Reads a file of records into the tables of a drawing; gives the number of records.
///
/// Refusals, in the order they are tried: 7, 1, each record by 2, 3, 13, 4, 5, 6, the end by 4 and 5, then 11. A refusal leaves
/// the tables as they were.
///
/// ```
/// use zones::{DrawingMut, Refusal};
///
/// // One corner: it does not stand behind an area.
/// let mut record = [0; 16];
/// record[0] = 2;
/// let (mut plan, mut xs, mut ys) = ([0; 4], [0; 1], [0; 1]);
/// let into = DrawingMut { plan: &mut plan, areas: &mut [], xs: &mut xs, ys: &mut ys };
/// let refused = zones::read(&record, into).unwrap_err();
/// assert_eq!((refused.refusal, refused.place), (Refusal::Unfit, 0));
/// ```
pub fn read(records: &[u8], into: DrawingMut<'_>) -> Result<u32, Refused> {
    let DrawingMut {
        plan,
        areas,
        xs,
        ys,
    } = into;
    // Each pointer comes with the length of its own slice, and no slice that is written overlaps another.
    answer(unsafe {
        sys::zones_read(
            records.as_ptr(),
            records.len() as u64,
            plan.as_mut_ptr(),
            plan.len() as u64,
            areas.as_mut_ptr(),
            areas.len() as u64,
            xs.as_mut_ptr(),
            xs.len() as u64,
            ys.as_mut_ptr(),
            ys.len() as u64,
        )
    })
}

/// Writes a drawing out as a file of records; gives the number of bytes.
///
/// Refusals: 7, 12, 11. A refusal leaves `out` as it was.
pub fn write(drawing: Drawing<'_>, out: &mut [u8]) -> Result<u32, Refused> {
    on_drawing!(zones_write, drawing, out.as_mut_ptr(), out.len() as u64)
}

/// Opens a tree over a drawing, of cell 0 alone, which is its own parent; gives the entries of cell 0.
///
/// Refusals: 7, 12, 11. A refusal leaves the tree's tables as they were.
pub fn open(drawing: Drawing<'_>, tree: TreeMut<'_>) -> Result<u32, Refused> {
    on_tree!(zones_open, drawing, as_mut_ptr tree)
}

/// Splits a cell in four; gives the number of the first of the four. Each has the lines of its own stream, and the cell that is split
/// as its parent.
///
/// Refusals: 7, 8, 12, 9, 10, 11. 12 looks at the cell with its parent and, if it is a leaf, at its stream with its line count. A
/// refusal leaves the tree's tables as they were.
pub fn split(drawing: Drawing<'_>, tree: TreeMut<'_>, cell: u32) -> Result<u32, Refused> {
    on_tree!(zones_split, drawing, as_mut_ptr tree, cell)
}

/// Splits every leaf with more lines (curves among them) than the threshold and a depth below the limit, lowest number first,
/// until there is none or no room. How many lines a leaf has is read from its cell, and no stream is read but that of the leaf that
/// is split.
///
/// Refusals: 7 (the limit is over 16), 12. 12 looks at the cells from 0 upward, each with its parent, and at the stream of the leaf
/// that is split, with its line count, also where there is no room for the split; a broken stream of another leaf does not stop the
/// growing. The cells split before a 12 remain.
pub fn grow(
    drawing: Drawing<'_>,
    tree: TreeMut<'_>,
    threshold: u32,
    limit: u32,
) -> Result<Growth, Refused> {
    on_tree!(zones_grow, drawing, as_mut_ptr tree, threshold, limit).map(Growth::of)
}

/// Finds the leaf that holds a position and writes its words ([`Leaf::of`](crate::Leaf::of)); gives its number.
///
/// Refusals: 7, 12, 11 where `out` has under [`LEAF_WORDS`](crate::LEAF_WORDS) words. A refusal leaves `out` as it was.
pub fn find_leaf(
    drawing: Drawing<'_>,
    tree: Tree<'_>,
    x: u32,
    y: u32,
    out: &mut [u32],
) -> Result<u32, Refused> {
    on_tree!(
        zones_find_leaf,
        drawing,
        as_ptr tree,
        x,
        y,
        out.as_mut_ptr(),
        out.len() as u64
    )
}

/// Reads what shows at a position, and how far that reaches, and writes its words ([`Position::of`](crate::Position::of)); gives the
/// material.
///
/// Refusals: 7, 12, 11 where `out` has under [`POSITION_WORDS`](crate::POSITION_WORDS) words. A refusal leaves `out` as it was.
pub fn position(
    drawing: Drawing<'_>,
    tree: Tree<'_>,
    x: u32,
    y: u32,
    out: &mut [u32],
) -> Result<u32, Refused> {
    on_tree!(
        zones_position,
        drawing,
        as_ptr tree,
        x,
        y,
        out.as_mut_ptr(),
        out.len() as u64
    )
}

/// Fills red, green, blue of each pixel of `out`, from pixel `first` of a row on. Row 0 is the lowest.
///
/// Refusals: 7, 12. The pixels before the one that 12 meets stand; its place is that pixel's index in the call.
pub fn pixel_row(
    drawing: Drawing<'_>,
    tree: Tree<'_>,
    row: u32,
    first: u32,
    out: &mut [u8],
) -> Result<(), Refused> {
    let answer = on_tree!(
        zones_pixel_row,
        drawing,
        as_ptr tree,
        row,
        first,
        out.as_mut_ptr(),
        out.len() as u64
    );
    answer.map(|_| ())
}

/// Writes the zone log of a run of positions: index 0 and each index whose material differs from the one before. Gives the number
/// of indices.
///
/// Refusals: 7 (a run of unequal length at 0, else the index of the first position out of range), 12, 11. A refusal leaves `out` as
/// it was.
pub fn zone_log(
    drawing: Drawing<'_>,
    tree: Tree<'_>,
    px: &[u32],
    py: &[u32],
    out: &mut [u32],
) -> Result<u32, Refused> {
    on_tree!(
        zones_zone_log,
        drawing,
        as_ptr tree,
        px.as_ptr(),
        px.len() as u64,
        py.as_ptr(),
        py.len() as u64,
        out.as_mut_ptr(),
        out.len() as u64
    )
}
