//! The tree: opening, splitting, growing and finding leaves. Document 01, "Cells", "From the
//! input" and "From the state", with the parents and line counts of document 02, Item 5, over the
//! tables of docs/TABLES.md and these three:
//!
//! head     word 0 cells in use, word 1 entries in use
//! cells    8 words a cell: x, y, side, first child (0 for a leaf), first entry, entries, lines and
//!          curves, parent (0 for cell 0)
//! entries  4 words an entry

use crate::class::{Square, WHOLE_SIDE};
use crate::drawing::{
    check_tables, refusal, Refusal, AREA_WORDS, MOST_AREAS, MOST_CORNERS, PLAN_COUNTS,
};
use crate::meaning::{Drawing, MOST_POSITION};
use crate::prune::prune;
use crate::stream::{self, run_in_range, Entry, InUse, ENTRY_WORDS};

pub const HEAD_WORDS: usize = 2;
pub const CELL_WORDS: usize = 8;
/// "The caller's tables hold so many whole cells (up to 4,096) and entries (up to 65,536)."
pub const MOST_CELLS: usize = 4_096;
pub const MOST_ENTRIES: usize = 65_536;
/// "a depth limit 0 to 16"
pub const MOST_DEPTH: u32 = 16;

/// Which word of a cell is its first child, its line count, its parent.
pub const CHILD_WORD: usize = 3;
pub const LINES_WORD: usize = 6;
pub const PARENT_WORD: usize = 7;

// ---- the lent tables ----

/// A tree's three tables, lent to be read.
#[derive(Clone, Copy, Debug)]
pub struct Tree<'a> {
    pub head: &'a [u32],
    pub cells: &'a [u32],
    pub entries: &'a [u32],
}

/// A tree's three tables, lent to be written.
#[derive(Debug)]
pub struct TreeMut<'a> {
    pub head: &'a mut [u32],
    pub cells: &'a mut [u32],
    pub entries: &'a mut [u32],
}

impl TreeMut<'_> {
    pub fn view(&self) -> Tree<'_> {
        Tree {
            head: self.head,
            cells: self.cells,
            entries: self.entries,
        }
    }
}

/// A tree's three tables.
#[derive(Clone, PartialEq, Eq, Debug)]
pub struct TreeTables {
    pub head: Vec<u32>,
    pub cells: Vec<u32>,
    pub entries: Vec<u32>,
}

impl TreeTables {
    /// Tables for so many cells and entries, all zero.
    pub fn new(cells: usize, entries: usize) -> TreeTables {
        TreeTables {
            head: vec![0; HEAD_WORDS],
            cells: vec![0; CELL_WORDS * cells],
            entries: vec![0; ENTRY_WORDS * entries],
        }
    }

    pub fn view(&self) -> Tree<'_> {
        Tree {
            head: &self.head,
            cells: &self.cells,
            entries: &self.entries,
        }
    }

    pub fn lend(&mut self) -> TreeMut<'_> {
        TreeMut {
            head: &mut self.head,
            cells: &mut self.cells,
            entries: &mut self.entries,
        }
    }

    /// The cells in use that are leaves, of a tree that passes 12.
    pub fn leaves(&self) -> Vec<u32> {
        let cells = 0..self.head[0];
        cells
            .filter(|number| self.view().cell(*number).is_leaf())
            .collect()
    }

    /// The stream of a cell, of a tree that passes 12.
    pub fn stream(&self, number: u32) -> Vec<Entry> {
        let cell = self.view().cell(number);
        let rows = self.entries.as_chunks::<ENTRY_WORDS>().0;
        let run = &rows[cell.first as usize..][..cell.count as usize];
        run.iter()
            .map(|words| Entry::decode(*words).expect("a kind that is known"))
            .collect()
    }
}

impl Tree<'_> {
    /// Cells and entries in use as the head says. One too short for both counts as none in use.
    fn said(&self) -> (u32, u32) {
        match self.head {
            [cells, entries, ..] => (*cells, *entries),
            _ => (0, 0),
        }
    }

    fn holds_cells(&self) -> usize {
        (self.cells.len() / CELL_WORDS).min(MOST_CELLS)
    }

    fn holds_entries(&self) -> usize {
        (self.entries.len() / ENTRY_WORDS).min(MOST_ENTRIES)
    }

    /// The words of a cell that is in use.
    pub fn cell(&self, number: u32) -> Cell {
        let row = &self.cells[CELL_WORDS * number as usize..][..CELL_WORDS];
        Cell {
            square: Square {
                x: row[0],
                y: row[1],
                side: row[2],
            },
            child: row[CHILD_WORD],
            first: row[4],
            count: row[5],
            lines: row[LINES_WORD],
            parent: row[PARENT_WORD],
        }
    }
}

/// What a cell's words say. Document 02, Item 5: "Each cell carries its parent's number (its own for
/// cell 0) and its line count, curves included."
#[derive(Clone, Copy, PartialEq, Eq, Debug)]
pub struct Cell {
    pub square: Square,
    /// The first of its four children, 0 for a leaf.
    pub child: u32,
    pub first: u32,
    pub count: u32,
    pub lines: u32,
    pub parent: u32,
}

impl Cell {
    pub fn is_leaf(&self) -> bool {
        self.child == 0
    }

    /// A leaf of a square with a stream that begins at an entry.
    pub fn leaf(square: Square, first: u32, stream: &[Entry], parent: u32) -> Cell {
        Cell {
            square,
            child: 0,
            first,
            count: stream.len() as u32,
            lines: stream::lines(stream),
            parent,
        }
    }

    pub fn words(&self) -> [u32; CELL_WORDS] {
        let Square { x, y, side } = self.square;
        let (child, first, count) = (self.child, self.first, self.count);
        [x, y, side, child, first, count, self.lines, self.parent]
    }
}

// ---- refusal 12 ----

/// "In range: cells in use from 1 to what the table holds; areas, corners and entries in use at
/// most what their tables and limits hold". None where one is not.
pub fn in_use(drawing: Drawing, tree: Tree) -> Option<InUse> {
    let (cells, entries) = tree.said();
    let counts = drawing.plan.get(..PLAN_COUNTS)?;
    let in_use = InUse {
        cells: cells as usize,
        entries: entries as usize,
        areas: counts[1] as usize,
        corners: counts[2] as usize,
    };
    let in_range = (1..=tree.holds_cells()).contains(&in_use.cells)
        && in_use.entries <= tree.holds_entries()
        && in_use.areas <= (drawing.areas.len() / AREA_WORDS).min(MOST_AREAS)
        && in_use.corners <= drawing.xs.len().min(MOST_CORNERS);
    in_range.then_some(in_use)
}

/// Whether the four children of a split cell are in use: "child ... numbers below what is in use".
fn children_in_use(in_use: InUse, cell: Cell) -> bool {
    u64::from(cell.child) + 3 < in_use.cells as u64
}

/// Document 02, Item 5: "Cell 0 with another parent than itself, or any other cell whose parent is
/// not a split cell holding it as one of its four, is met by 12 wherever it is used". Each of the four
/// is "on its own square", a quarter of the parent's. No other number of the parent is tried.
fn has_its_parent(tree: Tree, in_use: InUse, number: u32, cell: Cell) -> bool {
    if number == 0 {
        return cell.parent == 0;
    }
    if cell.parent as usize >= in_use.cells {
        return false;
    }
    let parent = tree.cell(cell.parent);
    let holds = !parent.is_leaf() && children_in_use(in_use, parent);
    let which = number.checked_sub(parent.child).filter(|which| *which < 4);
    which.is_some_and(|which| holds && is_quarter(parent.square, which, cell.square))
}

/// Whether a square is this quarter of another, "low x low y, high x low y, low x high y, high x high
/// y", whose numbers may be any words.
fn is_quarter(whole: Square, which: u32, quarter: Square) -> bool {
    let side = u64::from(quarter.side);
    let low = |whole: u32, high: u32| u64::from(whole) + side * u64::from(high);
    u64::from(whole.side) == 2 * side
        && u64::from(quarter.x) == low(whole.x, which % 2)
        && u64::from(quarter.y) == low(whole.y, which / 2)
}

/// A cell that is in use, if its numbers are in range: "a cell's side a power of two up to 65,536
/// and its low corner on the grid in multiples of that side; cell 0 and each child on its own
/// square"; "child and entry numbers below what is in use".
fn checked_cell(tree: Tree, in_use: InUse, number: u32) -> Option<Cell> {
    let cell = tree.cell(number);
    let Square { x, y, side } = cell.square;
    let on_grid = side.is_power_of_two()
        && side <= WHOLE_SIDE
        && x < WHOLE_SIDE
        && y < WHOLE_SIDE
        && x % side == 0
        && y % side == 0;
    let in_range = on_grid
        && (number != 0 || cell.square == Square::WHOLE)
        && (cell.is_leaf() || children_in_use(in_use, cell))
        && run_in_range(in_use, cell.first, cell.count)
        && has_its_parent(tree, in_use, number, cell);
    in_range.then_some(cell)
}

/// The stream of a leaf whose numbers are in range. Document 02, Item 5: 12 meets it too "where its
/// stream is read, ... a leaf whose count differs; a split cell's count is not compared."
fn checked_stream(drawing: Drawing, tree: Tree, in_use: InUse, cell: Cell) -> Option<Vec<Entry>> {
    let (first, count) = (cell.first, cell.count);
    let stream = stream::check(drawing, in_use, cell.square, tree.entries, first, count);
    stream.filter(|stream| stream::lines(stream) == cell.lines)
}

fn unequal(drawing: Drawing) -> bool {
    drawing.xs.len() != drawing.ys.len()
}

// ---- opening ----

/// Writes a stream's words from entry `first` on.
fn put_stream(entries: &mut [u32], first: usize, stream: &[Entry]) {
    let words = stream::words(stream);
    entries[ENTRY_WORDS * first..][..words.len()].copy_from_slice(&words);
}

pub fn put_cell(cells: &mut [u32], number: usize, cell: Cell) {
    cells[CELL_WORDS * number..][..CELL_WORDS].copy_from_slice(&cell.words());
}

/// The stream of a square straight from the drawing, as if no other square had been before.
pub fn stream_in(drawing: Drawing, square: Square) -> Vec<Entry> {
    let whole = stream::of_drawing(drawing);
    prune(drawing, &stream::in_square(drawing, &whole, square))
}

/// Opens a tree over a drawing: cell 0 and its stream. Refusals: 7, 12, 11. What the tree's tables
/// held is not looked at.
pub fn open(drawing: Drawing, tree: &mut TreeMut) -> Result<(), Refusal> {
    if unequal(drawing) {
        return Err(refusal(7, 0));
    }
    let Drawing {
        plan,
        areas,
        xs,
        ys,
    } = drawing;
    if check_tables(plan, areas, xs, ys).is_none() {
        return Err(refusal(12, 0));
    }
    let stream = stream_in(drawing, Square::WHOLE);
    let holds = tree.view();
    if tree.head.len() < HEAD_WORDS
        || holds.holds_cells() < 1
        || holds.holds_entries() < stream.len()
    {
        return Err(refusal(11, 0));
    }
    // Document 02, Item 5: "Opening and splitting set both".
    let cell = Cell::leaf(Square::WHOLE, 0, &stream, 0);
    put_cell(tree.cells, 0, cell);
    put_stream(tree.entries, 0, &stream);
    tree.head[..HEAD_WORDS].copy_from_slice(&[1, cell.count]);
    Ok(())
}

// ---- splitting ----

/// Splits a cell and gives the number of its first child. Refusals: 7, 8, 12, 9, 10, 11.
pub fn split(drawing: Drawing, tree: &mut TreeMut, number: u32) -> Result<u32, Refusal> {
    if unequal(drawing) {
        return Err(refusal(7, 0));
    }
    // "cell number not below the cells in use"
    if number >= tree.view().said().0 {
        return Err(refusal(8, 0));
    }
    // "the cell and, if it is a leaf, its stream when splitting"
    let in_use = in_use(drawing, tree.view()).ok_or(refusal(12, 0))?;
    let cell = checked_cell(tree.view(), in_use, number).ok_or(refusal(12, 0))?;
    if !cell.is_leaf() {
        // "cell already split"
        return Err(refusal(9, 0));
    }
    let stream = checked_stream(drawing, tree.view(), in_use, cell).ok_or(refusal(12, 0))?;
    // "cell of side 1"
    let quarters = cell.square.quarters().ok_or(refusal(10, 0))?;
    // "All four children are worked out together before any is written".
    let streams = quarters.map(|quarter| {
        let unpruned = stream::in_square(drawing, &stream, quarter);
        prune(drawing, &unpruned)
    });
    let more: usize = streams.iter().map(Vec::len).sum();
    let holds = tree.view();
    if in_use.cells + 4 > holds.holds_cells() || in_use.entries + more > holds.holds_entries() {
        return Err(refusal(11, 0));
    }
    // "their entries are written from the first unused entry onward, child by child."
    let mut end = in_use.entries;
    for (i, (square, stream)) in quarters.into_iter().zip(&streams).enumerate() {
        let child = Cell::leaf(square, end as u32, stream, number);
        // "numbered onward from the cells in use"
        put_cell(tree.cells, in_use.cells + i, child);
        put_stream(tree.entries, end, stream);
        end += stream.len();
    }
    let first_child = in_use.cells as u32;
    tree.cells[CELL_WORDS * number as usize + CHILD_WORD] = first_child;
    tree.head[0] = first_child + 4;
    tree.head[1] = end as u32;
    Ok(first_child)
}

// ---- growing ----

/// How growing ended.
#[derive(Clone, Copy, PartialEq, Eq, Debug)]
pub enum End {
    Done,
    Full,
}

#[derive(Clone, Copy, PartialEq, Eq, Debug)]
pub struct Growth {
    pub end: End,
    pub splits: u32,
}

/// "the lowest numbered leaf with more lines than the threshold and a depth below the limit".
/// "Growing reads cells from 0 upward, ... up to the one it splits"; document 02, Item 5: "growing
/// reads the count instead of the stream, but for the leaf it splits."
fn leaf_to_split(
    drawing: Drawing,
    tree: Tree,
    threshold: u32,
    limit: u32,
) -> Result<Option<u32>, Refusal> {
    let in_use = in_use(drawing, tree).ok_or(refusal(12, 0))?;
    for number in 0..in_use.cells as u32 {
        let cell = checked_cell(tree, in_use, number).ok_or(refusal(12, 0))?;
        if cell.is_leaf() && cell.lines > threshold && cell.square.depth() < limit {
            return Ok(Some(number));
        }
    }
    Ok(None)
}

/// Splits "again and again; it says "done" when there is none, "full" when that split would be
/// refused with 11, and gives the splits made." Refusals: 7, 12; "cells split before a 12 remain".
pub fn grow(
    drawing: Drawing,
    tree: &mut TreeMut,
    threshold: u32,
    limit: u32,
) -> Result<Growth, Refusal> {
    if unequal(drawing) || limit > MOST_DEPTH {
        return Err(refusal(7, 0));
    }
    let mut splits = 0;
    loop {
        let Some(number) = leaf_to_split(drawing, tree.view(), threshold, limit)? else {
            let end = End::Done;
            return Ok(Growth { end, splits });
        };
        match split(drawing, tree, number) {
            Ok(_) => splits += 1,
            Err(Refusal { number: 11, .. }) => {
                let end = End::Full;
                return Ok(Growth { end, splits });
            }
            // The leaf's stream is read by its split.
            Err(refused @ Refusal { number: 12, .. }) => return Err(refused),
            Err(other) => panic!("growing splits a checked leaf, and met {other:?}"),
        }
    }
}

// ---- finding ----

/// A leaf found, with its stream.
#[derive(Clone, PartialEq, Eq, Debug)]
pub struct Leaf {
    pub cell: u32,
    pub square: Square,
    /// "finding a leaf reports as many steps as the leaf's depth, at most 16."
    pub steps: u32,
    pub stream: Vec<Entry>,
}

impl Leaf {
    pub fn entries(&self) -> u32 {
        self.stream.len() as u32
    }

    pub fn lines(&self) -> u32 {
        stream::lines(&self.stream)
    }

    /// Document 02, Item 4: "The leaf reading shall also say yes or no".
    pub fn uniform(&self) -> bool {
        stream::uniform(&self.stream)
    }
}

/// "out of range" for a position.
pub fn off_the_grid(x: u32, y: u32) -> bool {
    x > MOST_POSITION || y > MOST_POSITION
}

/// The leaf at a position of the grid, if all that is met passes 12: "the path down and the whole
/// leaf when answering", "cell 0 and each child on its own square".
pub fn leaf_at(drawing: Drawing, tree: Tree, x: u32, y: u32) -> Option<Leaf> {
    let in_use = in_use(drawing, tree)?;
    let (mut number, mut square, mut steps) = (0, Square::WHOLE, 0);
    loop {
        let cell = checked_cell(tree, in_use, number)?;
        if cell.square != square {
            return None;
        }
        if cell.is_leaf() {
            let stream = checked_stream(drawing, tree, in_use, cell)?;
            return Some(Leaf {
                cell: number,
                square,
                steps,
                stream,
            });
        }
        // "Each step down picks one quarter and gives the next cell". A cell of side 1 has no
        // quarters, so no child of it is on its own square.
        let quarters = square.quarters()?;
        let which = quarters.iter().position(|quarter| quarter.holds(x, y))?;
        number = cell.child + which as u32;
        square = quarters[which];
        steps += 1;
    }
}

/// Finds the leaf at a position. Refusals: 7, 12.
pub fn find_leaf(drawing: Drawing, tree: Tree, x: u32, y: u32) -> Result<Leaf, Refusal> {
    if unequal(drawing) || off_the_grid(x, y) {
        return Err(refusal(7, 0));
    }
    leaf_at(drawing, tree, x, y).ok_or(refusal(12, 0))
}
