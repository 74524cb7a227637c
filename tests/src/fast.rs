//! The second implementation in a fast form, for the benchmark: opening, splitting and growing on
//! the same tables with the same answers. A stream is checked in one pass, a child is made and
//! pruned in one pass over its parent's stream, and growing sweeps over the cells once, by their line
//! counts. Where a curve counts is decided by document 000's implicit form, as document 02 says of the
//! quick test.

use std::cmp::Ordering;

use crate::class::{Square, WHOLE_SIDE};
use crate::curve::{self, Curve};
use crate::drawing::{
    check_tables, corner_in_range, refusal, Refusal, CLIP, MOST_AREAS, MOST_CORNERS, MOST_GROUPS,
    MOST_RECORDS, PAINT,
};
use crate::meaning::{fill_passes, Drawing, OPAQUE};
use crate::stream::{self, run_in_range, Entry, InUse, ENTRY_WORDS, MOST_START};
use crate::tree::{
    self, put_cell, Cell, End, Growth, Tree, TreeMut, CELL_WORDS, CHILD_WORD, HEAD_WORDS,
    MOST_CELLS, MOST_DEPTH, MOST_ENTRIES,
};

type Row = [u32; ENTRY_WORDS];

// ---- the check ----

fn in_range(drawing: Drawing, in_use: InUse, square: Square, entry: Entry) -> bool {
    let corner = |number: u32| {
        let number = number as usize;
        number < in_use.corners && corner_in_range(drawing.xs[number], drawing.ys[number])
    };
    match entry {
        Entry::Area { number, start } => {
            (number as usize) < in_use.areas
                && drawing.area(number).in_range()
                && drawing.row(number)[7] == 0
                && (-MOST_START..=MOST_START).contains(&start)
        }
        Entry::Line { from, to } => corner(from) && corner(to),
        Entry::Curve { from } => {
            (from as usize).saturating_add(2) < in_use.corners
                && (from..from + 3).all(corner)
                && curve::fits(drawing.curve_corners(from))
        }
        Entry::Shortcut { sign, first, end } => {
            let high = square.y + square.side;
            (sign == 1 || sign == -1) && square.y <= first && first < end && end <= high
        }
        Entry::Open | Entry::Bar | Entry::Close | Entry::Passes => true,
    }
}

/// The lines of a stream that passes 12.
fn lines_of_checked(drawing: Drawing, in_use: InUse, square: Square, rows: &[Row]) -> Option<u32> {
    // For each open group, the role of the side it stands on, and then of its own side.
    let (mut around, mut sides) = ([PAINT; MOST_GROUPS], [PAINT; MOST_GROUPS]);
    let mut right = [false; MOST_GROUPS];
    let (mut depth, mut side) = (0, PAINT);
    let (mut areas, mut segments, mut lines) = (0, 0, 0);
    let mut after_area = false;
    for row in rows {
        let entry = Entry::decode(*row)?;
        if !in_range(drawing, in_use, square, entry) {
            return None;
        }
        let mut segment = false;
        match entry {
            Entry::Open => {
                if depth == MOST_GROUPS {
                    return None;
                }
                (around[depth], right[depth]) = (side, false);
                sides[depth] = CLIP;
                depth += 1;
            }
            Entry::Bar => {
                if depth == 0 || right[depth - 1] {
                    return None;
                }
                right[depth - 1] = true;
                sides[depth - 1] = around[depth - 1];
            }
            Entry::Close => {
                if depth == 0 || !right[depth - 1] {
                    return None;
                }
                depth -= 1;
            }
            Entry::Area { number, .. } => {
                areas += 1;
                segment = true;
                if drawing.row(number)[0] != side {
                    return None;
                }
            }
            Entry::Passes => {
                if side != CLIP {
                    return None;
                }
            }
            Entry::Line { .. } | Entry::Shortcut { .. } | Entry::Curve { .. } => {
                segments += 1;
                segment = true;
                lines += u32::from(entry.is_line());
                if !after_area {
                    return None;
                }
            }
        }
        after_area = segment;
        side = if depth == 0 { PAINT } else { sides[depth - 1] };
    }
    let passes =
        depth == 0 && areas <= MOST_AREAS && segments <= MOST_CORNERS && rows.len() <= MOST_RECORDS;
    passes.then_some(lines)
}

// ---- making ----

/// What an edge or a shortcut becomes.
enum Kept {
    Nothing,
    Line,
    Rows { sign: i32, first: u32, end: u32 },
}

fn of_edge(drawing: Drawing, square: Square, from: u32, to: u32) -> Kept {
    let corner = |n: u32| {
        let n = n as usize;
        (i64::from(drawing.xs[n]), i64::from(drawing.ys[n]))
    };
    let (from, to) = (corner(from), corner(to));
    let upward = from.1 < to.1;
    let ((a, b), (c, d)) = if upward { (from, to) } else { (to, from) };
    let (low, side) = (i64::from(square.y), i64::from(square.side));
    let (first, end) = (b.max(low), d.min(low + side));
    if first >= end {
        return Kept::Nothing;
    }
    // P falls with x; over the rows it is greatest and least at the first or the last.
    let product = |x: i64, y: i64| (a - x) * (d - b) + (y - b) * (c - a);
    let x = i64::from(square.x);
    let (bottom, top) = (product(x, first), product(x, end - 1));
    if bottom <= 0 && top <= 0 {
        return Kept::Nothing;
    }
    let across = (side - 1) * (d - b);
    if bottom - across > 0 && top - across > 0 {
        return Kept::Rows {
            sign: if upward { 1 } else { -1 },
            first: first as u32,
            end: end as u32,
        };
    }
    Kept::Line
}

/// The signed product P of the line from (a, b) to (c, d) at a position.
fn product((a, b): (i64, i64), (c, d): (i64, i64), (x, y): (i64, i64)) -> i64 {
    (a - x) * (d - b) + (y - b) * (c - a)
}

/// Whether a curve counts at a position, by the implicit form.
pub fn curve_counts(curve: Curve, x: i64, y: i64) -> bool {
    let mut corners = [curve.from, curve.control, curve.to];
    if curve.to.1 < curve.from.1 {
        corners.reverse();
    }
    let [lower, _, upper] = corners;
    (lower.1..upper.1).contains(&y) && Bent::new(corners).counts(x, y)
}

/// A curve whose lower end is the first of its corners, and how far it bends to the right of its chord.
struct Bent {
    corners: [(i64, i64); 3],
    bend: i64,
}

impl Bent {
    fn new(corners: [(i64, i64); 3]) -> Bent {
        let [lower, control, upper] = corners;
        let bend = -product(lower, upper, control);
        Bent { corners, bend }
    }

    /// Whether it counts at a position of its rows. Document 000's implicit form k² − lm is 0 on the
    /// curve's parabola and below 0 on the inner side of it. With the products of the chord, c, and of
    /// the two legs, f and s, it is c² − 4fs. A curve that bends to the right has the chord on its
    /// left, and its inner side between the two.
    fn counts(&self, x: i64, y: i64) -> bool {
        let [lower, control, upper] = self.corners;
        let at = (x, y);
        let chord = product(lower, upper, at);
        let form = || {
            let (f, s) = (product(lower, control, at), product(control, upper, at));
            chord * chord - 4 * f * s
        };
        match self.bend.cmp(&0) {
            Ordering::Equal => chord > 0,
            // Right of the chord it counts between chord and curve.
            Ordering::Greater => chord > 0 || form() < 0,
            // Left of the chord it counts but between curve and chord.
            Ordering::Less => chord > 0 && form() > 0,
        }
    }
}

fn of_curve(drawing: Drawing, square: Square, from: u32) -> Kept {
    let mut corners = drawing
        .curve_corners(from)
        .map(|(x, y)| (i64::from(x), i64::from(y)));
    let upward = corners[0].1 < corners[2].1;
    if !upward {
        corners.swap(0, 2);
    }
    let [lower, _, upper] = corners;
    let (low, side) = (i64::from(square.y), i64::from(square.side));
    let (first, end) = (lower.1.max(low), upper.1.min(low + side));
    if first >= end {
        return Kept::Nothing;
    }
    // Left of all three corners it counts in all its rows, from the greatest x on in none.
    let (left, right) = (i64::from(square.x), i64::from(square.x) + side - 1);
    let (least, most) = (lower.0.min(upper.0), lower.0.max(upper.0));
    let rows = Kept::Rows {
        sign: if upward { 1 } else { -1 },
        first: first as u32,
        end: end as u32,
    };
    if most <= left {
        return Kept::Nothing;
    }
    if right < least {
        return rows;
    }
    let bent = Bent::new(corners);
    let counts = |x: i64| [first, end - 1].map(|y| bent.counts(x, y));
    match (counts(left), counts(right)) {
        ([false, false], _) => Kept::Nothing,
        (_, [true, true]) => rows,
        _ => Kept::Line,
    }
}

fn of_shortcut(square: Square, sign: i32, first: u32, end: u32) -> Kept {
    let (first, end) = (first.max(square.y), end.min(square.y + square.side));
    match first < end {
        true => Kept::Rows { sign, first, end },
        false => Kept::Nothing,
    }
}

/// An open group.
#[derive(Clone, Copy)]
enum Group {
    /// On its left side; where its `(` stands.
    Left(usize),
    /// On its right side; where its `(` and `|` stand.
    Right(usize, usize),
    /// Nothing of the group is written: its left passes everywhere, and what stands on its right
    /// stands on the side around it; or its left is empty, and its right is passed over.
    Gone,
}

/// What is passed over: up to the `|` or `)` of the innermost open group that is kept.
#[derive(Clone, Copy, PartialEq, Eq)]
enum Over {
    No,
    ToBar(usize),
    ToClose(usize),
    ToEnd,
}

struct Maker<'a> {
    drawing: Drawing<'a>,
    square: Square,
    out: &'a mut Vec<Row>,
    groups: [Group; MOST_GROUPS],
    depth: usize,
    /// Where the area stands that the next lines and shortcuts belong to.
    area: Option<usize>,
    over: Over,
}

impl Maker<'_> {
    fn put(&mut self, entry: Entry) {
        self.out.push(entry.encode());
    }

    /// The innermost group that is written, and how many groups are open in it.
    fn around(&self) -> Option<(usize, usize)> {
        let open = &self.groups[..self.depth];
        let at = open.iter().rposition(|g| !matches!(g, Group::Gone))?;
        Some((at, self.depth - 1 - at))
    }

    /// A C1 on the side here: rules 17 and 18.
    fn passes(&mut self) {
        let (at, nested) = self.around().expect("a clip side has a group around it");
        self.depth = at + 1;
        match self.groups[at] {
            Group::Left(open) => {
                self.out.truncate(open);
                self.groups[at] = Group::Gone;
                self.over = Over::ToBar(nested);
            }
            Group::Right(_, bar) => {
                self.out.truncate(bar + 1);
                self.put(Entry::Passes);
                self.over = Over::ToClose(nested);
            }
            Group::Gone => unreachable!(),
        }
    }

    /// An F1 on the side here: rule 14.
    fn opaque(&mut self) {
        match self.around() {
            Some((at, nested)) => {
                self.depth = at + 1;
                self.over = Over::ToClose(nested);
            }
            None => self.over = Over::ToEnd,
        }
    }

    /// The lines and shortcuts of the area before are all known: rules 12 and 13, F1 and C1.
    fn end_area(&mut self) {
        let Some(at) = self.area.take() else {
            return;
        };
        if self.out.len() > at + 1 {
            return;
        }
        let [_, number, start, _] = self.out[at];
        let row = self.drawing.row(number);
        let (role, rule, alpha) = (row[0], row[1], row[2]);
        if !fill_passes(rule, start as i32) {
            self.out.pop();
        } else if role == CLIP {
            self.out.pop();
            self.passes();
        } else if alpha == OPAQUE {
            self.opaque();
        }
    }

    fn bar(&mut self) {
        let Group::Left(open) = self.groups[self.depth - 1] else {
            unreachable!("a bar ends a left side");
        };
        // Rule 15.
        if self.out.len() == open + 1 {
            self.out.truncate(open);
            self.groups[self.depth - 1] = Group::Gone;
            self.over = Over::ToClose(0);
        } else {
            self.groups[self.depth - 1] = Group::Right(open, self.out.len());
            self.put(Entry::Bar);
        }
    }

    fn close(&mut self) {
        self.depth -= 1;
        if let Group::Right(open, bar) = self.groups[self.depth] {
            // Rule 16.
            match self.out.len() == bar + 1 {
                true => self.out.truncate(open),
                false => self.put(Entry::Close),
            }
        }
    }

    /// An entry that is passed over.
    fn pass_over(&mut self, entry: Entry) {
        match (entry, &mut self.over) {
            (Entry::Open, Over::ToBar(nested) | Over::ToClose(nested)) => *nested += 1,
            (Entry::Bar, Over::ToBar(0)) => self.over = Over::No,
            (Entry::Close, Over::ToClose(0)) => {
                self.over = Over::No;
                self.close();
            }
            (Entry::Close, Over::ToBar(nested) | Over::ToClose(nested)) => *nested -= 1,
            _ => {}
        }
    }

    fn keep(&mut self, kept: Kept, entry: Entry) {
        match kept {
            Kept::Nothing => {}
            Kept::Line => self.put(entry),
            Kept::Rows { sign, first, end } => {
                let Square { y, side, .. } = self.square;
                if (first, end) == (y, y + side) {
                    let at = self.area.expect("a line or shortcut has an area before it");
                    self.out[at][2] = self.out[at][2].wrapping_add(sign as u32);
                } else {
                    self.put(Entry::Shortcut { sign, first, end });
                }
            }
        }
    }

    fn entry(&mut self, entry: Entry) {
        if !entry.is_segment() {
            self.end_area();
        }
        if self.over != Over::No {
            self.pass_over(entry);
            return;
        }
        match entry {
            Entry::Line { from, to } => {
                let kept = of_edge(self.drawing, self.square, from, to);
                self.keep(kept, entry);
            }
            Entry::Curve { from } => {
                let kept = of_curve(self.drawing, self.square, from);
                self.keep(kept, entry);
            }
            Entry::Shortcut { sign, first, end } => {
                let kept = of_shortcut(self.square, sign, first, end);
                self.keep(kept, entry);
            }
            Entry::Area { .. } => {
                self.area = Some(self.out.len());
                self.put(entry);
            }
            Entry::Passes => self.passes(),
            Entry::Open => {
                self.groups[self.depth] = Group::Left(self.out.len());
                self.depth += 1;
                self.put(entry);
            }
            Entry::Bar => self.bar(),
            Entry::Close => self.close(),
        }
    }
}

/// How many entries a stream has, and how many of them are lines or curves.
#[derive(Clone, Copy)]
struct Made {
    count: u32,
    lines: u32,
}

impl Made {
    /// The leaf whose stream it is.
    fn leaf(self, square: Square, first: u32, parent: u32) -> Cell {
        Cell {
            square,
            child: 0,
            first,
            count: self.count,
            lines: self.lines,
            parent,
        }
    }
}

/// Appends the stream of a square, made from a stream that has passed.
fn make(
    drawing: Drawing,
    square: Square,
    entries: impl Iterator<Item = Entry>,
    out: &mut Vec<Row>,
) -> Made {
    let before = out.len();
    let mut maker = Maker {
        drawing,
        square,
        out,
        groups: [Group::Gone; MOST_GROUPS],
        depth: 0,
        area: None,
        over: Over::No,
    };
    for entry in entries {
        maker.entry(entry);
        if maker.over == Over::ToEnd {
            break;
        }
    }
    maker.end_area();
    let made = &maker.out[before..];
    let lines = made.iter().filter(|row| matches!(row[0], LINE | CURVE));
    Made {
        count: made.len() as u32,
        lines: lines.count() as u32,
    }
}

/// The kinds of entries that count as lines.
const LINE: u32 = 5;
const CURVE: u32 = 8;

// ---- the calls ----

fn rows(entries: &[u32]) -> &[Row] {
    entries.as_chunks::<ENTRY_WORDS>().0
}

fn put_rows(entries: &mut [u32], first: usize, made: &[Row]) {
    entries.as_chunks_mut::<ENTRY_WORDS>().0[first..][..made.len()].copy_from_slice(made);
}

fn holds_cells(tree: &TreeMut) -> usize {
    (tree.cells.len() / CELL_WORDS).min(MOST_CELLS)
}

fn holds_entries(tree: &TreeMut) -> usize {
    (tree.entries.len() / ENTRY_WORDS).min(MOST_ENTRIES)
}

/// Refusals: 7, 12, 11. `made` is scratch.
pub fn open(drawing: Drawing, tree: &mut TreeMut, made: &mut Vec<Row>) -> Result<u32, Refusal> {
    let Drawing {
        plan,
        areas,
        xs,
        ys,
    } = drawing;
    if xs.len() != ys.len() {
        return Err(refusal(7, 0));
    }
    if check_tables(plan, areas, xs, ys).is_none() {
        return Err(refusal(12, 0));
    }
    made.clear();
    let whole = stream::of_drawing(drawing);
    let cell = make(drawing, Square::WHOLE, whole.into_iter(), made).leaf(Square::WHOLE, 0, 0);
    if tree.head.len() < HEAD_WORDS || holds_cells(tree) < 1 || holds_entries(tree) < made.len() {
        return Err(refusal(11, 0));
    }
    put_cell(tree.cells, 0, cell);
    put_rows(tree.entries, 0, made);
    tree.head[..HEAD_WORDS].copy_from_slice(&[1, cell.count]);
    Ok(cell.count)
}

/// Whether a cell other than cell 0 is the quarter that it should be of the parent that it names.
fn held_by_parent(tree: Tree, in_use: InUse, number: u32, cell: Cell) -> bool {
    if cell.parent as usize >= in_use.cells {
        return false;
    }
    let parent = tree.cell(cell.parent);
    let (Square { x, y, side }, around) = (cell.square, parent.square);
    let which = number.wrapping_sub(parent.child);
    // The parent's low corner, by differences that do not wrap.
    let low = |at: u32, high: u32| at.checked_sub(side * high);
    parent.child != 0
        && parent.child <= number
        && which < 4
        && (parent.child as usize) < in_use.cells.saturating_sub(3)
        && around.side == 2 * side
        && low(x, which & 1) == Some(around.x)
        && low(y, which >> 1) == Some(around.y)
}

/// A cell whose numbers are in range.
fn checked_cell(tree: Tree, in_use: InUse, number: u32) -> Option<Cell> {
    let cell = tree.cell(number);
    let Square { x, y, side } = cell.square;
    let passes = side.is_power_of_two()
        && side <= WHOLE_SIDE
        && (x | y) < WHOLE_SIDE
        && (x | y) & (side - 1) == 0
        && (number != 0 || cell.square == Square::WHOLE)
        && (cell.is_leaf() || u64::from(cell.child) + 3 < in_use.cells as u64)
        && run_in_range(in_use, cell.first, cell.count)
        && match number {
            0 => cell.parent == 0,
            _ => held_by_parent(tree, in_use, number, cell),
        };
    passes.then_some(cell)
}

/// Splits a leaf whose numbers are in range: the first child, or 12, 10 or 11.
fn split_leaf(
    drawing: Drawing,
    tree: &mut TreeMut,
    in_use: InUse,
    number: u32,
    cell: Cell,
    made: &mut Vec<Row>,
) -> Result<u32, Refusal> {
    let stream = &rows(tree.entries)[cell.first as usize..][..cell.count as usize];
    if lines_of_checked(drawing, in_use, cell.square, stream) != Some(cell.lines) {
        return Err(refusal(12, 0));
    }
    let quarters = cell.square.quarters().ok_or(refusal(10, 0))?;
    made.clear();
    let streams = quarters.map(|quarter| {
        let entries = stream.iter().filter_map(|row| Entry::decode(*row));
        make(drawing, quarter, entries, made)
    });
    if in_use.cells + 4 > holds_cells(tree) || in_use.entries + made.len() > holds_entries(tree) {
        return Err(refusal(11, 0));
    }
    put_rows(tree.entries, in_use.entries, made);
    let mut end = in_use.entries as u32;
    for (i, (quarter, stream)) in quarters.into_iter().zip(streams).enumerate() {
        let child = stream.leaf(quarter, end, number);
        put_cell(tree.cells, in_use.cells + i, child);
        end += child.count;
    }
    let child = in_use.cells as u32;
    tree.cells[CELL_WORDS * number as usize + CHILD_WORD] = child;
    tree.head[..HEAD_WORDS].copy_from_slice(&[child + 4, end]);
    Ok(child)
}

/// Refusals: 7, 8, 12, 9, 10, 11. `made` is scratch.
pub fn split(
    drawing: Drawing,
    tree: &mut TreeMut,
    number: u32,
    made: &mut Vec<Row>,
) -> Result<u32, Refusal> {
    if drawing.xs.len() != drawing.ys.len() {
        return Err(refusal(7, 0));
    }
    if tree.head.len() < HEAD_WORDS || number >= tree.head[0] {
        return Err(refusal(8, 0));
    }
    let in_use = tree::in_use(drawing, tree.view()).ok_or(refusal(12, 0))?;
    let cell = checked_cell(tree.view(), in_use, number).ok_or(refusal(12, 0))?;
    if !cell.is_leaf() {
        return Err(refusal(9, 0));
    }
    split_leaf(drawing, tree, in_use, number, cell, made)
}

/// Refusals: 7, 12. A cell that was passed by stays so, its parent too, and a split makes cells behind
/// all others: one sweep upward finds the same leaves as beginning from cell 0 each time. `made` is
/// scratch.
pub fn grow(
    drawing: Drawing,
    tree: &mut TreeMut,
    threshold: u32,
    limit: u32,
    made: &mut Vec<Row>,
) -> Result<Growth, Refusal> {
    if drawing.xs.len() != drawing.ys.len() || limit > MOST_DEPTH {
        return Err(refusal(7, 0));
    }
    let mut in_use = tree::in_use(drawing, tree.view()).ok_or(refusal(12, 0))?;
    let (mut number, mut splits) = (0, 0);
    while (number as usize) < in_use.cells {
        let cell = checked_cell(tree.view(), in_use, number).ok_or(refusal(12, 0))?;
        if cell.is_leaf() && cell.lines > threshold && cell.square.depth() < limit {
            match split_leaf(drawing, tree, in_use, number, cell, made) {
                Ok(_) => splits += 1,
                Err(Refusal { number: 11, .. }) => {
                    let end = End::Full;
                    return Ok(Growth { end, splits });
                }
                Err(refused) => return Err(refused),
            }
            in_use.cells = tree.head[0] as usize;
            in_use.entries = tree.head[1] as usize;
        }
        number += 1;
    }
    let end = End::Done;
    Ok(Growth { end, splits })
}
