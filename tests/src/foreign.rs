//! Trees written by others: "Tables that pass 12 but were written by others are read for what they
//! say." Their numbers are in range and their streams keep the grammar, but no splitting made
//! them: areas are repeated and out of order, lines join any two corners, curves begin at any corner
//! whose next two make one, nothing is pruned, cells share entries, children stand anywhere, before
//! their parents too, and a split cell has any line count.

use crate::class::Square;
use crate::curve;
use crate::drawing::{AREA_WORDS, CLIP, MOST_AREAS, MOST_GROUPS, PAINT};
use crate::random::Random;
use crate::samples::Tables;
use crate::scenes::square_in;
use crate::stream::{Entry, ENTRY_WORDS, MOST_START};
use crate::tree::{put_cell, Cell, TreeTables};

/// A stream for a square that passes 12, over the areas and corners of a drawing.
pub fn stream(random: &mut Random, tables: &Tables, square: Square) -> Vec<Entry> {
    let roles = tables.areas.chunks_exact(AREA_WORDS).map(|row| row[0]);
    let of_role = |role: u32| {
        let with_role = roles.clone().enumerate().filter(|(_, r)| *r == role);
        with_role.map(|(number, _)| number as u32).collect()
    };
    let mut maker = Maker {
        stream: Vec::new(),
        areas: 0,
        room: random.within(1..=40),
        paints: of_role(PAINT),
        clips: of_role(CLIP),
        corners: tables.xs.len().min(tables.ys.len()),
        curves: curves(tables),
        square,
        random,
    };
    maker.side(PAINT, 0);
    maker.stream
}

/// One without line, curve or shortcut: nothing is pruned in it, areas fail or stand behind an opaque
/// one, groups have sides that are empty.
pub fn uniform_stream(random: &mut Random, tables: &Tables, square: Square) -> Vec<Entry> {
    let mut stream = stream(random, tables, square);
    stream.retain(|entry| !entry.is_segment());
    for entry in &mut stream {
        if let Entry::Area { start, .. } = entry {
            *start += random.pick(&[0, 1, 1, -1]);
            *start = (*start).clamp(-MOST_START, MOST_START);
        }
    }
    stream
}

struct Maker<'a> {
    stream: Vec<Entry>,
    areas: usize,
    /// Areas, groups and bare entries still to be had.
    room: usize,
    paints: Vec<u32>,
    clips: Vec<u32>,
    corners: usize,
    /// The corners at which a curve may begin.
    curves: Vec<u32>,
    square: Square,
    random: &'a mut Random,
}

/// The corners at which a curve may begin: those whose next two make one with them.
fn curves(tables: &Tables) -> Vec<u32> {
    let corners: Vec<(u32, u32)> = tables
        .xs
        .iter()
        .copied()
        .zip(tables.ys.iter().copied())
        .collect();
    let windows = corners.as_slice().array_windows::<3>();
    let fitting = (0..)
        .zip(windows)
        .filter(|(_, corners)| curve::fits(**corners));
    fitting.map(|(from, _)| from).collect()
}

impl Maker<'_> {
    fn side(&mut self, role: u32, open: usize) {
        let items = match open {
            0 => self.random.within(0..=8),
            _ => self.random.within(0..=3),
        };
        for _ in 0..items {
            if self.room == 0 {
                return;
            }
            self.room -= 1;
            match self.random.below(10) {
                0..4 if open < MOST_GROUPS => {
                    self.stream.push(Entry::Open);
                    self.side(CLIP, open + 1);
                    self.stream.push(Entry::Bar);
                    self.side(role, open + 1);
                    self.stream.push(Entry::Close);
                }
                4 if role == CLIP => self.stream.push(Entry::Passes),
                _ => self.area(role),
            }
        }
    }

    fn area(&mut self, role: u32) {
        let numbers = match role {
            PAINT => &self.paints,
            _ => &self.clips,
        };
        if numbers.is_empty() || self.areas == MOST_AREAS {
            return;
        }
        let number = self.random.pick(numbers);
        let start = match self.random.below(12) {
            0 => self
                .random
                .pick(&[-MOST_START, MOST_START, MOST_START - 1, -3, 7]),
            1..4 => self.random.pick(&[-1, 1, 2]),
            _ => 0,
        };
        self.areas += 1;
        self.stream.push(Entry::Area { number, start });
        for _ in 0..self.random.below(6) {
            let segment = self.segment();
            self.stream.push(segment);
        }
    }

    fn segment(&mut self) -> Entry {
        let Square { y, side, .. } = self.square;
        if !self.curves.is_empty() && self.random.one_in(3) {
            let from = self.random.pick(&self.curves);
            return Entry::Curve { from };
        }
        if self.corners > 0 && self.random.one_in(2) {
            let from = self.random.below(self.corners) as u32;
            let to = self.random.below(self.corners) as u32;
            return Entry::Line { from, to };
        }
        // All rows, the first, the last, those of one half, or any.
        let (first, end) = match self.random.below(6) {
            0 => (y, y + side),
            1 => (y, y + 1),
            2 => (y + side - 1, y + side),
            3 if side > 1 => (y, y + side / 2),
            _ => {
                let first = self.random.below(side as usize) as u32;
                let rows = self.random.within(1..=(side - first) as usize) as u32;
                (y + first, y + first + rows)
            }
        };
        let sign = self.random.pick(&[1, -1]);
        Entry::Shortcut { sign, first, end }
    }
}

/// The words of a stream, those without a name at random.
pub fn words(random: &mut Random, stream: &[Entry]) -> Vec<u32> {
    let mut words = Vec::new();
    for entry in stream {
        let mut row = entry.encode();
        for word in &mut row[entry.named()..] {
            *word = random.word();
        }
        words.extend(row);
    }
    words
}

/// A tree with so many split cells over a drawing. All pass 12, but for leaves that share a stream
/// with shortcuts of rows that they do not have.
pub fn tree(random: &mut Random, tables: &Tables, splits: usize) -> TreeTables {
    tree_of(random, tables, splits, stream)
}

/// One whose cells have the streams that are made for their squares.
pub fn tree_of(
    random: &mut Random,
    tables: &Tables,
    splits: usize,
    mut stream: impl FnMut(&mut Random, &Tables, Square) -> Vec<Entry>,
) -> TreeTables {
    // Squares of the cells in the order of splitting, and for each its parent and its block of four
    // children.
    let mut squares = vec![Square::WHOLE];
    let mut parents = vec![0];
    let mut blocks = vec![None];
    for block in 0..splits {
        let leaves: Vec<usize> = (0..squares.len())
            .filter(|cell| blocks[*cell].is_none() && squares[*cell].side > 1)
            .collect();
        // One of the newest, as often as not, so that some grow deep.
        let leaf = match random.one_in(2) {
            true => leaves[leaves.len() - random.within(1..=leaves.len().min(4))],
            false => random.pick(&leaves),
        };
        blocks[leaf] = Some(block);
        squares.extend(squares[leaf].quarters().expect("a side above 1"));
        parents.extend([leaf; 4]);
        blocks.extend([None; 4]);
    }
    // The blocks in another order.
    let mut places: Vec<usize> = (0..splits).collect();
    for i in 1..splits {
        places.swap(i, random.within(0..=i));
    }
    let place_of = |cell: usize| match cell {
        0 => 0,
        cell => 4 * places[(cell - 1) / 4] + (cell - 1) % 4 + 1,
    };
    let more = random.pick(&[0, 3, 4, 9, 30]);
    let mut tree = TreeTables::new(squares.len() + more, 0);
    let mut rows = vec![Cell::leaf(Square::WHOLE, 0, &[], 0)];
    for (cell, square) in squares.iter().enumerate() {
        let mut row = match random.one_in(8) {
            // The entries of another, or none.
            true => random.pick(&rows),
            false => {
                let stream = stream(random, tables, *square);
                let first = tree.entries.len() / ENTRY_WORDS;
                tree.entries.extend(words(random, &stream));
                Cell::leaf(*square, first as u32, &stream, 0)
            }
        };
        rows.push(row);
        (row.square, row.parent) = (*square, place_of(parents[cell]) as u32);
        if let Some(block) = blocks[cell] {
            row.child = 4 * places[block] as u32 + 1;
            let any = random.word();
            row.lines = random.pick(&[row.lines, row.lines + 1, any]);
        }
        put_cell(&mut tree.cells, place_of(cell), row);
    }
    tree.head = vec![
        squares.len() as u32,
        (tree.entries.len() / ENTRY_WORDS) as u32,
    ];
    let more = random.pick(&[0, 10, 200, 2_000]);
    tree.entries.extend(vec![0; more * ENTRY_WORDS]);
    tree
}

/// A square of any size for a stream.
pub fn any_square(random: &mut Random) -> Square {
    let levels = random.within(0..=16) as u32;
    square_in(random, Square::WHOLE, levels)
}
