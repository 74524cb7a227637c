//! What is lent: tables with guard items on both sides.

use crate::drawing::{AREA_WORDS, MOST_AREAS, MOST_CORNERS, MOST_RECORDS, PLAN_COUNTS};
use crate::meaning::Drawing;
use crate::random::Random;
use crate::samples::Tables;
use crate::tree::{Tree, TreeMut, TreeTables};

/// The middle of a longer table. Two are equal when the guards are equal too.
#[derive(Clone, PartialEq, Eq, Debug)]
pub struct Lent<T> {
    all: Vec<T>,
    first: usize,
    end: usize,
}

impl<T: Copy + PartialEq> Lent<T> {
    /// Lends `table`, with guards of the given lengths made by `guard`.
    pub fn new(before: usize, table: &[T], after: usize, mut guard: impl FnMut() -> T) -> Lent<T> {
        let mut all = Vec::with_capacity(before + table.len() + after);
        all.extend((0..before).map(|_| guard()));
        all.extend_from_slice(table);
        all.extend((0..after).map(|_| guard()));
        Lent {
            all,
            first: before,
            end: before + table.len(),
        }
    }

    pub fn table(&self) -> &[T] {
        &self.all[self.first..self.end]
    }

    pub fn table_mut(&mut self) -> &mut [T] {
        &mut self.all[self.first..self.end]
    }

    /// Lends no more than the first `len` items: the others become guard.
    pub fn shorten(&mut self, len: usize) {
        self.end = self.end.min(self.first + len);
    }

    /// Lends the items from `from` on: those before become guard.
    pub fn start_at(&mut self, from: usize) {
        self.first = self.end.min(self.first + from);
    }

    /// Whether the guards are those of `before`.
    pub fn guards_as_in(&self, before: &Lent<T>) -> bool {
        self.all[..self.first] == before.all[..before.first]
            && self.all[self.end..] == before.all[before.end..]
    }
}

/// Small as often as not.
fn any_word(random: &mut Random) -> u32 {
    match random.below(2) {
        0 => random.below(8) as u32,
        _ => random.word(),
    }
}

fn any_words(random: &mut Random, len: usize) -> Vec<u32> {
    (0..len).map(|_| any_word(random)).collect()
}

pub fn any_bytes(random: &mut Random, len: usize) -> Vec<u8> {
    (0..len).map(|_| random.byte()).collect()
}

pub fn lent_words(random: &mut Random, words: &[u32]) -> Lent<u32> {
    let (before, after) = (random.within(1..=9), random.within(1..=9));
    Lent::new(before, words, after, || any_word(random))
}

/// Guards of any length, so that the bytes start at any address.
pub fn lent_bytes(random: &mut Random, bytes: &[u8]) -> Lent<u8> {
    let (before, after) = (random.within(1..=20), random.within(1..=20));
    Lent::new(before, bytes, after, || any_word(random) as u8)
}

/// A drawing's four tables, lent.
#[derive(Clone, PartialEq, Eq, Debug)]
pub struct LentTables {
    pub plan: Lent<u32>,
    pub areas: Lent<u32>,
    pub xs: Lent<u32>,
    pub ys: Lent<u32>,
}

impl LentTables {
    pub fn new(random: &mut Random, tables: &Tables) -> LentTables {
        LentTables {
            plan: lent_words(random, &tables.plan),
            areas: lent_words(random, &tables.areas),
            xs: lent_words(random, &tables.xs),
            ys: lent_words(random, &tables.ys),
        }
    }

    /// Tables of the lengths of plan, areas, xs and ys, full of any words.
    pub fn blank(random: &mut Random, lengths: [usize; 4]) -> LentTables {
        let [plan, areas, xs, ys] = lengths.map(|len| any_words(random, len));
        LentTables::new(
            random,
            &Tables {
                plan,
                areas,
                xs,
                ys,
            },
        )
    }

    /// The tables, often with more words after those in use.
    pub fn longer(random: &mut Random, mut tables: Tables) -> LentTables {
        for table in [&mut tables.plan, &mut tables.areas] {
            let more = random.pick(&[0, 0, 1, 5, 8, 30]);
            table.extend(any_words(random, more));
        }
        let more = random.pick(&[0, 0, 1, 7]);
        tables.xs.extend(any_words(random, more));
        tables.ys.extend(any_words(random, more));
        LentTables::new(random, &tables)
    }

    /// Tables long enough for every drawing.
    pub fn ample(random: &mut Random) -> LentTables {
        let plan = PLAN_COUNTS + MOST_RECORDS;
        let areas = AREA_WORDS * MOST_AREAS;
        LentTables::blank(random, [plan, areas, MOST_CORNERS, MOST_CORNERS])
    }

    pub fn drawing(&self) -> Drawing<'_> {
        Drawing {
            plan: self.plan.table(),
            areas: self.areas.table(),
            xs: self.xs.table(),
            ys: self.ys.table(),
        }
    }

    pub fn each(&self) -> [&Lent<u32>; 4] {
        [&self.plan, &self.areas, &self.xs, &self.ys]
    }

    pub fn each_mut(&mut self) -> [&mut Lent<u32>; 4] {
        [&mut self.plan, &mut self.areas, &mut self.xs, &mut self.ys]
    }

    pub fn guards_as_in(&self, before: &LentTables) -> bool {
        let mut pairs = self.each().into_iter().zip(before.each());
        pairs.all(|(now, then)| now.guards_as_in(then))
    }
}

/// A tree's three tables, lent.
#[derive(Clone, PartialEq, Eq, Debug)]
pub struct LentTree {
    pub head: Lent<u32>,
    pub cells: Lent<u32>,
    pub entries: Lent<u32>,
}

impl LentTree {
    pub fn new(random: &mut Random, tree: &TreeTables) -> LentTree {
        LentTree {
            head: lent_words(random, &tree.head),
            cells: lent_words(random, &tree.cells),
            entries: lent_words(random, &tree.entries),
        }
    }

    /// Tables for so many cells and entries and a few words more, full of any words.
    pub fn blank(random: &mut Random, cells: usize, entries: usize) -> LentTree {
        let mut tree = TreeTables::new(cells, entries);
        for (table, row) in [
            (&mut tree.head, 3),
            (&mut tree.cells, 8),
            (&mut tree.entries, 4),
        ] {
            let words = table.len() + random.below(row);
            *table = any_words(random, words);
        }
        LentTree::new(random, &tree)
    }

    pub fn view(&self) -> Tree<'_> {
        Tree {
            head: self.head.table(),
            cells: self.cells.table(),
            entries: self.entries.table(),
        }
    }

    pub fn lend(&mut self) -> TreeMut<'_> {
        TreeMut {
            head: self.head.table_mut(),
            cells: self.cells.table_mut(),
            entries: self.entries.table_mut(),
        }
    }

    /// The tables without their guards.
    pub fn tables(&self) -> TreeTables {
        TreeTables {
            head: self.head.table().to_vec(),
            cells: self.cells.table().to_vec(),
            entries: self.entries.table().to_vec(),
        }
    }

    pub fn guards_as_in(&self, before: &LentTree) -> bool {
        self.head.guards_as_in(&before.head)
            && self.cells.guards_as_in(&before.cells)
            && self.entries.guards_as_in(&before.entries)
    }
}
