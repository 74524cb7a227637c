//! A drawing and a tree over it, both lent, and the calls on them by the library and by the second
//! implementation.

use crate::compare;
use crate::lent::{Lent, LentTables, LentTree};
use crate::meaning::Drawing;
use crate::random::Random;
use crate::readings::Reader;
use crate::samples::Tables;
use crate::scenes;
use crate::tree::{self, Leaf, TreeTables};
use crate::tree_damage::{damage_tree, TreeDamage};
use crate::zones::Answer;

/// The tables of the drawing without their guards, and what is lent.
pub struct Sample {
    pub tables: Tables,
    pub drawing: LentTables,
    pub tree: LentTree,
}

impl Sample {
    /// The drawing's tables often with more words after those in use.
    pub fn longer(random: &mut Random, tables: Tables, tree: &TreeTables) -> Sample {
        Sample {
            drawing: LentTables::longer(random, tables.clone()),
            tree: LentTree::new(random, tree),
            tables,
        }
    }

    /// The tables just as they are, for damage to their lengths.
    pub fn exact(random: &mut Random, tables: Tables, tree: &TreeTables) -> Sample {
        Sample {
            drawing: LentTables::new(random, &tables),
            tree: LentTree::new(random, tree),
            tables,
        }
    }

    /// One that was opened and split a few times, then damaged.
    pub fn damaged(random: &mut Random, damage: TreeDamage) -> Sample {
        let (mut tables, mut tree) = grown(random);
        damage_tree(random, &mut tables, &mut tree, damage);
        Sample::exact(random, tables, &tree)
    }

    /// No tree yet: tables for so many cells and entries, full of any words.
    pub fn unopened(random: &mut Random, tables: Tables, cells: usize, entries: usize) -> Sample {
        Sample {
            drawing: LentTables::longer(random, tables.clone()),
            tree: LentTree::blank(random, cells, entries),
            tables,
        }
    }

    /// The leaf at a position, if one is found.
    pub fn leaf_at(&self, (x, y): (u32, u32)) -> Option<Leaf> {
        tree::find_leaf(self.drawing.drawing(), self.tree.view(), x, y).ok()
    }

    // What a call changed stays.

    pub fn open(&mut self) -> Answer {
        let (answer, after) = compare::open(&self.drawing, &self.tree);
        self.tree = after;
        answer
    }

    pub fn split(&mut self, cell: u32) -> Answer {
        let (answer, after) = compare::split(&self.drawing, &self.tree, cell);
        self.tree = after;
        answer
    }

    pub fn grow(&mut self, threshold: u32, limit: u32) -> Answer {
        let (answer, after) = compare::grow(&self.drawing, &self.tree, threshold, limit);
        self.tree = after;
        answer
    }

    pub fn find_leaf(&self, at: (u32, u32), blank: &Lent<u32>) -> (Answer, Lent<u32>) {
        compare::find_leaf(&self.drawing, &self.tree, at, blank)
    }

    pub fn reader(&self) -> Reader<'_> {
        Reader::new(&self.drawing, &self.tree)
    }
}

/// A drawing and a tree that was opened and split a few times.
pub fn grown(random: &mut Random) -> (Tables, TreeTables) {
    let tables = scenes::tables(random);
    let (cells, entries) = (random.pick(&[9, 30, 60]), random.pick(&[900, 2_000]));
    let mut tree = TreeTables::new(cells, entries);
    let drawing = Drawing::of(&tables);
    if tree::open(drawing, &mut tree.lend()).is_err() {
        return grown(random);
    }
    for _ in 0..random.below(6) {
        let (x, y) = scenes::any_position(random, &tables);
        let leaf = tree::find_leaf(drawing, tree.view(), x, y).expect("a leaf is found");
        _ = tree::split(drawing, &mut tree.lend(), leaf.cell);
    }
    (tables, tree)
}
