//! Damage to the tables of a tree, and to those of its drawing after it was opened.

use crate::drawing::AREA_WORDS;
use crate::random::Random;
use crate::samples::Tables;
use crate::stream::ENTRY_WORDS;
use crate::tree::{TreeTables, CELL_WORDS, CHILD_WORD, LINES_WORD, PARENT_WORD};

/// Ways to damage the tables, most of them in one word or one length.
#[derive(Clone, Copy, PartialEq, Eq, Debug)]
pub enum TreeDamage {
    CellsInUse,
    EntriesInUse,
    CellSquare,
    CellChild,
    CellFirst,
    CellCount,
    CellLines,
    CellParent,
    /// Two cells have each the other's parent.
    ParentsExchanged,
    ParentLeaf,
    /// A cell numbered above: now and then one with all the words of the right parent, so that both hold
    /// the cell.
    ParentAbove,
    EntryKind,
    EntryWord,
    EntriesSwapped,
    AreasInUse,
    CornersInUse,
    AreaWord,
    Coordinate,
    HeadShorter,
    CellsShorter,
    EntriesShorter,
    PlanShorter,
    AreasShorter,
    CornersShorter,
    PairUnequal,
}

pub const TREE_DAMAGES: [TreeDamage; 25] = [
    TreeDamage::CellsInUse,
    TreeDamage::EntriesInUse,
    TreeDamage::CellSquare,
    TreeDamage::CellChild,
    TreeDamage::CellFirst,
    TreeDamage::CellCount,
    TreeDamage::CellLines,
    TreeDamage::CellParent,
    TreeDamage::ParentsExchanged,
    TreeDamage::ParentLeaf,
    TreeDamage::ParentAbove,
    TreeDamage::EntryKind,
    TreeDamage::EntryWord,
    TreeDamage::EntriesSwapped,
    TreeDamage::AreasInUse,
    TreeDamage::CornersInUse,
    TreeDamage::AreaWord,
    TreeDamage::Coordinate,
    TreeDamage::HeadShorter,
    TreeDamage::CellsShorter,
    TreeDamage::EntriesShorter,
    TreeDamage::PlanShorter,
    TreeDamage::AreasShorter,
    TreeDamage::CornersShorter,
    TreeDamage::PairUnequal,
];

/// A word near the right one, near a limit, or far off.
fn odd_word(random: &mut Random, word: u32) -> u32 {
    match random.below(8) {
        0 => word.wrapping_add(1),
        1 => word.wrapping_sub(1),
        2 => word.wrapping_neg(),
        3 => word ^ 1 << random.below(32),
        4 => random.pick(&[0, 1, 2, 3, 7, 8, 64, 65]),
        5 => random.pick(&[2_047, 2_048, 2_049, 4_096, 4_097, 65_535, 65_536, 65_537]),
        6 => random.pick(&[1u32, 2_047, 2_048, 2_049]).wrapping_neg(),
        _ => random.word(),
    }
}

/// Changes one word among those that `words` lists.
fn change(random: &mut Random, table: &mut [u32], words: impl Iterator<Item = usize>) {
    let words: Vec<usize> = words.filter(|at| *at < table.len()).collect();
    if !words.is_empty() {
        let at = random.pick(&words);
        table[at] = odd_word(random, table[at]);
    }
}

/// The parent of a cell becomes a leaf: any tree has one.
fn parent_leaf(random: &mut Random, tree: &mut TreeTables) {
    let cell = random.below(tree.head[0] as usize);
    let leaf = random.pick(&tree.leaves());
    tree.cells[CELL_WORDS * cell + PARENT_WORD] = leaf;
}

/// The parent of a cell becomes one above it, which may take over the words of the right one.
fn parent_above(random: &mut Random, tree: &mut TreeTables) {
    let cells = tree.head[0] as usize;
    let cell = random.below(cells);
    if cell + 1 == cells {
        return;
    }
    let above = random.within(cell + 1..=cells - 1);
    let parent = tree.cells[CELL_WORDS * cell + PARENT_WORD] as usize;
    tree.cells[CELL_WORDS * cell + PARENT_WORD] = above as u32;
    if random.one_in(2) {
        let words = CELL_WORDS * parent..CELL_WORDS * (parent + 1);
        tree.cells.copy_within(words, CELL_WORDS * above);
    }
}

fn shorten<T>(random: &mut Random, table: &mut Vec<T>) {
    let less = match random.below(3) {
        0 => 1,
        1 => random.within(1..=9),
        _ => random.below(table.len() + 1),
    };
    table.truncate(table.len().saturating_sub(less));
}

/// Damages tables whose numbers in use are right.
pub fn damage_tree(
    random: &mut Random,
    drawing: &mut Tables,
    tree: &mut TreeTables,
    damage: TreeDamage,
) {
    let cells = tree.head[0] as usize;
    let entries = tree.head[1] as usize;
    let words_of_cells = |word: usize| (0..cells).map(move |cell| CELL_WORDS * cell + word);
    let words_of_entries = |word: usize| (0..entries).map(move |entry| ENTRY_WORDS * entry + word);
    match damage {
        TreeDamage::CellsInUse => change(random, &mut tree.head, [0].into_iter()),
        TreeDamage::EntriesInUse => change(random, &mut tree.head, [1].into_iter()),
        TreeDamage::CellSquare => {
            let word = random.below(3);
            change(random, &mut tree.cells, words_of_cells(word));
        }
        TreeDamage::CellChild => change(random, &mut tree.cells, words_of_cells(CHILD_WORD)),
        TreeDamage::CellFirst => change(random, &mut tree.cells, words_of_cells(4)),
        TreeDamage::CellCount => change(random, &mut tree.cells, words_of_cells(5)),
        TreeDamage::CellLines => change(random, &mut tree.cells, words_of_cells(LINES_WORD)),
        TreeDamage::CellParent => change(random, &mut tree.cells, words_of_cells(PARENT_WORD)),
        TreeDamage::ParentsExchanged => {
            let [one, other] = [0; 2].map(|_| CELL_WORDS * random.below(cells) + PARENT_WORD);
            tree.cells.swap(one, other);
        }
        TreeDamage::ParentLeaf => parent_leaf(random, tree),
        TreeDamage::ParentAbove => parent_above(random, tree),
        TreeDamage::EntryKind => change(random, &mut tree.entries, words_of_entries(0)),
        TreeDamage::EntryWord => {
            let word = random.within(1..=3);
            change(random, &mut tree.entries, words_of_entries(word));
        }
        TreeDamage::EntriesSwapped => {
            if entries > 0 {
                let (one, other) = (random.below(entries), random.below(entries));
                for word in 0..ENTRY_WORDS {
                    let (one, other) = (ENTRY_WORDS * one + word, ENTRY_WORDS * other + word);
                    tree.entries.swap(one, other);
                }
            }
        }
        TreeDamage::AreasInUse => change(random, &mut drawing.plan, [1].into_iter()),
        TreeDamage::CornersInUse => change(random, &mut drawing.plan, [2].into_iter()),
        TreeDamage::AreaWord => {
            let word = random.below(AREA_WORDS);
            let rows = drawing.areas.len() / AREA_WORDS;
            let words = (0..rows).map(|row| AREA_WORDS * row + word);
            change(random, &mut drawing.areas, words);
        }
        TreeDamage::Coordinate => {
            let Tables { xs, ys, .. } = drawing;
            let table = if random.one_in(2) { xs } else { ys };
            let words = 0..table.len();
            change(random, table, words);
        }
        TreeDamage::HeadShorter => shorten(random, &mut tree.head),
        TreeDamage::CellsShorter => shorten(random, &mut tree.cells),
        TreeDamage::EntriesShorter => shorten(random, &mut tree.entries),
        TreeDamage::PlanShorter => {
            let less = random.below(4);
            drawing.plan.truncate(less);
        }
        TreeDamage::AreasShorter => shorten(random, &mut drawing.areas),
        TreeDamage::CornersShorter => {
            shorten(random, &mut drawing.xs);
            drawing.ys.truncate(drawing.xs.len());
        }
        TreeDamage::PairUnequal => {
            let Tables { xs, ys, .. } = drawing;
            let table = if random.one_in(2) { xs } else { ys };
            match table.pop() {
                Some(_) => {}
                None => table.push(0),
            }
        }
    }
}
