//! One call by the library and by the second implementation, compared in all that can be seen.

use std::hint::black_box;

use crate::class::{Square, WHOLE_SIDE};
use crate::drawing::{self, refusal, Refusal};
use crate::expect;
use crate::lent::{Lent, LentTables, LentTree};
use crate::meaning::Drawing;
use crate::samples::{self, Tables};
use crate::stream::{self, ENTRY_WORDS};
use crate::tree::{self, End, Growth, TreeMut, CELL_WORDS, HEAD_WORDS};
use crate::zones::{self, Answer, FULL};

/// Reads by both into copies of the same tables.
pub fn read(records: &Lent<u8>, before: &LentTables) -> (Answer, LentTables) {
    let mut given = records.clone();
    let mut by_library = before.clone();
    let mut by_second = before.clone();
    // The compiler must not take for granted that the library keeps to what it was lent.
    black_box((&mut given, &mut by_library));
    let answer = zones::read(
        given.table(),
        by_library.plan.table_mut(),
        by_library.areas.table_mut(),
        by_library.xs.table_mut(),
        by_library.ys.table_mut(),
    );
    black_box((&mut given, &mut by_library));
    let second = drawing::read(
        records.table(),
        by_second.plan.table_mut(),
        by_second.areas.table_mut(),
        by_second.xs.table_mut(),
        by_second.ys.table_mut(),
    );
    let bytes = records.table();
    assert_eq!(answer, second, "library, second; records {bytes:?}");
    assert!(given == *records, "records changed: {bytes:?}");
    assert!(by_library.guards_as_in(before), "guards changed: {bytes:?}");
    assert!(by_library == by_second, "tables differ: {bytes:?}");
    match answer {
        Answer::Refused { .. } => {
            assert!(by_library == *before, "written on a refusal: {bytes:?}");
        }
        Answer::Accepted(number) => {
            let (records, rest) = bytes.as_chunks();
            assert!(rest.is_empty() && number as usize == records.len());
            let Tables {
                plan,
                areas,
                xs,
                ys,
            } = samples::tables(records);
            let lent = by_library.each().into_iter().zip(before.each());
            for ((now, then), in_use) in lent.zip([plan, areas, xs, ys]) {
                let (used, rest) = now.table().split_at(in_use.len());
                assert!(used == in_use, "words in use: {bytes:?}");
                assert!(
                    rest == &then.table()[in_use.len()..],
                    "other words: {bytes:?}"
                );
            }
        }
    }
    (answer, by_library)
}

/// Writes by both into copies of the same buffer.
pub fn write(drawing: &LentTables, before: &Lent<u8>) -> (Answer, Lent<u8>) {
    let mut given = drawing.clone();
    let mut by_library = before.clone();
    let mut by_second = before.clone();
    black_box((&mut given, &mut by_library));
    let answer = zones::write(given.drawing(), by_library.table_mut());
    black_box((&mut given, &mut by_library));
    let second = drawing::write(
        drawing.plan.table(),
        drawing.areas.table(),
        drawing.xs.table(),
        drawing.ys.table(),
        by_second.table_mut(),
    );
    assert_eq!(answer, second, "library, second; {drawing:?}");
    assert!(given == *drawing, "drawing changed: {drawing:?}");
    assert!(
        by_library.guards_as_in(before),
        "guards changed: {drawing:?}"
    );
    assert!(by_library == by_second, "bytes differ: {drawing:?}");
    match answer {
        Answer::Refused { .. } => {
            assert!(by_library == *before, "written on a refusal: {drawing:?}");
        }
        Answer::Accepted(bytes) => {
            let rest = &by_library.table()[bytes as usize..];
            assert!(
                rest == &before.table()[bytes as usize..],
                "other bytes: {drawing:?}"
            );
        }
    }
    (answer, by_library)
}

// ---- the calls on a tree ----

pub fn answer(result: Result<u32, Refusal>) -> Answer {
    match result {
        Ok(low) => Answer::Accepted(low),
        Err(Refusal { number, place }) => Answer::Refused { number, place },
    }
}

/// One call on copies of the same tables: the answers are equal, the drawing and all guards are as
/// they were, and every word of the tree is the same.
fn on_tree(
    drawing: &LentTables,
    before: &LentTree,
    library: impl FnOnce(Drawing, &mut TreeMut) -> Answer,
    second: impl FnOnce(Drawing, &mut TreeMut) -> Answer,
) -> (Answer, LentTree) {
    let mut given = drawing.clone();
    let mut by_library = before.clone();
    let mut by_second = before.clone();
    black_box((&mut given, &mut by_library));
    let answer = library(given.drawing(), &mut by_library.lend());
    black_box((&mut given, &mut by_library));
    let second = second(drawing.drawing(), &mut by_second.lend());
    assert_eq!(answer, second, "library, second; {drawing:?} {before:?}");
    assert!(given == *drawing, "drawing changed: {drawing:?} {before:?}");
    assert!(
        by_library.guards_as_in(before),
        "guards changed: {drawing:?} {before:?}"
    );
    assert!(
        by_library == by_second,
        "tables differ: {drawing:?} {before:?}"
    );
    (answer, by_library)
}

/// Opens by both. A refusal changes nothing; what is behind the new tree stays.
pub fn open(drawing: &LentTables, before: &LentTree) -> (Answer, LentTree) {
    let (answer, after) = on_tree(drawing, before, zones::open, |drawing, tree| {
        let opened = tree::open(drawing, tree);
        answer(opened.map(|()| tree.head[1]))
    });
    match answer {
        Answer::Refused { place, .. } => {
            assert_eq!(place, 0);
            assert!(after == *before, "written on a refusal: {before:?}");
        }
        Answer::Accepted(entries) => {
            let (now, then) = (after.view(), before.view());
            assert_eq!(now.head[..HEAD_WORDS], [1, entries]);
            assert_eq!(now.head[HEAD_WORDS..], then.head[HEAD_WORDS..]);
            let lines = stream::lines(&after.tables().stream(0));
            let cell = [0, 0, WHOLE_SIDE, 0, 0, entries, lines, 0];
            assert_eq!(now.cells[..CELL_WORDS], cell);
            assert_eq!(now.cells[CELL_WORDS..], then.cells[CELL_WORDS..]);
            let behind = ENTRY_WORDS * entries as usize;
            assert_eq!(now.entries[behind..], then.entries[behind..]);
        }
    }
    (answer, after)
}

/// Splits by both. A refusal changes nothing; a split changes its own words only.
pub fn split(drawing: &LentTables, before: &LentTree, cell: u32) -> (Answer, LentTree) {
    let (answer, after) = on_tree(
        drawing,
        before,
        |drawing, tree| zones::split(drawing, tree, cell),
        |drawing, tree| answer(tree::split(drawing, tree, cell)),
    );
    match answer {
        Answer::Refused { place, .. } => {
            assert_eq!(place, 0);
            assert!(after == *before, "written on a refusal: {before:?}");
        }
        Answer::Accepted(child) => {
            assert_eq!(child, before.head.table()[0]);
            expect::split_words(&before.tables(), &after.tables(), cell);
        }
    }
    (answer, after)
}

/// What growing answers.
pub fn grow_answer(growth: Growth) -> u32 {
    match growth.end {
        End::Done => growth.splits,
        End::Full => FULL + growth.splits,
    }
}

/// Grows by both. 7 changes nothing; before a 12 cells may have been split.
pub fn grow(
    drawing: &LentTables,
    before: &LentTree,
    threshold: u32,
    limit: u32,
) -> (Answer, LentTree) {
    let (answer, after) = on_tree(
        drawing,
        before,
        |drawing, tree| zones::grow(drawing, tree, threshold, limit),
        |drawing, tree| answer(tree::grow(drawing, tree, threshold, limit).map(grow_answer)),
    );
    match answer {
        Answer::Refused { number, place } => {
            assert!(place == 0 && (number == 7 || number == 12));
            assert!(
                number == 12 || after == *before,
                "written on a refusal: {before:?}"
            );
        }
        Answer::Accepted(splits) => {
            let more = after.head.table()[0] - before.head.table()[0];
            assert_eq!(more, 4 * (splits % FULL));
        }
    }
    (answer, after)
}

/// Words that a leaf found is written to: cell, x, y, side, steps, entries, lines, uniform.
pub const LEAF_WORDS: usize = 8;

/// Finds a leaf by both, for an output with other words in it.
pub fn find_leaf(
    drawing: &LentTables,
    before: &LentTree,
    (x, y): (u32, u32),
    blank: &Lent<u32>,
) -> (Answer, Lent<u32>) {
    let mut out = blank.clone();
    let mut by_second = blank.clone();
    let (answer, after) = on_tree(
        drawing,
        before,
        |drawing, tree| {
            black_box(&mut out);
            let answer = zones::find_leaf(drawing, tree.view(), x, y, out.table_mut());
            black_box(&mut out);
            answer
        },
        |drawing, tree| {
            let found = tree::find_leaf(drawing, tree.view(), x, y);
            // "another output table too short for the whole result"
            let written = found.and_then(|leaf| {
                let Square { x, y, side } = leaf.square;
                let (entries, lines) = (leaf.entries(), leaf.lines());
                let (cell, steps, uniform) = (leaf.cell, leaf.steps, leaf.uniform().into());
                let words = [cell, x, y, side, steps, entries, lines, uniform];
                let room = by_second.table_mut().get_mut(..LEAF_WORDS);
                room.ok_or(refusal(11, 0))?.copy_from_slice(&words);
                Ok(leaf.cell)
            });
            answer(written)
        },
    );
    assert!(after == *before, "tree changed: {before:?}");
    assert!(out.guards_as_in(blank), "guards changed: {before:?}");
    assert!(out == by_second, "words differ: {out:?} {by_second:?}");
    if let Answer::Refused { place, .. } = answer {
        assert_eq!(place, 0);
        assert!(out == *blank, "written on a refusal: {before:?}");
    }
    (answer, out)
}
