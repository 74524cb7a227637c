//! What must hold of the calls on a tree, whatever the tables.

use crate::drawing::{refusal, Refusal};
use crate::meaning::Drawing;
use crate::query;
use crate::random::Random;
use crate::samples::Tables;
use crate::scenes;
use crate::stream;
use crate::tally::Tally;
use crate::tree::{self, TreeTables, CELL_WORDS, CHILD_WORD};

/// Words of a tree that an accepted split may not change are as they were.
pub fn split_words(before: &TreeTables, after: &TreeTables, number: u32) {
    let cells = before.head[0] as usize;
    let entries = before.head[1] as usize;
    assert_eq!(after.head[0] as usize, cells + 4);
    assert_eq!(after.head[2..], before.head[2..]);
    let mut old = before.cells.clone();
    old[CELL_WORDS * number as usize + CHILD_WORD] = cells as u32;
    let rows = CELL_WORDS * cells..CELL_WORDS * (cells + 4);
    old[rows.clone()].copy_from_slice(&after.cells[rows]);
    assert_eq!(old, after.cells);
    let end = after.head[1] as usize;
    assert_eq!(before.entries[..4 * entries], after.entries[..4 * entries]);
    assert_eq!(before.entries[4 * end..], after.entries[4 * end..]);
    // The children's streams follow one another from the first unused entry on; each child has the
    // lines of its own.
    let mut next = entries as u32;
    for child in cells as u32..cells as u32 + 4 {
        let cell = after.view().cell(child);
        assert_eq!((cell.child, cell.first, cell.parent), (0, next, number));
        assert_eq!(cell.lines, stream::lines(&after.stream(child)));
        next += cell.count;
    }
    assert_eq!(next as usize, end);
}

/// All calls, over tables that may be damaged. A refusal changes nothing, but for the splits of a
/// growing and the earlier pixels of a row.
pub fn all_calls(random: &mut Random, tables: &Tables, tree: &TreeTables, tally: &mut Tally) {
    let drawing = Drawing::of(tables);
    let mut note = |call: &str, number: Option<u32>| {
        tally.note(match number {
            None => format!("{call} accepted"),
            Some(number) => format!("{call} {number}"),
        });
    };
    let (x, y) = match random.one_in(20) {
        true => (
            random.pick(&[65_536, 0, u32::MAX]),
            random.pick(&[65_536, 1]),
        ),
        false => (random.below(65_536) as u32, random.below(65_536) as u32),
    };

    let mut after = tree.clone();
    let opened = tree::open(drawing, &mut after.lend());
    assert!(opened.is_ok() || after == *tree);
    note("open", opened.err().map(|refusal| refusal.number));

    let mut after = tree.clone();
    let number = random.below(14) as u32;
    let split = tree::split(drawing, &mut after.lend(), number);
    assert!(split.is_ok() || after == *tree);
    note("split", split.err().map(|refusal| refusal.number));
    if split.is_ok() {
        split_words(tree, &after, number);
    }

    let mut after = tree.clone();
    let limit = random.pick(&[0, 1, 2, 3, 4, 4, 16, 17]);
    let grown = tree::grow(drawing, &mut after.lend(), 3, limit);
    note("grow", grown.err().map(|refusal| refusal.number));
    if let Err(Refusal { number, place }) = grown {
        assert!(place == 0 && (number == 7 || number == 12));
        // The splits that remain, made again by hand.
        let mut by_hand = tree.clone();
        if after.head != tree.head {
            assert_eq!(number, 12);
            let cells = |tree: &TreeTables| tree.head[0];
            while cells(&by_hand) < cells(&after) {
                let next = cells(&by_hand);
                let number = after.view().cell(next).parent;
                assert!(tree::split(drawing, &mut by_hand.lend(), number).is_ok());
            }
            note("grow with splits", Some(number));
        }
        assert!(after == by_hand);
    }

    let found = tree::find_leaf(drawing, tree.view(), x, y);
    note("find", found.as_ref().err().map(|refusal| refusal.number));
    let spot = query::position(drawing, tree.view(), x, y);
    match (&spot, &found) {
        (Ok(spot), Ok(leaf)) => {
            assert_eq!((spot.uniform, spot.square), (leaf.uniform(), leaf.square));
        }
        (Err(one), Err(other)) => assert_eq!(one, other),
        _ => panic!("position and leaf: {spot:?} {found:?}"),
    }

    let mut out = [0xA5; 3 * 40];
    // Near a border of cells, so that the row meets several.
    let border = random.pick(&[512, 1_024, 2_048, 3_072, 4_096]);
    let (row, first) = (y / 16, border - random.within(0..=40) as u32);
    let drawn = query::pixel_row(drawing, tree.view(), row, first, &mut out);
    note("row", drawn.err().map(|refusal| refusal.number));
    if let Err(Refusal { number, place }) = drawn {
        let stands = 3 * place as usize;
        assert!(out[stands..].iter().all(|byte| *byte == 0xA5));
        // Read one by one, the earlier pixels are drawn alike and the one at the place is not.
        for i in (0..=place).filter(|_| number == 12) {
            let mut one = [0xA5; 3];
            let drawn = query::pixel_row(drawing, tree.view(), row, first + i, &mut one);
            if i < place {
                assert_eq!((drawn, &one[..]), (Ok(()), &out[3 * i as usize..][..3]));
            } else {
                assert_eq!(drawn, Err(refusal(12, 0)));
            }
        }
        if place > 0 {
            note("row behind pixels", Some(number));
        }
    }

    let (px, py) = scenes::run(random, tables, 5);
    let mut out = [77; 5];
    let logged = query::zone_log(drawing, tree.view(), &px, &py, &mut out);
    assert!(logged.is_ok() || out == [77; 5]);
    note("log", logged.err().map(|refusal| refusal.number));
}
