//! The second implementation's fast form against its literal one.

use zones_tests::foreign;
use zones_tests::lent::{LentTables, LentTree};
use zones_tests::meaning::Drawing;
use zones_tests::random::Random;
use zones_tests::scenes;
use zones_tests::tally::Tally;
use zones_tests::tree::{self, TreeTables};
use zones_tests::tree_damage::{damage_tree, TREE_DAMAGES};
use zones_tests::{fast, samples};

#[test]
fn the_fast_form_answers_as_the_literal_one() {
    let random = &mut Random::for_test(100);
    let mut tally = Tally::default();
    let mut made = Vec::new();
    for round in 0..4_000 {
        let records = match round % 200 {
            0 => samples::fullest(random),
            _ => scenes::any(random),
        };
        let tables = samples::tables(&records);
        let drawing = LentTables::longer(random, tables.clone());
        let cells = random.pick(&[0, 1, 5, 30, 100]);
        let entries = random.pick(&[10, 300, 3_000]);
        let mut fast_tree = LentTree::blank(random, cells, entries);
        let mut literal = fast_tree.clone();
        let (by_fast, by_literal) = (
            fast::open(drawing.drawing(), &mut fast_tree.lend(), &mut made).map(|_| ()),
            tree::open(drawing.drawing(), &mut literal.lend()),
        );
        assert_eq!(by_fast, by_literal);
        if by_fast.is_err() {
            assert!(fast_tree == literal);
            continue;
        }
        // A tree written by others, or a damaged one.
        let mut tables = tables;
        let (mut fast_tree, mut literal) = match random.below(3) {
            0 => {
                let splits = random.below(10);
                let tree = foreign::tree(random, &tables, splits);
                (tree.clone(), tree)
            }
            1 => {
                let mut tree = fast_tree.tables();
                let damage = random.pick(&TREE_DAMAGES);
                damage_tree(random, &mut tables, &mut tree, damage);
                (tree.clone(), tree)
            }
            _ => (fast_tree.tables(), literal.tables()),
        };
        let drawing = Drawing::of(&tables);
        for _ in 0..8 {
            assert!(fast_tree == literal);
            if random.one_in(4) {
                let (threshold, limit) = (random.pick(&[0, 1, 5]), random.pick(&[1, 3, 16, 17]));
                let tree: &mut TreeTables = &mut fast_tree;
                let by_fast = fast::grow(drawing, &mut tree.lend(), threshold, limit, &mut made);
                let by_literal = tree::grow(drawing, &mut literal.lend(), threshold, limit);
                assert_eq!(by_fast, by_literal);
                tally.note(format!("grow {:?}", by_fast.map(|growth| growth.end)));
                continue;
            }
            let cell = random.below(fast_tree.head.first().map_or(1, |n| *n as usize % 50 + 1));
            let by_fast = fast::split(drawing, &mut fast_tree.lend(), cell as u32, &mut made);
            let by_literal = tree::split(drawing, &mut literal.lend(), cell as u32);
            assert_eq!(by_fast, by_literal);
            let number = by_fast.map_or_else(|refused| refused.number, |_| 0);
            tally.note(format!("split {number}"));
        }
        assert!(fast_tree == literal);
    }
    tally.print("fast");
    for what in ["split 0", "split 9", "split 11", "split 12"] {
        tally.reached(what, 200);
    }
}
