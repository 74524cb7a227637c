//! Trees: the second implementation is its fast form.

use std::hint::black_box;

use zones_tests::class::Square;
use zones_tests::compare::grow_answer;
use zones_tests::drawing::{AREA_WORDS, PAINT};
use zones_tests::fast;
use zones_tests::foreign;
use zones_tests::meaning::Drawing;
use zones_tests::random::Random;
use zones_tests::samples::{self, Tables};
use zones_tests::scenes;
use zones_tests::stream::Entry;
use zones_tests::tree::{put_cell, Cell, TreeTables, CHILD_WORD};
use zones_tests::zones::{self, Answer, FULL};

use crate::timing::{by_turns, compare};

/// What a tree may hold.
const CELLS: usize = 4_096;
const ENTRIES: usize = 65_536;

pub fn trees() {
    let random = &mut Random::new(2);
    let tables = samples::tables(&scenes::zigzags(random));
    grown(&tables);
    splits(random, &tables);
}

fn accepted(answer: Answer) -> u32 {
    match answer {
        Answer::Accepted(low) => low,
        refused => panic!("{refused:?}"),
    }
}

/// Opens, and grows until the cells are full.
fn grown(tables: &Tables) {
    let drawing = Drawing::of(tables);
    let blank = TreeTables::new(CELLS, ENTRIES);
    let (mut by_library, mut by_second) = (blank.clone(), blank);
    let mut made = Vec::new();
    let grown = |tree: &mut TreeTables, made: &mut Vec<[u32; 4]>| {
        _ = fast::open(black_box(drawing), &mut tree.lend(), made);
        let growth = fast::grow(black_box(drawing), &mut tree.lend(), 0, 16, made);
        grow_answer(growth.expect("growing is accepted"))
    };
    let opened = accepted(zones::open(drawing, &mut by_library.lend()));
    let growth = grown(&mut by_second, &mut made);
    let [cells, entries] = by_second.head[..] else {
        panic!("two words");
    };
    println!(
        "tree: {} areas, {} corners, {opened} entries when opened, {} splits, {cells} cells and {entries} entries when grown",
        tables.plan[1],
        tables.plan[2],
        growth % FULL
    );
    compare(
        "open",
        8,
        opened,
        || {
            let tree = black_box(&mut by_library);
            accepted(zones::open(black_box(drawing), &mut tree.lend()))
        },
        || {
            let tree = black_box(&mut by_second);
            let opened = fast::open(black_box(drawing), &mut tree.lend(), &mut made);
            opened.expect("opening is accepted")
        },
    );
    compare(
        "open and grow",
        1,
        growth,
        || {
            let tree = black_box(&mut by_library);
            accepted(zones::open(black_box(drawing), &mut tree.lend()));
            accepted(zones::grow(black_box(drawing), &mut tree.lend(), 0, 16))
        },
        || grown(black_box(&mut by_second), &mut made),
    );
    assert!(by_library == by_second);
}

/// A stream of so many entries over a drawing, the same mix for each: of 64 entries one is an area,
/// 32 are lines, 31 are those of groups.
fn mixed(random: &mut Random, tables: &Tables, entries: usize) -> Vec<Entry> {
    let corners = tables.plan[2] as usize;
    let paint = (0..).find(|area| tables.areas[AREA_WORDS * *area as usize] == PAINT);
    let number = paint.expect("a paint area");
    let mut stream = Vec::new();
    while stream.len() < entries {
        stream.push(Entry::Area { number, start: 0 });
        for _ in 0..32 {
            let from = random.below(corners) as u32;
            let to = random.below(corners) as u32;
            stream.push(Entry::Line { from, to });
        }
        stream.extend([Entry::Open, Entry::Passes, Entry::Bar, Entry::Close]);
        stream.extend([Entry::Open, Entry::Bar, Entry::Close].repeat(9));
    }
    stream
}

/// A tree of one cell with a stream, and room for its children.
fn one_cell(random: &mut Random, stream: &[Entry]) -> TreeTables {
    let count = stream.len() as u32;
    let mut tree = TreeTables::new(5, 0);
    tree.entries = foreign::words(random, stream);
    tree.entries.extend(vec![0; 4 * tree.entries.len()]);
    tree.head = vec![1, count];
    put_cell(&mut tree.cells, 0, Cell::leaf(Square::WHOLE, 0, stream, 0));
    tree
}

/// The least time of one split against the entries of the cell. Each size has as many entries in all, so
/// that none is known to the processor by heart.
fn splits(random: &mut Random, tables: &Tables) {
    let drawing = Drawing::of(tables);
    for entries in [256, 512, 1_024, 2_048, 4_096] {
        let mut by_library: Vec<TreeTables> = (0..4 * 4_096 / entries)
            .map(|_| {
                let stream = mixed(random, tables, entries);
                assert_eq!(stream.len(), entries);
                one_cell(random, &stream)
            })
            .collect();
        let mut by_second = by_library.clone();
        let mut made = Vec::new();
        let unsplit = |tree: &mut TreeTables| {
            tree.head.copy_from_slice(&[1, entries as u32]);
            tree.cells[CHILD_WORD] = 0;
        };
        let (library, second) = by_turns(
            1,
            (),
            || {
                for tree in black_box(&mut by_library) {
                    unsplit(tree);
                    accepted(zones::split(drawing, &mut tree.lend(), 0));
                }
            },
            || {
                for tree in black_box(&mut by_second) {
                    unsplit(tree);
                    let split = fast::split(drawing, &mut tree.lend(), 0, &mut made);
                    split.expect("the split is accepted");
                }
            },
        );
        assert!(by_library == by_second);
        let splits = by_library.len() as f64;
        let (library, second) = (library.least() / splits, second.least() / splits);
        let each = |time: f64| 1e3 * time / entries as f64;
        println!(
            "split of {entries} entries: library {library:.2} us, {:.0} ns an entry; second {second:.2} us, {:.0} ns an entry; ratio {:.2}",
            each(library),
            each(second),
            library / second
        );
    }
}
