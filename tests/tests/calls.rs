//! The exported calls on a tree, the library against the second implementation: answers, every word
//! of every table, and the guards around them.

use zones_tests::class::Square;
use zones_tests::compare;
use zones_tests::damage::{damage_tables, DAMAGES};
use zones_tests::drawing::{AREA_WORDS, MOST_AREAS, MOST_CORNERS};
use zones_tests::fast;
use zones_tests::foreign;
use zones_tests::lent::{lent_words, LentTables, LentTree};
use zones_tests::meaning::Drawing;
use zones_tests::random::Random;
use zones_tests::sample::{grown, Sample};
use zones_tests::samples::{self, Tables};
use zones_tests::scenes;
use zones_tests::stream::{Entry, ENTRY_WORDS, MOST_START};
use zones_tests::tally::Tally;
use zones_tests::tree::{
    self, put_cell, Cell, TreeTables, CELL_WORDS, CHILD_WORD, LINES_WORD, MOST_CELLS, MOST_ENTRIES,
    PARENT_WORD,
};
use zones_tests::tree_damage::TREE_DAMAGES;
use zones_tests::zones::{self, Answer, FULL};

/// A cell to split: mostly a leaf near what is drawn, else any number.
fn pick_cell(random: &mut Random, sample: &Sample) -> u32 {
    let cells = sample.tree.head.table().first().copied().unwrap_or(0);
    let near = match random.below(4) {
        0 | 1 => sample.leaf_at(scenes::any_position(random, &sample.tables)),
        _ => None,
    };
    match (near, random.below(8)) {
        (Some(leaf), _) => leaf.cell,
        (None, 0) => random.pick(&[cells, cells.wrapping_add(1), 4_096, u32::MAX]),
        (None, 1) => cells.wrapping_sub(1),
        (None, _) => random.below(cells.clamp(1, 5_000) as usize) as u32,
    }
}

fn split(random: &mut Random, sample: &mut Sample, tally: &mut Tally) {
    let cell = pick_cell(random, sample);
    tally.note_call("split", sample.split(cell));
}

fn grow(random: &mut Random, sample: &mut Sample, tally: &mut Tally) {
    let threshold = random.pick(&[0, 0, 1, 2, 5, 20, u32::MAX]);
    let limit = random.pick(&[0, 1, 2, 3, 4, 6, 16, 16, 17, u32::MAX]);
    let before = sample.tree.clone();
    tally.note(match sample.grow(threshold, limit) {
        Answer::Accepted(splits) if splits < FULL => "grow done".to_string(),
        Answer::Accepted(_) => "grow full".to_string(),
        Answer::Refused { number, .. } if sample.tree == before => format!("grow {number}"),
        Answer::Refused { number, .. } => format!("grow {number} behind splits"),
    });
}

/// Finds a leaf at a position, now and then at none, with room for its words or too little.
fn find(random: &mut Random, sample: &Sample, tally: &mut Tally) {
    let (mut x, mut y) = scenes::any_position(random, &sample.tables);
    match random.below(40) {
        0 => x = random.pick(&[65_536, 65_537, u32::MAX]),
        1 => y = random.pick(&[65_536, 131_071, u32::MAX]),
        _ => {}
    }
    let words = random.pick(&[8, 8, 8, 9, 12, 7, 7, 0]);
    let words: Vec<u32> = (0..words).map(|_| random.word()).collect();
    let blank = lent_words(random, &words);
    tally.note_call("find", sample.find_leaf((x, y), &blank).0);
}

/// One call; what it changed stays.
fn call(random: &mut Random, sample: &mut Sample, tally: &mut Tally) {
    match random.below(20) {
        0 => tally.note_call("open", sample.open()),
        1..7 => find(random, sample, tally),
        7..10 => grow(random, sample, tally),
        _ => split(random, sample, tally),
    }
}

/// Each call on tables that may be damaged, all on the same ones but for what they change.
fn calls(random: &mut Random, sample: &mut Sample, tally: &mut Tally, splits: usize) {
    let before = sample.tree.clone();
    for _ in 0..splits {
        split(random, sample, tally);
        sample.tree = before.clone();
        find(random, sample, tally);
    }
    for _ in 0..splits.div_ceil(2) {
        grow(random, sample, tally);
        sample.tree = before.clone();
    }
    tally.note_call("open", sample.open());
    sample.tree = before;
}

/// How many cells and entries the tables have: often too few.
fn any_room(random: &mut Random) -> (usize, usize) {
    let cells = random.pick(&[0, 1, 2, 4, 5, 8, 9, 30, 30, 100, 100, 300]);
    let entries = random.pick(&[0, 1, 3, 10, 50, 50, 300, 300, 3_000, 3_000]);
    (cells, entries)
}

#[test]
fn lists_of_calls_on_random_drawings() {
    let random = &mut Random::for_test(90);
    let mut tally = Tally::default();
    for _ in 0..6_000 {
        let tables = scenes::any_tables(random, 150);
        let (cells, entries) = any_room(random);
        let mut sample = Sample::unopened(random, tables, cells, entries);
        let opened = sample.open();
        tally.note_call("open", opened);
        if let Answer::Refused { number, .. } = opened {
            assert_eq!(number, 11);
            continue;
        }
        for _ in 0..random.within(1..=16) {
            call(random, &mut sample, &mut tally);
        }
        // Down to side 1 at one position.
        if random.one_in(10) {
            let at = scenes::any_position(random, &sample.tables);
            for _ in 0..18 {
                let leaf = sample.leaf_at(at).expect("a leaf is found");
                let answer = sample.split(leaf.cell);
                tally.note_call("split", answer);
                if let Answer::Refused { number: 10, .. } = answer {
                    break;
                }
            }
        }
        tally.note("drawings".to_string());
    }
    tally.print("calls");
    tally.reached("drawings", 2_000);
    for what in ["split accepted", "split 8", "split 9", "split 11"] {
        tally.reached(what, 300);
    }
    tally.reached("split 10", 30);
    for what in ["find accepted", "find 7", "find 11"] {
        tally.reached(what, 200);
    }
    for what in ["grow done", "grow full", "grow 7"] {
        tally.reached(what, 200);
    }
}

/// Numbers in use near what any table may hold.
#[test]
fn cells_and_entries_up_to_their_limits() {
    let random = &mut Random::for_test(91);
    let mut tally = Tally::default();
    for _ in 0..150 {
        let tables = scenes::tables(random);
        let holds_cells = MOST_CELLS - 2 + random.below(5);
        let holds_entries = MOST_ENTRIES - 2 + random.below(5);
        let mut tree = TreeTables::new(holds_cells, holds_entries);
        let opened = tree::open(Drawing::of(&tables), &mut tree.lend());
        assert_eq!(opened, Ok(()));
        let used = tree.head[1];
        // What is said to be in use has no meaning, and is not met.
        for word in &mut tree.cells[CELL_WORDS..] {
            *word = random.word();
        }
        for word in &mut tree.entries[ENTRY_WORDS * used as usize..] {
            *word = random.word();
        }
        let cells = [1, 1, 4_090, 4_091, 4_092, 4_093, 4_096, 4_097];
        tree.head[0] = random.pick(&cells);
        let more = random.below(used as usize * 2 + 8) as u32;
        tree.head[1] = match random.below(4) {
            0 => used,
            1 => MOST_ENTRIES as u32 + random.below(3) as u32,
            _ => (MOST_ENTRIES as u32).saturating_sub(more).max(used),
        };
        let mut sample = Sample::longer(random, tables, &tree);
        let before = sample.tree.clone();
        for _ in 0..3 {
            tally.note_call("split", sample.split(0));
        }
        sample.tree = before;
        grow(random, &mut sample, &mut tally);
    }
    tally.print("limits");
    for what in ["split accepted", "split 9", "split 11", "split 12"] {
        tally.reached(what, 20);
    }
}

/// The largest tree: 64 areas and 2,048 corners, 4,096 cells. The second implementation is its fast
/// form.
#[test]
fn the_largest_tree() {
    let random = &mut Random::for_test(97);
    let tables = samples::tables(&scenes::zigzags(random));
    let drawing = Drawing::of(&tables);
    let mut made = Vec::new();
    for (threshold, limit) in [(0, 16), (3, 16), (0, 5)] {
        let mut by_library = TreeTables::new(MOST_CELLS, MOST_ENTRIES);
        let mut by_second = by_library.clone();
        let opened = fast::open(drawing, &mut by_second.lend(), &mut made);
        let answer = zones::open(drawing, &mut by_library.lend());
        assert_eq!(answer, Answer::Accepted(opened.expect("room to open")));
        let grown = fast::grow(drawing, &mut by_second.lend(), threshold, limit, &mut made);
        let answer = zones::grow(drawing, &mut by_library.lend(), threshold, limit);
        let expected = compare::grow_answer(grown.expect("growing is accepted"));
        assert_eq!(answer, Answer::Accepted(expected));
        assert!(by_library == by_second);
        if limit == 16 {
            assert!(expected >= FULL && by_library.head[0] == 4_093);
        }
        let sample = Sample::longer(random, tables.clone(), &by_library);
        for _ in 0..20 {
            find(random, &sample, &mut Tally::default());
        }
    }
}

// ---- damaged tables ----

#[test]
fn opening_of_damaged_drawings() {
    let random = &mut Random::for_test(96);
    let mut tally = Tally::default();
    for _ in 0..8_000 {
        let records = match random.below(4) {
            0 => scenes::any(random),
            1 => samples::drawing(random, true),
            _ => samples::drawing(random, false),
        };
        let mut drawing = LentTables::longer(random, samples::tables(&records));
        if random.one_in(2) {
            let damage = random.pick(&DAMAGES);
            damage_tables(random, &mut drawing, damage);
        }
        let (cells, entries) = any_room(random);
        let entries = entries + random.pick(&[0, 0, 5_000]);
        let tree = LentTree::blank(random, cells, entries);
        let (answer, _) = compare::open(&drawing, &tree);
        tally.note_call("open", answer);
    }
    tally.print("opening");
    for what in ["accepted", "7", "11", "12"] {
        tally.reached(&format!("open {what}"), 100);
    }
}

#[test]
fn calls_on_damaged_tables() {
    let random = &mut Random::for_test(92);
    let mut all = Tally::default();
    for damage in TREE_DAMAGES {
        let mut tally = Tally::default();
        for _ in 0..150 {
            let mut sample = Sample::damaged(random, damage);
            calls(random, &mut sample, &mut tally, 8);
            calls(random, &mut sample, &mut all, 2);
        }
        tally.print(&format!("{damage:?}"));
    }
    all.print("damaged");
    for what in ["accepted", "7", "8", "9", "11", "12"] {
        all.reached(&format!("split {what}"), 50);
    }
    for what in ["accepted", "7", "11", "12"] {
        all.reached(&format!("open {what}"), 50);
        all.reached(&format!("find {what}"), 50);
    }
    for what in ["done", "full", "7", "12", "12 behind splits"] {
        all.reached(&format!("grow {what}"), 20);
    }
}

/// One number, at the end of its range or one beyond it.
struct Break {
    name: &'static str,
    /// Whether it is beyond, so that a call that meets it is refused with 12.
    beyond: bool,
    change: Change,
}

enum Change {
    Plan(usize, u32),
    Head(usize, u32),
    /// A word of the cell.
    Cell(usize, u32),
    /// A word of an entry of a kind, of a first such entry of the cell's stream.
    Entry(u32, usize, u32),
    /// A word of the area that the first area entry names.
    Area(usize, u32),
    /// x or y of the corner that the first line begins at.
    Corner(usize, u32),
}

/// The breaks of a leaf of a tree, and of what it names.
fn breaks(tables: &Tables, tree: &TreeTables, leaf: u32) -> Vec<Break> {
    let cell = tree.view().cell(leaf);
    let Square { x, y, side } = cell.square;
    let holds_cells = (tree.cells.len() / CELL_WORDS) as u32;
    let holds_entries = (tree.entries.len() / ENTRY_WORDS) as u32;
    let (used, entries) = (tree.head[0], tree.head[1]);
    let (areas, corners) = (tables.plan[1], tables.plan[2]);
    let most = MOST_START as u32;
    let end = cell.first + cell.count;
    let mut all = Vec::new();
    let mut at = |name, beyond, change| {
        all.push(Break {
            name,
            beyond,
            change,
        });
    };
    at("cells in use", false, Change::Head(0, holds_cells));
    at("cells in use", true, Change::Head(0, holds_cells + 1));
    at("cells in use", true, Change::Head(0, u32::MAX));
    at("entries in use", false, Change::Head(1, holds_entries));
    at("entries in use", true, Change::Head(1, holds_entries + 1));
    at("entries in use", true, Change::Head(1, u32::MAX));
    at("entries in use", false, Change::Head(1, end));
    if end > 0 {
        at("entries in use", true, Change::Head(1, end - 1));
    }
    at("areas in use", true, Change::Plan(1, areas + 1));
    at("areas in use", true, Change::Plan(1, MOST_AREAS as u32 + 1));
    at("corners in use", true, Change::Plan(2, corners + 1));
    at(
        "corners in use",
        true,
        Change::Plan(2, MOST_CORNERS as u32 + 1),
    );
    at("x", true, Change::Cell(0, x + 65_536));
    at("x", side > 1, Change::Cell(0, x + side / 2));
    at("y", true, Change::Cell(1, y + 65_536));
    at("y", true, Change::Cell(1, u32::MAX));
    at("side", true, Change::Cell(2, 0));
    at("side", true, Change::Cell(2, 131_072));
    at("side", true, Change::Cell(2, side + 2));
    if leaf == 0 {
        at("cell 0", true, Change::Cell(2, side / 2));
    }
    if used > 4 {
        at("child", false, Change::Cell(CHILD_WORD, used - 4));
        at("child", true, Change::Cell(CHILD_WORD, used - 3));
    }
    at("child", true, Change::Cell(CHILD_WORD, used));
    at("child", true, Change::Cell(CHILD_WORD, u32::MAX));
    at("first", true, Change::Cell(4, entries + 1 - cell.count));
    at("first", true, Change::Cell(4, u32::MAX));
    at("count", true, Change::Cell(5, entries + 1 - cell.first));
    at("count", true, Change::Cell(5, u32::MAX));
    let lines = cell.lines;
    for lines in [lines + 1, lines.wrapping_sub(1), u32::MAX] {
        at("lines", true, Change::Cell(LINES_WORD, lines));
    }
    // Every other cell in use, leaves and split ones, and two that are not.
    let others = (0..used).filter(|other| *other != cell.parent);
    for parent in others.chain([used, u32::MAX]) {
        at("parent", true, Change::Cell(PARENT_WORD, parent));
    }
    for kind in [1, 2, 3, 4, 5, 6, 7, 8] {
        at("kind", true, Change::Entry(kind, 0, 0));
        at("kind", true, Change::Entry(kind, 0, 9));
    }
    at("area number", true, Change::Entry(4, 1, areas));
    at("area number", true, Change::Entry(4, 1, u32::MAX));
    for (beyond, start) in [(false, most), (true, most + 1)] {
        at("start", beyond, Change::Entry(4, 2, start));
        at("start", beyond, Change::Entry(4, 2, start.wrapping_neg()));
    }
    for word in [1, 2] {
        at("corner number", true, Change::Entry(5, word, corners));
        at("corner number", true, Change::Entry(5, word, u32::MAX));
    }
    // Of a curve the first of three corners.
    for number in [corners.wrapping_sub(2), corners - 1, corners, u32::MAX] {
        at("curve", true, Change::Entry(8, 1, number));
    }
    at("curve", false, Change::Entry(8, 2, u32::MAX));
    at("curve", false, Change::Entry(8, 3, u32::MAX));
    for (beyond, sign) in [(false, 1), (false, u32::MAX), (true, 0), (true, 2)] {
        at("sign", beyond, Change::Entry(6, 1, sign));
    }
    at("first row", false, Change::Entry(6, 2, y));
    at("first row", true, Change::Entry(6, 2, y.wrapping_sub(1)));
    at("first row", true, Change::Entry(6, 2, y + side));
    at("row behind", false, Change::Entry(6, 3, y + side));
    at("row behind", true, Change::Entry(6, 3, y + side + 1));
    at("row behind", true, Change::Entry(6, 3, y));
    // The seven words of an area that have a range, and the last, which is 0.
    for (word, beyond) in [2, 2, 256, 256, 256, 256, 65_536, 1]
        .into_iter()
        .enumerate()
    {
        at("area", true, Change::Area(word, beyond));
        at("area", true, Change::Area(word, u32::MAX));
    }
    for axis in [0, 1] {
        at("coordinate", false, Change::Corner(axis, 65_536));
        at("coordinate", true, Change::Corner(axis, 65_537));
        at("coordinate", true, Change::Corner(axis, u32::MAX));
    }
    all
}

/// Makes a change; whether there was anything to change.
fn make(change: &Change, tables: &mut Tables, tree: &mut TreeTables, leaf: u32) -> bool {
    let first_of = |tree: &TreeTables, kind: u32| {
        let cell = tree.view().cell(leaf);
        let mut stream = cell.first as usize..(cell.first + cell.count) as usize;
        let at = stream.find(|at| tree.entries[ENTRY_WORDS * at] == kind);
        at.map(|at| ENTRY_WORDS * at)
    };
    let word = match *change {
        Change::Plan(word, _) => Some(&mut tables.plan[word]),
        Change::Head(word, _) => Some(&mut tree.head[word]),
        Change::Cell(word, _) => Some(&mut tree.cells[CELL_WORDS * leaf as usize + word]),
        Change::Entry(kind, word, _) => first_of(tree, kind).map(|at| &mut tree.entries[at + word]),
        Change::Area(word, _) => first_of(tree, 4).map(|at| {
            let area = tree.entries[at + 1] as usize;
            &mut tables.areas[AREA_WORDS * area + word]
        }),
        Change::Corner(axis, _) => first_of(tree, 5).map(|at| {
            let corner = tree.entries[at + 1] as usize;
            &mut [&mut tables.xs, &mut tables.ys][axis][corner]
        }),
    };
    let (Change::Plan(_, to)
    | Change::Head(_, to)
    | Change::Cell(_, to)
    | Change::Entry(_, _, to)
    | Change::Area(_, to)
    | Change::Corner(_, to)) = *change;
    match word {
        Some(word) => {
            *word = to;
            true
        }
        None => false,
    }
}

#[test]
fn each_range_of_12_at_its_end_and_beyond() {
    let random = &mut Random::for_test(93);
    let mut tally = Tally::default();
    let mut rounds = 0;
    while rounds < 250 {
        let (tables, tree) = grown(random);
        let leaf = random.pick(&tree.leaves());
        // Streams with something to break, mostly.
        if tree.stream(leaf).is_empty() && !random.one_in(10) {
            continue;
        }
        rounds += 1;
        let Square { x, y, .. } = tree.view().cell(leaf).square;
        let low = (x, y);
        for Break {
            name,
            beyond,
            change,
        } in breaks(&tables, &tree, leaf)
        {
            let (mut tables, mut tree) = (tables.clone(), tree.clone());
            if !make(&change, &mut tables, &mut tree, leaf) {
                continue;
            }
            let mut sample = Sample::exact(random, tables, &tree);
            let (answer, _) = compare::split(&sample.drawing, &sample.tree, leaf);
            let is_12 = matches!(answer, Answer::Refused { number: 12, .. });
            // A number in its range may break the grammar, or another range.
            assert!(is_12 || !beyond, "{name}: {answer:?} {tree:?}");
            tally.note(format!("{name} {}", if is_12 { "12" } else { "passed" }));
            // Found at a position of the leaf, the same is met.
            let blank = lent_words(random, &[0; 8]);
            let (answer, _) = sample.find_leaf(low, &blank);
            let is_12 = matches!(answer, Answer::Refused { number: 12, .. });
            assert!(is_12 || !beyond, "{name}: {answer:?} {tree:?}");
            calls(random, &mut sample, &mut Tally::default(), 2);
        }
    }
    tally.print("ranges");
    for name in [
        "cells in use",
        "entries in use",
        "areas in use",
        "corners in use",
        "x",
        "y",
        "side",
        "child",
        "first",
        "count",
        "lines",
        "parent",
        "kind",
        "area number",
        "start",
        "corner number",
        "curve",
        "sign",
        "first row",
        "row behind",
        "area",
        "coordinate",
    ] {
        tally.reached(&format!("{name} 12"), 30);
    }
    for name in ["cells in use", "entries in use", "child", "start", "sign"] {
        tally.reached(&format!("{name} passed"), 30);
    }
    for name in ["first row", "row behind", "coordinate", "curve"] {
        tally.reached(&format!("{name} passed"), 30);
    }
}

// ---- tables written by others ----

#[test]
fn calls_on_trees_written_by_others() {
    let random = &mut Random::for_test(94);
    let mut tally = Tally::default();
    for _ in 0..1_500 {
        let tables = scenes::tables(random);
        let splits = random.below(12);
        let tree = foreign::tree(random, &tables, splits);
        let mut sample = Sample::longer(random, tables, &tree);
        calls(random, &mut sample, &mut tally, 4);
        for _ in 0..4 {
            call(random, &mut sample, &mut tally);
        }
    }
    tally.print("others");
    for what in ["accepted", "8", "9", "11", "12"] {
        tally.reached(&format!("split {what}"), 100);
    }
    for what in ["accepted", "11", "12"] {
        tally.reached(&format!("find {what}"), 100);
    }
    for what in ["done", "full", "12", "12 behind splits"] {
        tally.reached(&format!("grow {what}"), 50);
    }
}

/// A leaf whose areas have shortcuts of all its rows only: every one of them goes to the starts.
#[test]
fn shortcuts_over_all_rows() {
    let random = &mut Random::for_test(95);
    let mut tally = Tally::default();
    for _ in 0..300 {
        let tables = scenes::tables(random);
        let areas: Vec<u32> = (0..tables.plan[1])
            .filter(|area| tables.areas[AREA_WORDS * *area as usize] == 0)
            .collect();
        if areas.is_empty() {
            continue;
        }
        let mut stream = Vec::new();
        for _ in 0..random.within(1..=4) {
            let start = random.pick(&[0, 0, 1, -1, MOST_START, -MOST_START, MOST_START - 2]);
            let number = random.pick(&areas);
            stream.push(Entry::Area { number, start });
            for _ in 0..random.below(5) {
                stream.push(Entry::Shortcut {
                    sign: random.pick(&[1, -1]),
                    first: 0,
                    end: 65_536,
                });
            }
        }
        let mut tree = TreeTables::new(30, 0);
        tree.entries = foreign::words(random, &stream);
        tree.entries.extend([0; 400]);
        tree.head = vec![1, stream.len() as u32];
        put_cell(&mut tree.cells, 0, Cell::leaf(Square::WHOLE, 0, &stream, 0));
        let mut sample = Sample::longer(random, tables, &tree);
        tally.note_call("split", sample.split(0));
        // A start number beyond its range is written, and refused when it is met.
        for cell in 1..5 {
            tally.note_call("split", sample.split(cell));
        }
    }
    tally.print("shortcuts");
    tally.reached("split accepted", 500);
    tally.reached("split 12", 10);
}
