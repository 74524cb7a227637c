//! Parents and line counts of cells, document 02, Item 5: the library against the second
//! implementation over trees of which one number of one cell is another, and what holds of the trees
//! that opening, splitting and growing make.

use std::fs;

use zones_tests::class::Square;
use zones_tests::compare::{self, LEAF_WORDS};
use zones_tests::drawing::{CONTROL, FIRST, NEXT};
use zones_tests::lent::{lent_bytes, lent_words, Lent};
use zones_tests::meaning::Drawing;
use zones_tests::pages;
use zones_tests::random::Random;
use zones_tests::readings::SPOT_WORDS;
use zones_tests::record::{corner, Record};
use zones_tests::sample::Sample;
use zones_tests::samples::{self, Tables};
use zones_tests::scenes::{self, contour, painted, Look};
use zones_tests::stream::{self, Entry, ENTRY_WORDS};
use zones_tests::tally::Tally;
use zones_tests::tree::{
    self, put_cell, TreeTables, CELL_WORDS, CHILD_WORD, LINES_WORD, PARENT_WORD,
};
use zones_tests::zones::{Answer, FULL};

// ---- a case, called by both ----

/// A result, or the number of the refusal, whose place is 0.
type Outcome = Result<u32, u32>;

fn outcome(answer: Answer) -> Outcome {
    match answer {
        Answer::Accepted(result) => Ok(result),
        Answer::Refused { number, place } => {
            assert_eq!(place, 0);
            Err(number)
        }
    }
}

/// A drawing and a tree. Every call is made by both on copies of them.
#[derive(Clone, PartialEq, Debug)]
struct Case {
    tables: Tables,
    tree: TreeTables,
}

impl Case {
    fn opened(tables: Tables, cells: usize, entries: usize) -> Case {
        let tree = TreeTables::new(cells, entries);
        let mut case = Case { tables, tree };
        let mut sample = case.sample();
        let opened = outcome(sample.open());
        case.tree = sample.tree.tables();
        assert_eq!(opened, Ok(case.tree.head[1]));
        case
    }

    fn changed(&self, change: impl FnOnce(&mut TreeTables)) -> Case {
        let mut case = self.clone();
        change(&mut case.tree);
        case
    }

    /// With another word in a cell.
    fn with(&self, cell: u32, word: usize, value: u32) -> Case {
        self.changed(|tree| tree.cells[at(cell, word)] = value)
    }

    fn sample(&self) -> Sample {
        Sample::exact(&mut Random::new(1), self.tables.clone(), &self.tree)
    }

    fn split(&self, cell: u32) -> Outcome {
        let sample = self.sample();
        outcome(compare::split(&sample.drawing, &sample.tree, cell).0)
    }

    /// What accepted splits leave.
    fn divided(&self, cells: &[u32]) -> Case {
        let mut sample = self.sample();
        for cell in cells {
            assert!(outcome(sample.split(*cell)).is_ok());
        }
        self.changed(|tree| *tree = sample.tree.tables())
    }

    fn grow(&self, threshold: u32, limit: u32) -> (Outcome, Case) {
        let mut sample = self.sample();
        let answer = outcome(sample.grow(threshold, limit));
        (answer, self.changed(|tree| *tree = sample.tree.tables()))
    }

    fn find(&self, at: (u32, u32)) -> Outcome {
        outcome(self.sample().find_leaf(at, &blank(LEAF_WORDS)).0)
    }

    /// The words of a position, or the number of the refusal.
    fn position(&self, at: (u32, u32)) -> Result<Vec<u32>, u32> {
        let sample = self.sample();
        let (answer, out) = sample.reader().position(at, &blank(SPOT_WORDS));
        outcome(answer).map(|_| out.table().to_vec())
    }

    /// The low corner of a cell.
    fn low(&self, cell: u32) -> (u32, u32) {
        let Square { x, y, .. } = self.tree.view().cell(cell).square;
        (x, y)
    }

    #[track_caller]
    fn found_refused(&self, at: (u32, u32)) {
        assert_eq!(self.find(at), Err(12), "{at:?}");
        assert_eq!(self.position(at), Err(12), "{at:?}");
    }
}

/// Which word of the cells.
fn at(cell: u32, word: usize) -> usize {
    CELL_WORDS * cell as usize + word
}

/// Leaves a cell without entries, so that no row is outside it, wherever it lies.
fn empty(tree: &mut TreeTables, cell: u32) {
    tree.cells[at(cell, 5)..=at(cell, LINES_WORD)].fill(0);
}

/// Puts a cell on a quarter of the grid.
fn put_on_quarter(tree: &mut TreeTables, cell: u32, which: u32) {
    let quarters = Square::WHOLE.quarters().expect("quarters");
    let Square { x, y, side } = quarters[which as usize];
    tree.cells[at(cell, 0)..at(cell, 3)].copy_from_slice(&[x, y, side]);
    empty(tree, cell);
}

fn blank(words: usize) -> Lent<u32> {
    lent_words(&mut Random::new(2), &vec![77; words])
}

/// Two areas with lines, and one with a curve.
fn drawing() -> Tables {
    let bent = [
        corner(FIRST, 9_000, 9_000),
        corner(CONTROL, 12_000, 9_000),
        corner(NEXT, 12_000, 12_000),
        corner(NEXT, 9_000, 11_000),
    ];
    let records = [
        painted(128, [9; 3], bent.to_vec()),
        painted(200, [3; 3], contour(&[(0, 0), (50_000, 0), (0, 50_000)])),
        painted(
            100,
            [5; 3],
            contour(&[(100, 200), (65_000, 30_000), (30_000, 65_000)]),
        ),
    ];
    samples::tables(&records.concat())
}

/// Cell 0 with cells 1 to 4, and cell 1 with cells 5 to 8; room for more.
fn small_tree() -> Case {
    let case = Case::opened(drawing(), 40, 1_000).divided(&[0, 1]);
    assert_eq!(case.tree.head[0], 9);
    let lines = |cell: u32| case.tree.view().cell(cell).lines;
    assert!((0..9).all(|cell| lines(cell) > 0));
    case
}

/// The leaves of the small tree.
const LEAVES: [u32; 7] = [2, 3, 4, 5, 6, 7, 8];

// ---- every word of every cell ----

/// Other values for a word of a cell: near ones, far ones, those of the cells beside it, and for child
/// and parent the number of each cell.
fn values(random: &mut Random, tree: &TreeTables, cell: u32, word: usize) -> Vec<u32> {
    let used = tree.head[0];
    let value = tree.cells[at(cell, word)];
    let side = tree.view().cell(cell).square.side;
    let mut values = vec![value.wrapping_add(1), value.wrapping_sub(1), 0];
    values.extend([1 << 31, u32::MAX, random.word()]);
    let beside = [cell.wrapping_sub(1), cell + 1].into_iter();
    values.extend(
        beside
            .filter(|cell| *cell < used)
            .map(|cell| tree.cells[at(cell, word)]),
    );
    match word {
        0..=2 => values.extend([value ^ side, value.wrapping_sub(side), 2 * side, side / 2]),
        CHILD_WORD | PARENT_WORD => values.extend(0..=used),
        _ => {}
    }
    values.sort();
    values.dedup();
    values.retain(|other| *other != value);
    values
}

/// The thresholds around two counts.
fn thresholds(lines: [u32; 2]) -> Vec<u32> {
    let around = |lines: u32| [lines.saturating_sub(1), lines];
    let mut all = lines.map(around).concat();
    all.sort();
    all.dedup();
    all
}

/// Growing by both, with the thresholds around the count that a cell had and the one that it has: with
/// room for two splits, with none for the cells of one, and with none for entries.
fn growings(random: &mut Random, case: &Case, cell: u32, lines: u32, tally: &mut Tally) {
    let [cells, entries] = [0, 1].map(|word| case.tree.head[word] as usize);
    let now = case.tree.cells[at(cell, LINES_WORD)];
    let room = |cells: usize, entries: usize| {
        case.changed(|tree| {
            tree.cells.truncate(CELL_WORDS * cells);
            tree.entries.truncate(ENTRY_WORDS * entries);
        })
        .sample()
    };
    let rooms = [
        room(cells + 8, usize::MAX >> 8),
        room(cells + 3, usize::MAX >> 8),
        room(cells + 8, entries),
    ];
    let depth = (0..16).find(|depth| 65_536 >> depth == case.tree.cells[at(cell, 2)]);
    for threshold in thresholds([lines, now]) {
        for sample in &rooms {
            let limit = random.pick(&[16, 16, depth.unwrap_or(1), depth.unwrap_or(1) + 1]);
            let (answer, after) = compare::grow(&sample.drawing, &sample.tree, threshold, limit);
            let behind = match after.head == sample.tree.head {
                true => "",
                false => " behind splits",
            };
            tally.note(match outcome(answer) {
                Ok(splits) if splits < FULL => "grow done".to_string(),
                Ok(_) => format!("grow full{behind}"),
                Err(number) => format!("grow {number}{behind}"),
            });
        }
    }
}

/// Each call that uses cells, but growing, by both: the leaf and what shows at each position, a log of
/// them all, the pixel of one, and the split of each cell, with room and with none.
fn calls(random: &mut Random, case: &Case, positions: &[(u32, u32)], tally: &mut Tally) {
    let sample = case.sample();
    let mut reader = sample.reader();
    for position in positions {
        let (answer, _) = sample.find_leaf(*position, &blank(LEAF_WORDS));
        tally.note_call("find", answer);
        let (answer, _) = reader.position(*position, &blank(SPOT_WORDS));
        tally.note_call("position", answer);
    }
    let (px, py): (Vec<u32>, Vec<u32>) = positions.iter().copied().unzip();
    let (px, py) = (lent_words(random, &px), lent_words(random, &py));
    let log = blank(positions.len());
    tally.note_call("log", reader.zone_log(&px, &py, &log).0);
    let (x, y) = random.pick(positions);
    let pixel = lent_bytes(random, &[77; 3]);
    tally.note_call("row", reader.pixel_row(y / 16, x / 16, &pixel).0);
    reader.finish();
    let cells = case.tree.head[0];
    let full = case.changed(|tree| tree.cells.truncate(at(cells + 3, 7)));
    for sample in [sample, full.sample()] {
        for cell in 0..cells {
            let (answer, _) = compare::split(&sample.drawing, &sample.tree, cell);
            tally.note_call("split", answer);
        }
    }
}

/// Every word of every cell of a tree is another, or exchanged with another cell's.
fn each_word(random: &mut Random, case: &Case, tally: &mut Tally) {
    let used = case.tree.head[0];
    // The last position of each leaf.
    let last = |leaf: &u32| {
        let Square { x, y, side } = case.tree.view().cell(*leaf).square;
        (x + side - 1, y + side - 1)
    };
    let positions: Vec<(u32, u32)> = case.tree.leaves().iter().map(last).collect();
    for cell in 0..used {
        let lines = case.tree.view().cell(cell).lines;
        for word in 0..CELL_WORDS {
            let mut all: Vec<Case> = values(random, &case.tree, cell, word)
                .into_iter()
                .map(|value| case.with(cell, word, value))
                .collect();
            let other = random.below(used as usize) as u32;
            all.push(case.changed(|tree| tree.cells.swap(at(cell, word), at(other, word))));
            for damaged in all {
                calls(random, &damaged, &positions, tally);
                growings(random, &damaged, cell, lines, tally);
            }
        }
    }
}

/// A tree of a few splits and growings over a drawing, with room for two more splits and no whole cell
/// more.
fn few_splits(random: &mut Random, tables: Tables, most: usize) -> Case {
    let mut case = Case::opened(tables, most, 4_000);
    let drawing = Drawing::of(&case.tables);
    for _ in 0..random.within(1..=6) {
        if random.one_in(4) {
            let threshold = random.pick(&[0, 2, 8]);
            _ = tree::grow(drawing, &mut case.tree.lend(), threshold, 2);
        } else {
            let (x, y) = scenes::any_position(random, &case.tables);
            let leaf = tree::find_leaf(drawing, case.tree.view(), x, y).expect("a leaf is found");
            _ = tree::split(drawing, &mut case.tree.lend(), leaf.cell);
        }
    }
    let [cells, entries] = [0, 1].map(|word| case.tree.head[word] as usize);
    let words = CELL_WORDS * (cells + 8) + random.below(CELL_WORDS);
    case.tree.cells.resize(words, 7);
    case.tree.entries.truncate(ENTRY_WORDS * (entries + 300));
    case
}

/// A small drawing, with curves or without.
fn small_drawing(random: &mut Random, curved: bool) -> Tables {
    let look = match curved {
        true => Look::curved(random),
        false => Look::any(random),
    };
    let look = Look {
        areas: look.areas.min(4),
        corners: 24,
        contours: 2,
        top: look.top.min(4),
        curved: if curved { look.curved } else { 0 },
        ..look
    };
    samples::tables(&scenes::of(random, &look))
}

fn reached(tally: &Tally, least: usize) {
    for call in ["find", "position", "log", "row", "split"] {
        tally.reached(&format!("{call} accepted"), least);
        tally.reached(&format!("{call} 12"), least);
    }
    for what in ["split 9", "split 11"] {
        tally.reached(what, least);
    }
    for what in ["done", "full", "full behind splits"] {
        tally.reached(&format!("grow {what}"), least);
    }
    for what in ["12", "12 behind splits"] {
        tally.reached(&format!("grow {what}"), least);
    }
}

#[test]
fn each_word_of_each_cell() {
    let random = &mut Random::for_test(220);
    let mut tally = Tally::default();
    for round in 0..10 {
        let case = loop {
            let tables = small_drawing(random, round % 2 == 0);
            let case = few_splits(random, tables, 13);
            let lines = |leaf: &&u32| case.tree.view().cell(**leaf).lines > 0;
            if case.tree.head[0] > 1 && case.tree.leaves().iter().filter(lines).count() > 1 {
                break case;
            }
        };
        each_word(random, &case, &mut tally);
    }
    tally.print("each word");
    reached(&tally, 200);
}

/// A sample of the folder samples.
fn sample(name: &str) -> Tables {
    let bytes = fs::read(pages::sample(name)).expect("a sample");
    let (records, rest) = bytes.as_chunks::<16>();
    assert!(rest.is_empty());
    let records: Vec<Record> = records.to_vec();
    samples::tables(&records)
}

#[test]
fn each_word_of_each_cell_of_the_samples() {
    let random = &mut Random::for_test(221);
    let mut tally = Tally::default();
    for name in ["pit.zones", "berms.zones", "full.zones"] {
        let case = Case::opened(sample(name), 17, 2_000).divided(&[0, 4]);
        each_word(random, &case, &mut tally);
    }
    tally.print("each word of the samples");
    reached(&tally, 100);
}

// ---- what growing reads ----

/// The leaves that growing splits of a tree as it is, before it looks at their children.
fn wanted(case: &Case, threshold: u32, limit: u32) -> Vec<u32> {
    let cell = |number: u32| case.tree.view().cell(number);
    let leaves = case.tree.leaves().into_iter();
    let more = |leaf: &u32| cell(*leaf).lines > threshold && cell(*leaf).square.depth() < limit;
    leaves.filter(more).collect()
}

/// Growing of a tree in which a leaf's stream does not pass 12 or has another count: 12 where that leaf
/// is split, and not where it is passed over.
fn expect_growing(case: &Case, leaf: u32, threshold: u32, limit: u32, tally: &mut Tally) {
    let wanted = wanted(case, threshold, limit);
    let (answer, after) = case.grow(threshold, limit);
    // In tables with no room the first that is wanted decides: 12 before 11.
    let cells = case.tree.head[0];
    let full = case.changed(|tree| tree.cells.truncate(at(cells + 3, 7)));
    let (first, unchanged) = full.grow(threshold, limit);
    assert_eq!(unchanged, full);
    match wanted.first() {
        Some(first_wanted) if *first_wanted == leaf => assert_eq!(first, Err(12)),
        Some(_) => assert_eq!(first, Ok(FULL)),
        None => assert_eq!(first, Ok(0)),
    }
    match wanted.iter().position(|number| *number == leaf) {
        Some(before) => {
            assert_eq!(answer, Err(12));
            assert_eq!(after, case.divided(&wanted[..before]));
            tally.note(format!("wanted behind {}", before.min(1)));
        }
        None => {
            assert!(answer.is_ok(), "{answer:?}");
            tally.note("passed over".to_string());
            tally.note(format!("passed over, {} wanted", wanted.len().min(1)));
        }
    }
}

/// A leaf with an entry of no kind, and with other counts than its stream has lines.
fn damaged_leaf(random: &mut Random, case: &Case, leaf: u32) -> Vec<Case> {
    let cell = case.tree.view().cell(leaf);
    let less = cell.lines.checked_sub(1);
    let counts = [Some(cell.lines + 1), less, Some(u32::MAX)].into_iter();
    let mut all: Vec<Case> = counts
        .flatten()
        .map(|lines| case.with(leaf, LINES_WORD, lines))
        .collect();
    if cell.count > 0 {
        let entry = cell.first as usize + random.below(cell.count as usize);
        let kind = random.pick(&[0, 9, 99, u32::MAX]);
        all.push(case.changed(|tree| tree.entries[ENTRY_WORDS * entry] = kind));
    }
    all
}

/// Document 02, Item 5: "growing reads the count instead of the stream, but for the leaf it splits."
#[test]
fn growing_reads_the_stream_of_the_leaf_it_splits() {
    let random = &mut Random::for_test(222);
    let mut tally = Tally::default();
    for round in 0..60 {
        let tables = small_drawing(random, round % 2 == 0);
        let mut case = few_splits(random, tables, 13);
        case.tree.cells.resize(at(200, 0), 0);
        case.tree.entries.resize(ENTRY_WORDS * 4_000, 0);
        for leaf in case.tree.leaves() {
            let cell = case.tree.view().cell(leaf);
            let depth = cell.square.depth();
            for damaged in damaged_leaf(random, &case, leaf) {
                let now = damaged.tree.view().cell(leaf).lines;
                for threshold in thresholds([cell.lines, now]) {
                    for limit in [depth, depth + 1] {
                        expect_growing(&damaged, leaf, threshold, limit, &mut tally);
                    }
                }
            }
        }
    }
    tally.print("what growing reads");
    for what in ["wanted behind 0", "wanted behind 1", "passed over"] {
        tally.reached(what, 50);
    }
    tally.reached("passed over, 1 wanted", 50);
}

/// "a split cell's count is not compared": document 02, Item 5.
#[test]
fn the_count_of_a_split_cell() {
    let case = small_tree();
    let grown = case.grow(1, 4);
    for cell in [0, 1] {
        let lines = case.tree.view().cell(cell).lines;
        for other in [0, lines - 1, lines + 1, u32::MAX] {
            let other = case.with(cell, LINES_WORD, other);
            assert_eq!(other.split(cell), Err(9));
            for leaf in LEAVES {
                let low = case.low(leaf);
                assert_eq!(other.find(low), Ok(leaf));
                assert_eq!(other.position(low), case.position(low));
                assert_eq!(other.split(leaf), Ok(9));
            }
            let (answer, mut after) = other.grow(1, 4);
            // A split and a growing leave the word.
            let kept = at(cell, LINES_WORD);
            assert_eq!(after.tree.cells[kept], other.tree.cells[kept]);
            after.tree.cells[kept] = lines;
            assert_eq!((answer, after), grown);
        }
    }
}

// ---- which cells hold a cell ----

/// The small tree with a cell 9 that has all words of cell 1: both hold cells 5 to 8, which have the one
/// or the other as their parent.
fn two_parents() -> [Case; 2] {
    let first = small_tree().changed(|tree| {
        tree.cells.copy_within(at(1, 0)..at(2, 0), at(9, 0));
        tree.head[0] = 10;
    });
    let name_9 = |tree: &mut TreeTables| {
        (5..9).for_each(|cell| tree.cells[at(cell, PARENT_WORD)] = 9);
    };
    let second = first.changed(name_9);
    [first, second]
}

#[test]
fn two_cells_that_hold_the_same_four() {
    for case in two_parents() {
        for cell in 5..9 {
            assert_eq!(case.split(cell), Ok(10));
            let low = case.low(cell);
            assert_eq!(case.find(low), Ok(cell));
            assert_eq!(case.position(low), small_tree().position(low));
        }
        // No cell holds cell 9. Growing meets it behind the leaves that it splits.
        assert_eq!(case.split(9), Err(12));
        assert_eq!(case.grow(u32::MAX, 16), (Err(12), case.clone()));
        assert_eq!(case.grow(0, 2), (Err(12), case.divided(&[2, 3, 4])));
    }
}

#[test]
fn what_of_a_parent_is_tried() {
    let [first, second] = two_parents();
    // A parent that is not in use holds nothing.
    let unused = second.changed(|tree| tree.head[0] = 9);
    assert_eq!((unused.split(5), unused.split(2)), (Err(12), Ok(9)));
    unused.found_refused(first.low(5));
    // Of a parent the square and the child are tried, and nothing else.
    for word in 0..CELL_WORDS {
        let expected = match word {
            0..=CHILD_WORD => (Err(12), Err(12)),
            _ => (Ok(10), Ok(5)),
        };
        for value in [u32::MAX, 1] {
            let other = second.with(9, word, value);
            let found = (other.split(5), other.find(first.low(5)));
            assert_eq!(found, expected, "{word} {value}");
        }
    }
    // The parent that is named decides, though the path comes from another that holds the cell.
    for parent in [0, 2, 5, 6, 10] {
        let other = first.with(5, PARENT_WORD, parent);
        assert_eq!(other.split(5), Err(12));
        other.found_refused(first.low(5));
        assert_eq!(other.find(first.low(6)), Ok(6));
    }
}

/// The two fours of the small tree change places: cells 1 to 4 then have cell 5 as their parent.
fn exchanged_fours(case: &Case) -> (Case, impl Fn(u32) -> u32) {
    let moved = |cell: u32| match cell {
        0 => 0,
        1..5 => cell + 4,
        _ => cell - 4,
    };
    let other = case.changed(|tree| {
        for number in 0..9 {
            let mut cell = case.tree.view().cell(number);
            (cell.child, cell.parent) = (moved(cell.child), moved(cell.parent));
            put_cell(&mut tree.cells, moved(number) as usize, cell);
        }
    });
    (other, moved)
}

#[test]
fn parents_numbered_above_their_children() {
    let case = small_tree();
    let (other, moved) = exchanged_fours(&case);
    for leaf in LEAVES {
        let low = case.low(leaf);
        assert_eq!(other.find(low), Ok(moved(leaf)));
        assert_eq!(other.position(low), case.position(low));
        assert_eq!(other.split(moved(leaf)), Ok(9));
    }
    assert_eq!((other.split(0), other.split(5)), (Err(9), Err(9)));
    // The same leaves are split, in another order.
    let squares = |case: &Case| {
        let leaves = case.tree.leaves().into_iter();
        let mut squares: Vec<[u32; 3]> = leaves
            .map(|leaf| case.tree.view().cell(leaf).square)
            .map(|Square { x, y, side }| [x, y, side])
            .collect();
        squares.sort();
        squares
    };
    for (threshold, limit) in [(u32::MAX, 16), (0, 2), (2, 3)] {
        let (answer, grown) = case.grow(threshold, limit);
        let (in_other, other_grown) = other.grow(threshold, limit);
        assert_eq!(answer, in_other);
        assert!(answer < Ok(FULL));
        assert_eq!(squares(&grown), squares(&other_grown));
    }
}

/// Only the parent that a cell names is looked at, and no parent of that.
#[test]
fn parents_in_a_circle() {
    let case = small_tree();
    let circle = case.with(1, PARENT_WORD, 5);
    assert_eq!(circle.split(5), Ok(9));
    // 12 before 9.
    assert_eq!(circle.split(1), Err(12));
    for cell in 5..9 {
        circle.found_refused(case.low(cell));
    }
    assert_eq!(circle.find(case.low(2)), Ok(2));
    assert_eq!(circle.grow(0, 16), (Err(12), circle.clone()));
    // A cell that is its own parent, and one that holds itself.
    for cell in 1..9 {
        let own = case.with(cell, PARENT_WORD, cell);
        assert_eq!(own.split(cell), Err(12));
        own.found_refused(case.low(cell));
        let holds_itself = own.with(cell, CHILD_WORD, cell.min(5));
        assert_eq!(holds_itself.split(cell), Err(12));
        assert_eq!(own.grow(u32::MAX, 16), (Err(12), own.clone()));
    }
    // Cell 0 has itself; the cells that it holds do not ask.
    for parent in (1..10).chain([u32::MAX]) {
        let other = case.with(0, PARENT_WORD, parent);
        assert_eq!(other.split(0), Err(12));
        assert_eq!(other.grow(u32::MAX, 16), (Err(12), other.clone()));
        for leaf in LEAVES {
            other.found_refused(case.low(leaf));
            assert_eq!(other.split(leaf), Ok(9));
        }
    }
}

/// Each cell with every other parent in use is met by 12.
#[test]
fn parents_that_do_not_hold_the_cell() {
    let case = small_tree();
    for cell in 1..9 {
        let right = case.tree.view().cell(cell).parent;
        for parent in (0..10).filter(|parent| *parent != right) {
            let other = case.with(cell, PARENT_WORD, parent);
            assert_eq!(other.split(cell), Err(12), "{cell} {parent}");
            other.found_refused(case.low(cell));
            assert_eq!(other.grow(u32::MAX, 16), (Err(12), other.clone()));
            // Full and broken at once: cell 2 is the first that is wanted.
            let full = other.changed(|tree| tree.cells.truncate(at(9, 0)));
            let expected = if cell <= 2 { Err(12) } else { Ok(FULL) };
            assert_eq!(full.grow(0, 2), (expected, full.clone()));
        }
    }
    // A parent that is no longer split, or has another four.
    for (child, holds) in [(0, false), (4, false), (6, false), (5, true)] {
        let other = case.with(1, CHILD_WORD, child);
        for cell in 5..9 {
            let expected = if holds { Ok(9) } else { Err(12) };
            assert_eq!(other.split(cell), expected, "{cell} {child}");
        }
    }
    // A leaf holds none, though its child word and the next three are numbers of cells.
    for cell in 1..4 {
        let moved = case.changed(|tree| put_on_quarter(tree, cell, cell));
        assert_eq!(moved.with(0, CHILD_WORD, 0).split(cell), Err(12), "{cell}");
    }
    // The last of the four is in use, or none is held.
    let fewer = case.changed(|tree| tree.head[0] = 8);
    for cell in 5..8 {
        assert_eq!(fewer.split(cell), Err(12));
    }
    assert_eq!(fewer.split(2), Ok(8));
}

// ---- sums of 32 bits ----

#[test]
fn parents_far_beyond_the_table() {
    let case = small_tree();
    for cell in 0..9 {
        let right = case.tree.view().cell(cell).parent;
        // Eight times such a number is that of the right one in 32 bits.
        let same_place = (1..8).map(|times| right + (times << 29));
        for parent in same_place.chain([40, 4_096, 1 << 31, u32::MAX - 1, u32::MAX]) {
            let other = case.with(cell, PARENT_WORD, parent);
            assert_eq!(other.split(cell), Err(12), "{cell} {parent}");
            other.found_refused(case.low(cell));
            assert_eq!(other.grow(u32::MAX, 16), (Err(12), other.clone()));
        }
    }
}

/// A child, and a low corner of the parent, from which the cell is reached by a sum that wraps.
#[test]
fn sums_that_would_wrap() {
    let case = small_tree();
    for cell in 1..4_u32 {
        for which in cell + 1..4 {
            let other = case.with(0, CHILD_WORD, cell.wrapping_sub(which));
            let moved = other.changed(|tree| put_on_quarter(tree, cell, which));
            for case in [other, moved] {
                assert_eq!(case.split(cell), Err(12), "{cell} {which}");
            }
        }
    }
    // Cells 2, 3 and 4 are high in x, in y, in both. At 0 they are on the grid.
    for (cell, high) in [(2, [true, false]), (3, [false, true]), (4, [true, true])] {
        let moved = case.changed(|tree| {
            for axis in [0, 1] {
                if high[axis] {
                    tree.cells[at(cell, axis)] = 0;
                    tree.cells[at(0, axis)] = 32_768_u32.wrapping_neg();
                }
            }
            empty(tree, cell);
        });
        assert_eq!(moved.split(cell), Err(12), "{cell}");
    }
    // Twice a side that wraps.
    let wide = case.with(5, 2, 1 << 31).with(1, 2, 0);
    assert_eq!(wide.split(5), Err(12));
    // The grid is half of a side of 131,072, which is not tried.
    let largest = case.changed(|tree| {
        tree.cells[at(5, 2)] = 65_536;
        tree.cells[at(1, 2)] = 131_072;
    });
    assert_eq!(largest.split(5), Ok(9));
}

// ---- upward from every leaf ----

/// From each leaf the parent is taken as often as it has depth: each is the square around, and the last
/// is cell 0. Each leaf has the lines and curves of its stream.
fn expect_upward(tree: &TreeTables, tally: &mut Tally) {
    let cell = |number: u32| tree.view().cell(number);
    assert_eq!(cell(0).parent, 0);
    for leaf in tree.leaves() {
        let stream = tree.stream(leaf);
        let is_curve = |entry: &&Entry| matches!(entry, Entry::Curve { .. });
        let is_line = |entry: &&Entry| matches!(entry, Entry::Line { .. });
        let curves = stream.iter().filter(is_curve).count();
        let lines = stream.iter().filter(is_line).count();
        assert_eq!(cell(leaf).lines as usize, lines + curves);
        assert_eq!(cell(leaf).lines, stream::lines(&stream));
        tally.note(match (curves, stream::uniform(&stream)) {
            (0, true) => "uniform".to_string(),
            (0, false) if lines == 0 => "shortcuts alone".to_string(),
            (0, false) => "lines".to_string(),
            _ => "curves".to_string(),
        });
        let mut number = leaf;
        let depth = cell(leaf).square.depth();
        for _ in 0..depth {
            let parent = cell(number).parent;
            let which = (number - cell(parent).child) as usize;
            let quarters = cell(parent).square.quarters().expect("a side above 1");
            assert_eq!(cell(number).square, quarters[which]);
            number = parent;
        }
        assert_eq!(number, 0);
        tally.note(format!("depth {}", depth.min(6)));
    }
}

#[test]
fn from_each_leaf_up_to_cell_0() {
    let random = &mut Random::for_test(223);
    let mut tally = Tally::default();
    for _ in 0..300 {
        let records = match random.one_in(2) {
            true => scenes::curved(random),
            false => scenes::any(random),
        };
        let mut sample = Sample::unopened(random, samples::tables(&records), 100, 4_000);
        if sample.open() != Answer::Accepted(sample.tree.head.table()[1]) {
            continue;
        }
        for _ in 0..random.within(0..=10) {
            let near = sample.leaf_at(scenes::any_position(random, &sample.tables));
            let near = near.expect("a leaf is found").cell;
            match random.below(8) {
                0 => sample.grow(random.pick(&[0, 1, 4]), random.pick(&[1, 3, 6, 16])),
                1 => sample.split(random.below(101) as u32),
                _ => sample.split(near),
            };
        }
        expect_upward(&sample.tree.tables(), &mut tally);
    }
    tally.print("upward");
    for what in ["uniform", "shortcuts alone", "lines", "curves"] {
        tally.reached(what, 100);
    }
    for depth in 0..=6 {
        tally.reached(&format!("depth {depth}"), 10);
    }
}
