//! The refusals: their order and places, damaged tables, the check of streams and of what they name.
//! Each chosen case is called by the library and by the second implementation, which agree in all
//! that can be seen, and its answer is the one that is named.

use zones_tests::class::Square;
use zones_tests::compare::{self, LEAF_WORDS};
use zones_tests::drawing::{AREA_WORDS, CLIP};
use zones_tests::expect;
use zones_tests::lent::{lent_bytes, lent_words};
use zones_tests::meaning::{self, Drawing, Scene, PIXEL};
use zones_tests::query::CHANNELS;
use zones_tests::random::Random;
use zones_tests::readings::{shown_words, SPOT_WORDS};
use zones_tests::record::{area, delimiter, letters};
use zones_tests::sample::Sample;
use zones_tests::samples::{self, Tables};
use zones_tests::scenes::{self, contour, painted, square_at};
use zones_tests::stream::{self, Entry, ENTRY_WORDS};
use zones_tests::tally::Tally;
use zones_tests::tree::{self, put_cell, Cell, TreeTables, CELL_WORDS, LINES_WORD, PARENT_WORD};
use zones_tests::tree_damage::{damage_tree, TREE_DAMAGES};
use zones_tests::zones::{Answer, FULL};

// ---- a case, called by both ----

/// A result, or the refusal's number and place.
type Outcome = Result<u32, (u32, u32)>;

fn outcome(answer: Answer) -> Outcome {
    match answer {
        Answer::Accepted(result) => Ok(result),
        Answer::Refused { number, place } => Err((number, place)),
    }
}

/// A drawing and a tree. Every call is made by both on copies of them.
#[derive(Clone, PartialEq, Debug)]
struct Case {
    tables: Tables,
    tree: TreeTables,
}

impl Case {
    /// A tree that was opened in tables for so many cells and entries.
    fn opened(tables: Tables, cells: usize, entries: usize) -> Case {
        let tree = TreeTables::new(cells, entries);
        let (opened, case) = Case { tables, tree }.open();
        assert_eq!(opened, Ok(case.tree.head[1]));
        case
    }

    fn changed(&self, change: impl FnOnce(&mut Case)) -> Case {
        let mut case = self.clone();
        change(&mut case);
        case
    }

    /// Lent just as long as they are.
    fn lent(&self) -> Sample {
        Sample::exact(&mut Random::new(1), self.tables.clone(), &self.tree)
    }

    /// A call that may change the tree, and what it leaves.
    fn call(&self, call: impl FnOnce(&mut Sample) -> Answer) -> (Outcome, Case) {
        let mut sample = self.lent();
        let answer = outcome(call(&mut sample));
        let (tables, tree) = (self.tables.clone(), sample.tree.tables());
        (answer, Case { tables, tree })
    }

    /// Writes the drawing out, with room for so many bytes.
    fn write(&self, room: usize) -> Outcome {
        let blank = lent_bytes(&mut Random::new(6), &vec![0xA5; room]);
        outcome(compare::write(&self.lent().drawing, &blank).0)
    }

    fn open(&self) -> (Outcome, Case) {
        self.call(Sample::open)
    }

    fn split(&self, cell: u32) -> Outcome {
        self.call(|sample| sample.split(cell)).0
    }

    /// What accepted splits leave.
    fn divided(&self, cells: &[u32]) -> Case {
        cells.iter().fold(self.clone(), |case, cell| {
            let (answer, after) = case.call(|sample| sample.split(*cell));
            assert_eq!(answer, Ok(case.tree.head[0]));
            after
        })
    }

    fn grow(&self, threshold: u32, limit: u32) -> (Outcome, Case) {
        self.call(|sample| sample.grow(threshold, limit))
    }

    /// The words of the leaf that is found.
    fn leaf(&self, x: u32, y: u32) -> (Outcome, Vec<u32>) {
        let blank = lent_words(&mut Random::new(2), &[77; LEAF_WORDS]);
        let (answer, out) = self.lent().find_leaf((x, y), &blank);
        (outcome(answer), out.table().to_vec())
    }

    fn find(&self, x: u32, y: u32) -> Outcome {
        self.leaf(x, y).0
    }

    fn position(&self, x: u32, y: u32) -> (Outcome, Vec<u32>) {
        let blank = lent_words(&mut Random::new(3), &[77; SPOT_WORDS]);
        let (answer, out) = self.lent().reader().position((x, y), &blank);
        (outcome(answer), out.table().to_vec())
    }

    fn row(&self, row: u32, first: u32, bytes: usize) -> (Outcome, Vec<u8>) {
        let blank = lent_bytes(&mut Random::new(4), &vec![0xA5; bytes]);
        let (answer, out) = self.lent().reader().pixel_row(row, first, &blank);
        (outcome(answer), out.table().to_vec())
    }

    fn log(&self, px: &[u32], py: &[u32], room: usize) -> (Outcome, Vec<u32>) {
        let random = &mut Random::new(5);
        let [px, py] = [px, py].map(|run| lent_words(random, run));
        let blank = lent_words(random, &vec![77; room]);
        let (answer, out) = self.lent().reader().zone_log(&px, &py, &blank);
        (outcome(answer), out.table().to_vec())
    }

    /// Every reading at a position: a leaf found, the position, a log of it alone, and its pixel if
    /// it is one of the sixteen samples.
    fn readings(&self, x: u32, y: u32) -> Vec<Outcome> {
        let mut answers = vec![
            self.find(x, y),
            self.position(x, y).0,
            self.log(&[x], &[y], 1).0,
        ];
        let (row, pixel) = (y / PIXEL, x / PIXEL);
        if meaning::samples(row, pixel).contains(&(x, y)) {
            answers.push(self.row(row, pixel, CHANNELS).0);
        }
        answers
    }

    #[track_caller]
    fn readings_refused(&self, x: u32, y: u32, number: u32) {
        for answer in self.readings(x, y) {
            assert_eq!(answer, Err((number, 0)));
        }
    }
}

/// Which word of the cells.
fn at(cell: u32, word: usize) -> usize {
    CELL_WORDS * cell as usize + word
}

/// Puts a square in place of a cell's.
fn put_square(tree: &mut TreeTables, cell: u32, square: [u32; 3]) {
    tree.cells[at(cell, 0)..at(cell, 3)].copy_from_slice(&square);
}

/// Leaves a cell without entries.
fn empty(tree: &mut TreeTables, cell: u32) {
    tree.cells[at(cell, 5)..=at(cell, LINES_WORD)].fill(0);
}

/// A drawing of a clip group and two areas.
fn small_drawing() -> Tables {
    let records = [
        vec![delimiter(4), area(CLIP, 0, 0, [0; 3], 0)],
        contour(&[(1_000, 1_000), (60_000, 2_000), (30_000, 60_000)]),
        vec![delimiter(5)],
        painted(255, [9; 3], contour(&[(0, 0), (50_000, 0), (0, 50_000)])),
        vec![delimiter(6)],
        painted(100, [3; 3], square_at(16_384, 16_384, 32_768)),
    ]
    .concat();
    samples::tables(&records)
}

/// Its tree of a few splits.
fn small_tree() -> Case {
    Case::opened(small_drawing(), 40, 1_000).divided(&[0, 1])
}

// ---- damaged trees ----

#[test]
fn refusals_over_damaged_tables_change_nothing() {
    let random = &mut Random::for_test(48);
    let mut tally = Tally::default();
    for damage in TREE_DAMAGES {
        let mut counts = Tally::default();
        for _ in 0..60 {
            let (mut tables, mut tree) = match random.one_in(2) {
                true => {
                    let Case { tables, tree } = small_tree();
                    (tables, tree)
                }
                false => {
                    let tables = scenes::tables(random);
                    let drawing = Drawing::of(&tables);
                    let mut tree = TreeTables::new(random.within(1..=40), 600);
                    if tree::open(drawing, &mut tree.lend()).is_err() {
                        continue;
                    }
                    for _ in 0..random.below(4) {
                        let number = random.pick(&tree.leaves());
                        _ = tree::split(drawing, &mut tree.lend(), number);
                    }
                    (tables, tree)
                }
            };
            damage_tree(random, &mut tables, &mut tree, damage);
            for _ in 0..3 {
                expect::all_calls(random, &tables, &tree, &mut tally);
                expect::all_calls(random, &tables, &tree, &mut counts);
            }
        }
        counts.print(&format!("{damage:?}"));
    }
    tally.print("damaged");
    for what in [
        "open 7",
        "open 11",
        "open 12",
        "split 7",
        "split 8",
        "split 9",
        "split 11",
        "split 12",
        "grow 7",
        "grow 12",
        "grow with splits 12",
        "find 7",
        "find 12",
        "row 7",
        "row 12",
        "log 7",
        "log 12",
    ] {
        tally.reached(what, 50);
    }
    for call in ["open", "split", "grow", "find", "row", "log"] {
        tally.reached(&format!("{call} accepted"), 400);
    }
    tally.reached("row behind pixels 12", 10);
}

// ---- the check of a stream ----

fn area_entry(number: u32, start: i32) -> Entry {
    Entry::Area { number, start }
}

fn line(from: u32, to: u32) -> Entry {
    Entry::Line { from, to }
}

fn shortcut(sign: i32, first: u32, end: u32) -> Entry {
    Entry::Shortcut { sign, first, end }
}

/// Areas 0 paint, 1 clip, 2 paint, of three corners each.
fn three_areas() -> Tables {
    samples::tables(&letters("p233(c233|p233)"))
}

/// A tree of cell 0 alone over three areas, with a stream and room for more.
fn lone_cell(stream: &[Entry]) -> Case {
    let mut tree = TreeTables::new(9, stream.len());
    tree.head = vec![1, stream.len() as u32];
    put_cell(&mut tree.cells, 0, Cell::leaf(Square::WHOLE, 0, stream, 0));
    tree.entries = stream::words(stream);
    tree.entries.extend(vec![0; ENTRY_WORDS * 20_000]);
    let tables = three_areas();
    Case { tables, tree }
}

/// Whether cell 0, a leaf, passes 12, as every call that reads its stream says: growing too where it
/// has a line, and so may be split.
#[track_caller]
fn passes(case: &Case) -> bool {
    let mut answers = vec![case.find(3, 4), case.position(3, 4).0, case.split(0)];
    let passes = answers[0].is_ok();
    let below = case.tree.view().cell(0).lines.checked_sub(1);
    answers.extend(below.map(|threshold| case.grow(threshold, 1).0));
    for answer in answers {
        assert!(answer.is_ok() == passes && (passes || answer == Err((12, 0))));
    }
    passes
}

#[test]
fn streams_that_pass_and_streams_that_do_not() {
    let expect = |expected: bool, stream: &[Entry]| {
        let case = lone_cell(stream);
        assert_eq!(passes(&case), expected, "{stream:?}");
        // Growing does not read the stream of a leaf that it does not split.
        let lines = stream::lines(stream);
        for (threshold, limit) in [(lines, 16), (u32::MAX, 16), (0, 0)] {
            assert_eq!(case.grow(threshold, limit), (Ok(0), case.clone()));
        }
        // One line more or less is said than there is.
        for other in [lines + 1, lines.wrapping_sub(1)] {
            let other = case.changed(|case| case.tree.cells[LINES_WORD] = other);
            assert!(!passes(&other), "{stream:?}");
        }
    };
    let (open, bar, close, bare) = (Entry::Open, Entry::Bar, Entry::Close, Entry::Passes);
    let (paint, clip) = (area_entry(0, 0), area_entry(1, 0));
    let again = |entry: Entry, times: usize| vec![entry; times];

    // Areas, their numbers and start numbers; repeated, and out of order.
    expect(true, &[]);
    expect(true, &[paint, area_entry(2, 0), paint]);
    expect(false, &[area_entry(3, 0)]);
    expect(false, &[clip]);
    expect(true, &[area_entry(2, -2_048), area_entry(0, 2_048)]);
    expect(false, &[area_entry(0, 2_049)]);
    expect(false, &[area_entry(0, -2_049)]);
    expect(false, &[area_entry(0, i32::MIN)]);
    // Lines: any two corners, also a corner and itself.
    expect(true, &[paint, line(0, 8), line(8, 8)]);
    expect(false, &[paint, line(0, 9)]);
    expect(false, &[paint, line(9, 0)]);
    expect(false, &[paint, line(u32::MAX, 0)]);
    // Shortcuts: all rows, one row, none.
    expect(
        true,
        &[paint, shortcut(1, 0, 65_536), shortcut(-1, 65_535, 65_536)],
    );
    for (sign, first, end) in [
        (0, 0, 1),
        (2, 0, 1),
        (-2, 0, 1),
        (1, 5, 5),
        (1, 6, 5),
        (1, 0, 65_537),
        (1, 65_536, 65_537),
        (-1, 65_536, 65_536),
    ] {
        expect(false, &[paint, shortcut(sign, first, end)]);
    }
    // "a line or shortcut stands straight after an area, line or shortcut"
    for segment in [line(0, 1), shortcut(1, 0, 1)] {
        expect(true, &[paint, segment, segment]);
        expect(true, &[open, clip, segment, bar, paint, segment, close]);
        expect(false, &[segment]);
        expect(false, &[open, segment, bar, close]);
        expect(false, &[open, bar, segment, close]);
        expect(false, &[open, bar, close, segment]);
        expect(false, &[open, bare, segment, bar, close]);
        expect(false, &[paint, open, bar, close, segment]);
    }
    // "passes" stands where a clip area may.
    expect(false, &[bare]);
    for one in [bare, clip] {
        expect(true, &[open, one, one, bar, paint, close]);
        expect(false, &[open, bar, one, close]);
        expect(false, &[open, bar, close, one]);
        expect(true, &[open, open, one, bar, one, close, one, bar, close]);
        expect(false, &[open, one, bar, open, bar, one, close, close]);
        expect(true, &[open, one, bar, open, one, bar, paint, close, close]);
    }
    expect(false, &[open, paint, bar, close]);
    expect(false, &[open, open, bar, paint, close, bar, close]);
    // Groups are whole.
    for stream in [
        vec![open],
        vec![bar],
        vec![close],
        vec![open, bar],
        vec![open, close],
        vec![open, bar, bar, close],
        vec![open, bar, close, close],
        vec![open, open, bar, close],
    ] {
        expect(false, &stream);
    }
    // Limits.
    expect(true, &again(paint, 64));
    expect(false, &again(paint, 65));
    let segments = |n: usize| {
        [
            again(paint, 1),
            again(line(0, 1), n - 1),
            again(shortcut(1, 0, 1), 1),
        ]
    };
    expect(true, &segments(2_048).concat());
    expect(false, &segments(2_049).concat());
    let deep = |n: usize| [again(open, n), [bar, close].repeat(n)].concat();
    expect(true, &deep(8));
    expect(false, &deep(9));
    let bares = |n: usize| [again(open, 1), again(bare, n), vec![bar, close]].concat();
    expect(true, &bares(4_093));
    expect(false, &bares(4_094));
    // Kinds.
    for kind in [0, 9, 256 + 4, u32::MAX] {
        assert!(!passes(&lone_cell(&[paint]).changed(|case| {
            case.tree.entries[0] = kind;
        })));
    }
}

#[test]
fn what_a_leaf_names_of_the_drawing() {
    let stream = [area_entry(0, 0), line(0, 1)];
    let expect = |expected: bool, change: &dyn Fn(&mut Tables)| {
        let case = lone_cell(&stream).changed(|case| change(&mut case.tables));
        assert_eq!(passes(&case), expected);
    };
    expect(true, &|_| {});
    // The area that it names, all its fields; no other.
    for (word, value) in [
        (0, 1),
        (0, 2),
        (1, 2),
        (2, 256),
        (3, 256),
        (6, 0),
        (6, 65_536),
        (7, 1),
    ] {
        expect(false, &|tables| tables.areas[word] = value);
        expect(true, &|tables| tables.areas[8 + word] = 77);
    }
    // Corners likewise.
    for corner in 0..9 {
        expect(corner > 1, &|tables| tables.xs[corner] = 65_537);
        expect(corner > 1, &|tables| tables.ys[corner] = u32::MAX);
        expect(true, &|tables| tables.xs[corner] = 65_536);
    }
    // Areas and corners in use; the records are not met.
    expect(true, &|tables| tables.plan[0] = u32::MAX);
    expect(true, &|tables| tables.plan[3..].fill(0));
    expect(true, &|tables| tables.plan.truncate(3));
    expect(false, &|tables| tables.plan.truncate(2));
    expect(true, &|tables| tables.plan[1] = 1);
    expect(false, &|tables| tables.plan[1] = 0);
    expect(false, &|tables| tables.plan[1] = 4);
    expect(true, &|tables| tables.plan[2] = 2);
    expect(false, &|tables| tables.plan[2] = 1);
    expect(false, &|tables| tables.plan[2] = 10);
    // "at most what their tables and limits hold"
    let in_longer = |areas: u32, corners: u32| {
        move |tables: &mut Tables| {
            tables.areas.resize(8 * 70, 0);
            tables.xs.resize(2_060, 0);
            tables.ys.resize(2_060, 0);
            (tables.plan[1], tables.plan[2]) = (areas, corners);
        }
    };
    expect(true, &in_longer(64, 2_048));
    expect(false, &in_longer(65, 9));
    expect(false, &in_longer(3, 2_049));
}

/// A start number outside its range is written by a split, and reading it later is 12.
#[test]
fn a_start_number_beyond_its_range() {
    let whole_rows = shortcut(1, 0, 32_768);
    let case = lone_cell(&[area_entry(0, 2_048), whole_rows, shortcut(-1, 5, 6)]).divided(&[0]);
    assert_eq!(
        case.tree.stream(1),
        [area_entry(0, 2_049), shortcut(-1, 5, 6)]
    );
    assert_eq!(case.tree.stream(3), [area_entry(0, 2_048)]);
    assert_eq!(case.find(0, 0), Err((12, 0)));
    assert_eq!(case.find(0, 40_000), Ok(3));
    assert_eq!(case.split(1), Err((12, 0)));
}

// ---- order and places ----

#[test]
fn order_of_7_8_12_and_9() {
    let case = small_tree();
    assert_eq!(case.tree.head[0], 9);
    assert_eq!(case.split(2), Ok(9));
    assert_eq!(case.split(9), Err((8, 0)));
    assert_eq!(case.split(u32::MAX), Err((8, 0)));
    assert_eq!(case.split(0), Err((9, 0)));
    assert_eq!(case.split(1), Err((9, 0)));

    // 7, unequal tables, before all else.
    let broken = case.changed(|case| case.tree.head.clear());
    for case in [&case, &broken] {
        let unequal = case.changed(|case| case.tables.xs.push(0));
        for answer in [
            unequal.open().0,
            unequal.split(99),
            unequal.grow(0, 3).0,
            unequal.find(0, 0),
            unequal.position(0, 0).0,
            unequal.row(0, 0, 0).0,
            unequal.log(&[65_536], &[0], 0).0,
            unequal.log(&[], &[], 0).0,
        ] {
            assert_eq!(answer, Err((7, 0)));
        }
    }
    // A head too short, or none in use: 8, or 12 where no cell number is given.
    for case in [
        case.changed(|case| case.tree.head.truncate(1)),
        case.changed(|case| case.tree.head.clear()),
        case.changed(|case| case.tree.head[0] = 0),
    ] {
        assert_eq!(case.split(0), Err((8, 0)));
        assert_eq!(case.grow(0, 3).0, Err((12, 0)));
        case.readings_refused(0, 0, 12);
    }
    // 7 before 12.
    assert_eq!(broken.find(65_536, 0), Err((7, 0)));
    assert_eq!(broken.find(0, 65_536), Err((7, 0)));
    assert_eq!(broken.find(65_535, 65_535), Err((12, 0)));
    assert_eq!(broken.grow(0, 17).0, Err((7, 0)));
    // 8 before 12, 12 before 9.
    let many = case.changed(|case| case.tree.head[0] = 41);
    assert_eq!(many.split(41), Err((8, 0)));
    assert_eq!(many.split(40), Err((12, 0)));
    assert_eq!(many.split(0), Err((12, 0)));
    let odd = case.changed(|case| case.tree.cells[at(1, 2)] = 3);
    assert_eq!(odd.split(1), Err((12, 0)));
    assert_eq!(odd.split(2), Ok(9));
    assert_eq!(odd.find(0, 0), Err((12, 0)));
    assert_eq!(odd.find(40_000, 0), Ok(2));
}

/// What a split of a cell and a descent through it answer, where one number of a cell is another.
#[test]
fn numbers_of_cells() {
    let case = small_tree();
    let (nine, twelve) = (Err((9, 0)), Err((12, 0)));
    let entries = case.tree.head[1];
    for (cell, word, value, split, found) in [
        // The entry numbers of a split cell are met.
        (0, 5, entries + 1, twelve, twelve),
        (0, 4, u32::MAX, twelve, twelve),
        // Children: the last one too is in use.
        (1, 3, 5, nine, Ok(5)),
        (1, 3, 6, twelve, twelve),
        (1, 3, u32::MAX - 2, twelve, twelve),
        // Children that are not on their own squares are met on the path down.
        (0, 3, 5, nine, twelve),
        // Cell 0 on its own square.
        (0, 2, 32_768, twelve, twelve),
    ] {
        let case = case.changed(|case| case.tree.cells[at(cell, word)] = value);
        assert_eq!(case.split(cell), split, "{cell} {word} {value}");
        assert_eq!(case.find(0, 0), found, "{cell} {word} {value}");
    }
    // A split cell's stream is not met.
    let unread = case.changed(|case| case.tree.entries[0] = 99);
    assert_eq!((unread.split(0), unread.find(0, 0)), (nine, Ok(5)));
    // A child that is not on its quarter is met by a split and by growing too.
    let moved = case.changed(|case| case.tree.cells[at(2, 0)] = 0);
    assert_eq!((moved.split(2), moved.find(40_000, 0)), (twelve, twelve));
    assert_eq!(moved.grow(u32::MAX, 16), (twelve, moved.clone()));
    // Squares: a power of two, on its grid. Cell 5 is the low quarter of cell 1, whose own square is
    // not tried with it.
    for (x, y, side, passes) in [
        (32_768, 0, 0, false),
        (32_768, 0, 131_072, false),
        (65_536, 0, 32_768, false),
        (16_384, 0, 32_768, false),
        (32_768, 8_191, 8_192, false),
        (32_768, 8_192, 8_192, true),
        (0, 0, 65_536, true),
    ] {
        let moved = case.changed(|case| {
            put_square(&mut case.tree, 5, [x, y, side]);
            // Without entries, so that no row is outside.
            empty(&mut case.tree, 5);
        });
        assert_eq!(moved.split(5), twelve, "{x} {y} {side}");
        let along = moved.changed(|case| put_square(&mut case.tree, 1, [x, y, 2 * side]));
        let expected = if passes { Ok(9) } else { twelve };
        assert_eq!(along.split(5), expected, "{x} {y} {side}");
    }
    // A descent meets the cells on its path and the leaf's stream, and nothing else.
    let bad_leaf = case.changed(|case| case.tree.cells[at(4, 5)] = entries);
    assert_eq!(bad_leaf.find(0, 0), Ok(5));
    assert_eq!(bad_leaf.find(40_000, 40_000), twelve);
}

/// 11 exactly where the whole result does not fit; 9 and 12 before it.
#[test]
fn room_for_the_whole_result() {
    let case = small_tree();
    let lent = |cells: usize, entries: usize| {
        case.changed(|case| {
            case.tree.cells.truncate(cells);
            case.tree.entries.truncate(entries);
        })
    };
    let used = ENTRY_WORDS * case.tree.head[1] as usize;
    assert_eq!(lent(CELL_WORDS * 9, used).split(0), Err((9, 0)));
    assert_eq!(lent(CELL_WORDS * 9, used).split(2), Err((11, 0)));
    let entries = ENTRY_WORDS * case.divided(&[2]).tree.head[1] as usize;
    assert!(entries > used);
    assert_eq!(lent(CELL_WORDS * 13, entries).split(2), Ok(9));
    assert_eq!(lent(CELL_WORDS * 13 - 1, entries).split(2), Err((11, 0)));
    assert_eq!(lent(CELL_WORDS * 13, entries - 1).split(2), Err((11, 0)));

    // Opening does not look at what the tree's tables held; 12 before 11.
    let count = case.tree.view().cell(0).count;
    let entries = ENTRY_WORDS * count as usize;
    for (head, cells, entries, expected) in [
        (2, 8, entries, Ok(count)),
        (1, 8, 400, Err((11, 0))),
        (2, 7, 400, Err((11, 0))),
        (2, 8, entries - 1, Err((11, 0))),
    ] {
        let blank = case.changed(|case| {
            case.tree = TreeTables {
                head: vec![u32::MAX; head],
                cells: vec![u32::MAX; cells],
                entries: vec![u32::MAX; entries],
            }
        });
        assert_eq!(blank.open().0, expected);
        let no_drawing = blank.changed(|case| case.tables.plan[0] -= 1);
        assert_eq!(no_drawing.open().0, Err((12, 0)));
    }
}

// ---- cells of side 1 ----

/// A tree that is split down to side 1 at a position, and its leaf there.
fn deep_tree(x: u32, y: u32) -> (Case, u32) {
    let mut case = Case::opened(small_drawing(), 80, 1_000);
    for depth in 0..16 {
        let (found, words) = case.leaf(x, y);
        let leaf = found.expect("a leaf is found");
        assert_eq!((words[3], words[4]), (65_536 >> depth, depth));
        case = case.divided(&[leaf]);
    }
    let (found, words) = case.leaf(x, y);
    let leaf = found.expect("a leaf is found");
    let count = case.tree.view().cell(leaf).count;
    // No line, curve or shortcut is left in a cell of one position.
    assert_eq!(words, [leaf, x, y, 1, 16, count, 0, 1]);
    (case, leaf)
}

/// On lines and corners of the drawing, beside them, and at the ends of the grid; the last is a sample
/// of its pixel.
const DEEP: [(u32, u32); 8] = [
    (0, 0),
    (65_535, 65_535),
    (16_384, 16_384),
    (16_383, 16_384),
    (49_151, 49_151),
    (49_152, 20_000),
    (25_000, 25_000),
    (20_000, 29_987),
];

/// What is read in a leaf of side 1 is what the drawing says with no tree.
#[test]
fn readings_at_side_1() {
    let tables = small_drawing();
    let scene = Scene::of(Drawing::of(&tables));
    let mut shown = 0;
    for (x, y) in DEEP {
        let (case, leaf) = deep_tree(x, y);
        let reading = scene.position(x, y);
        let words = [&shown_words(reading)[..], &[1, x, y, 1]].concat();
        assert_eq!(
            case.position(x, y),
            (Ok(reading.material), words),
            "{x} {y}"
        );
        assert_eq!(case.log(&[x, x], &[y, y], 2), (Ok(1), vec![0, 77]));
        let pixel = scene.pixel(y / PIXEL, x / PIXEL).to_vec();
        let drawn = case.row(y / PIXEL, x / PIXEL, CHANNELS);
        assert_eq!(drawn, (Ok(0), pixel), "{x} {y}");
        shown += u32::from(reading.shown != 0);
        assert_eq!(reading.shown == 0, case.tree.stream(leaf).is_empty());
    }
    assert!((4..DEEP.len() as u32).contains(&shown), "{shown}");
}

/// "Order: ... 12, 9, 10, 11": a leaf of side 1 is refused with 10, whatever room there is.
#[test]
fn refusals_at_side_1() {
    let (nine, ten, twelve) = (Err((9, 0)), Err((10, 0)), Err((12, 0)));
    for (x, y) in DEEP {
        let (case, leaf) = deep_tree(x, y);
        let [cells, entries] = [0, 1].map(|word| case.tree.head[word]);
        assert_eq!(cells, 65);
        assert_eq!(case.split(leaf), ten, "{x} {y}");
        assert_eq!(case.split(cells), Err((8, 0)));
        // 10 before 11, where the same tables have no room for another leaf's children.
        let full_cells = |case: &mut Case| case.tree.cells.truncate(CELL_WORDS * cells as usize);
        let full_entries =
            |case: &mut Case| case.tree.entries.truncate(ENTRY_WORDS * entries as usize);
        let full = case.changed(full_cells);
        let other = (1..5).find(|cell| full.tree.view().cell(*cell).is_leaf());
        assert_eq!(full.split(other.expect("three are leaves")), Err((11, 0)));
        for full in [
            &full,
            &case.changed(full_entries),
            &full.changed(full_entries),
        ] {
            assert_eq!(full.split(leaf), ten);
        }
        // A number out of its range: 12 before 10, and by every reading.
        let parent = case.tree.view().cell(leaf).parent;
        for (word, value) in [
            (0, x ^ 1),
            (1, y ^ 1),
            (2, 0),
            (2, 3),
            (4, entries + 1),
            (LINES_WORD, 1),
            (PARENT_WORD, leaf),
            (PARENT_WORD, parent + 1),
            (PARENT_WORD, cells),
        ] {
            let moved = case.changed(|case| case.tree.cells[at(leaf, word)] = value);
            assert_eq!(moved.split(leaf), twelve, "{word} {value}");
            moved.readings_refused(x, y, 12);
            if word < 2 {
                // Another square of side 1, where its parent is beside it, is a cell's too, but not the
                // one on this path.
                let along = moved.changed(|case| {
                    let low = &mut case.tree.cells[at(parent, word)];
                    *low = low.wrapping_add(value).wrapping_sub([x, y][word]);
                });
                assert_eq!(along.split(leaf), ten, "{word} {value}");
                along.readings_refused(x, y, 12);
            }
        }
        // A first child: split already, before 10; its children's number before that. No child of it
        // is on its own square.
        for (child, split) in [(1, nine), (61, nine), (62, twelve), (u32::MAX, twelve)] {
            let divided = case.changed(|case| case.tree.cells[at(leaf, 3)] = child);
            assert_eq!(divided.split(leaf), split, "{child}");
            divided.readings_refused(x, y, 12);
            let full = divided.changed(full_cells).changed(full_entries);
            assert_eq!(full.split(leaf), split, "{child}");
        }
    }
}

/// A stream that others wrote to a leaf of side 1.
#[test]
fn streams_at_side_1() {
    let (x, y) = (20_000, 29_987);
    let (deep, leaf) = deep_tree(x, y);
    let with = |stream: &[Entry]| {
        deep.changed(|case| {
            let first = case.tree.head[1];
            let words = stream::words(stream);
            case.tree.entries[ENTRY_WORDS * first as usize..][..words.len()]
                .copy_from_slice(&words);
            let count = stream.len() as u32;
            let of_stream = [first, count, stream::lines(stream)];
            case.tree.cells[at(leaf, 4)..=at(leaf, LINES_WORD)].copy_from_slice(&of_stream);
            case.tree.head[1] += count;
        })
    };
    let paint = area_entry(2, 0);
    for (stream, passes) in [
        (vec![], true),
        (vec![paint, line(0, 1), shortcut(-1, y, y + 1)], true),
        (vec![paint, shortcut(1, y, y + 2)], false),
        (vec![paint, shortcut(1, y, y)], false),
        (vec![paint, shortcut(1, y - 1, y)], false),
        (vec![paint, line(0, 10)], false),
        (vec![area_entry(3, 0)], false),
        (vec![area_entry(2, 2_049)], false),
        (vec![Entry::Passes], false),
        (vec![Entry::Open], false),
    ] {
        let case = with(&stream);
        let number = if passes { 10 } else { 12 };
        let full = case.changed(|case| {
            case.tree.cells.truncate(CELL_WORDS * 65);
            let entries = case.tree.head[1] as usize;
            case.tree.entries.truncate(ENTRY_WORDS * entries);
        });
        for case in [&case, &full] {
            assert_eq!(case.split(leaf), Err((number, 0)), "{stream:?}");
            for answer in case.readings(x, y) {
                assert_eq!(answer.is_ok(), passes, "{stream:?}");
                assert!(passes || answer == Err((12, 0)), "{stream:?}");
            }
        }
        // A count that differs is 12 before 10.
        let other = case.changed(|case| case.tree.cells[at(leaf, LINES_WORD)] += 1);
        assert_eq!(other.split(leaf), Err((12, 0)), "{stream:?}");
        other.readings_refused(x, y, 12);
        // A split cell's stream is not met, nor is its count.
        for case in [&case, &other] {
            let divided = case.changed(|case| case.tree.cells[at(leaf, 3)] = 1);
            assert_eq!(divided.split(leaf), Err((9, 0)), "{stream:?}");
        }
    }
    // Growing leaves it alone, however many lines it has: its depth is not below 16.
    let lines = |cell: &u32| stream::lines(&deep.tree.stream(*cell));
    let most = deep.tree.leaves().iter().map(lines).max().unwrap_or(0);
    let many = [vec![paint], vec![line(0, 1); most as usize + 1]].concat();
    assert_eq!(with(&many).grow(most, 16), (Ok(0), with(&many)));
}

// ---- limits ----

/// "The caller's tables hold so many whole cells (up to 4,096) and entries (up to 65,536)."
#[test]
fn tables_longer_than_their_limits() {
    let small = small_tree();
    let more = small.divided(&[2]).tree.head[1] - small.tree.head[1];
    let with = |cells: u32, entries: u32| {
        small.changed(|case| {
            case.tree.cells.resize(CELL_WORDS * 4_200, 0);
            case.tree.entries.resize(ENTRY_WORDS * 70_000, 0);
            case.tree.head = vec![cells, entries];
        })
    };
    for (cells, entries, answer) in [
        (4_092, 1_000, Ok(4_092)),
        (4_093, 1_000, Err((11, 0))),
        (4_096, 1_000, Err((11, 0))),
        (4_097, 1_000, Err((12, 0))),
        (9, 65_536 - more, Ok(9)),
        (9, 65_536 - more + 1, Err((11, 0))),
        (9, 65_536, Err((11, 0))),
        (9, 65_537, Err((12, 0))),
    ] {
        let case = with(cells, entries);
        assert_eq!(case.split(2), answer, "{cells} {entries}");
        let found = if answer == Err((12, 0)) {
            answer
        } else {
            Ok(5)
        };
        assert_eq!(case.find(0, 0), found, "{cells} {entries}");
    }
    // Words that make no whole cell or entry do not count.
    let mut less = small.clone();
    less.tree.cells.truncate(CELL_WORDS * 9 - 1);
    assert_eq!(less.find(0, 0), Err((12, 0)));
    less.tree.head[0] = 8;
    assert_eq!(less.split(2), Err((11, 0)));
}

/// Takes all 4,096 cells in use: behind the first nine of the small tree quarters of quarters without
/// entries, so that growing passes them. The last three have no fourth: their parent holds the cell
/// before them too, which has another parent.
fn take_all_cells(tree: &mut TreeTables) {
    let (mut next, mut parent) = (9, 2);
    while next < 4_096 {
        // These two stay leaves.
        if parent != 4 && parent != 8 {
            let child = next.min(4_092);
            tree.cells[at(parent, 3)] = child;
            let quarters = tree.view().cell(parent).square.quarters();
            let quarters = quarters.expect("a side above 1");
            let unused = (child..).zip(quarters).filter(|(cell, _)| *cell >= next);
            for (cell, square) in unused {
                let leaf = Cell::leaf(square, 0, &[], parent);
                put_cell(&mut tree.cells, cell as usize, leaf);
            }
            next = child + 4;
        }
        parent += 1;
    }
    tree.head[0] = next;
}

/// "areas, corners and entries in use at most what their tables and limits hold": in tables that
/// hold more, so that the limit refuses and not the length.
#[test]
fn numbers_in_use_at_their_limits_and_beyond() {
    let ample = small_tree().changed(|case| {
        let Case { tables, tree } = case;
        tables.areas.resize(AREA_WORDS * 70, 0);
        tables.xs.resize(2_060, 0);
        tables.ys.resize(2_060, 0);
        tree.cells.resize(at(4_200, 0), 0);
        tree.entries.resize(ENTRY_WORDS * 70_000, 0);
    });
    let all_cells = ample.changed(|case| take_all_cells(&mut case.tree));
    assert_eq!(all_cells.tree.head[0], 4_096);
    let leaf = ample.find(40_000, 40_000).expect("a leaf is found");
    type Word = fn(&mut Case) -> &mut u32;
    let words: [(&Case, Word, u32, u32); 4] = [
        (&ample, |case| &mut case.tables.plan[1], 64, 4),
        (&ample, |case| &mut case.tables.plan[2], 2_048, 4),
        (&all_cells, |case| &mut case.tree.head[0], 4_096, 0),
        (&ample, |case| &mut case.tree.head[1], 65_536, 4),
    ];
    for (case, word, limit, room) in words {
        let most = case.changed(|case| *word(case) = limit);
        for answer in most.readings(40_000, 40_000) {
            assert!(answer.is_ok(), "{limit}: {answer:?}");
        }
        assert_eq!(most.split(0), Err((9, 0)), "{limit}");
        assert_eq!(most.grow(u32::MAX, 16), (Ok(0), most.clone()), "{limit}");
        // A leaf without entries asks for no entry, and four cells.
        let without = most.changed(|case| empty(&mut case.tree, leaf));
        let cells = without.tree.head[0];
        let expected = if room > 0 { Ok(cells) } else { Err((11, 0)) };
        assert_eq!(without.split(leaf), expected, "{limit}");

        let beyond = case.changed(|case| *word(case) = limit + 1);
        beyond.readings_refused(40_000, 40_000, 12);
        for cell in [0, leaf] {
            assert_eq!(beyond.split(cell), Err((12, 0)), "{limit}");
        }
        assert_eq!(beyond.grow(u32::MAX, 16), (Err((12, 0)), beyond.clone()));
        // 7 and 8 come before, and no position or pixel meets no number.
        assert_eq!(beyond.split(beyond.tree.head[0]), Err((8, 0)), "{limit}");
        assert_eq!(beyond.grow(0, 17).0, Err((7, 0)), "{limit}");
        beyond.readings_refused(65_536, 0, 7);
        assert_eq!(beyond.log(&[], &[], 0).0, Ok(0), "{limit}");
        assert_eq!(beyond.row(0, 0, 0).0, Ok(0), "{limit}");
    }
    // The last split that there is room for.
    let last = ample.changed(|case| {
        case.tree.head = vec![4_092, 65_536];
        empty(&mut case.tree, leaf);
    });
    let after = last.divided(&[leaf]);
    assert_eq!(after.tree.head, [4_096, 65_536]);
    assert_eq!(after.find(40_000, 40_000), Ok(4_092));
    assert_eq!(after.find(20_000, 20_000), Ok(8));
    assert_eq!(after.split(4_095), Err((11, 0)));
}

/// A drawing as large as it may be is written out and opened; one with another area, corner, record or
/// open group is refused, though the tables have room for it.
#[test]
fn drawings_at_their_limits_and_beyond() {
    let contour = |corners: usize| format!("p2{}", "3".repeat(corners - 1));
    let groups = |deep: usize| "(".repeat(deep) + &"|)".repeat(deep);
    let records = |paints: usize| "p".repeat(paints) + &"(|)".repeat(1_365);
    for (most, beyond, met_by_trees) in [
        ("p".repeat(64), "p".repeat(65), true),
        (contour(2_048), contour(2_049), true),
        (records(1), records(2), false),
        (groups(8), groups(9), false),
    ] {
        let longer = |text: &str| {
            let mut tables = samples::tables(&letters(text));
            tables.plan.resize(5_000, 4);
            tables.areas.resize(AREA_WORDS * 70, 0);
            tables.xs.resize(2_060, 0);
            tables.ys.resize(2_060, 0);
            tables
        };
        let records = most.len() as u32;
        let most = Case::opened(longer(&most), 9, 4_096);
        assert_eq!(most.write(16 * records as usize), Ok(16 * records));
        assert!(most.readings(9, 9).iter().all(Result::is_ok));
        let beyond = most.changed(|case| case.tables = longer(&beyond));
        assert_eq!(beyond.open(), (Err((12, 0)), beyond.clone()));
        assert_eq!(beyond.write(16 * records as usize + 32), Err((12, 0)));
        // 12 before 11.
        assert_eq!(beyond.write(0), Err((12, 0)));
        match met_by_trees {
            true => beyond.readings_refused(9, 9, 12),
            false => assert_eq!(beyond.readings(9, 9), most.readings(9, 9)),
        }
    }
}

// ---- growing, pixel rows, logs ----

#[test]
fn growing_and_its_refusals() {
    let case = small_tree();
    // A leaf that does not pass is met after the splits of lower cells, which remain.
    let damaged = case.changed(|case| case.tree.cells[at(4, 5)] = case.tree.head[1] + 1);
    let expected = (Err((12, 0)), damaged.divided(&[2, 3]));
    assert_eq!(damaged.grow(0, 2), expected);
    // Thin and deep leaves are read too, without their streams.
    for (threshold, limit) in [(u32::MAX, 16), (0, 0)] {
        let grown = damaged.grow(threshold, limit);
        assert_eq!(grown, (Err((12, 0)), damaged.clone()));
    }
    let first = case.tree.view().cell(4).first as usize;
    let unread = case.changed(|case| case.tree.entries[ENTRY_WORDS * first] = 99);
    let miscounted = case.changed(|case| case.tree.cells[at(4, LINES_WORD)] += 1);
    for case in [unread, miscounted] {
        for (threshold, limit) in [(u32::MAX, 16), (0, 0), (0, 1)] {
            assert_eq!(case.grow(threshold, limit), (Ok(0), case.clone()));
        }
        assert_eq!(case.grow(0, 2), (Err((12, 0)), case.divided(&[2, 3])));
        // 12 before 11: the splits of cells 2 and 3 leave no room for those of cell 4.
        let full = case.changed(|case| case.tree.cells.truncate(at(17, 0)));
        assert_eq!(full.grow(0, 2), (Err((12, 0)), full.divided(&[2, 3])));
    }
    // Depth 0 splits nothing, depth 1 cell 0 alone.
    let fresh = Case::opened(small_drawing(), 40, 1_000);
    assert_eq!(fresh.grow(0, 0), (Ok(0), fresh.clone()));
    let divided = fresh.divided(&[0]);
    assert_eq!(fresh.grow(0, 1), (Ok(1), divided.clone()));
    assert_eq!(divided.grow(0, 1), (Ok(0), divided.clone()));
    // As many lines as the threshold are not more.
    let most = stream::lines(&fresh.tree.stream(0));
    assert_eq!(fresh.grow(most, 1), (Ok(0), fresh.clone()));
    assert_eq!(fresh.grow(most - 1, 1), (Ok(1), divided));
    // Full at once, and full after some.
    for (cells, splits) in [(1, 0), (4, 0), (5, 1), (12, 2), (13, 3)] {
        let case = Case::opened(small_drawing(), cells, 1_000);
        assert_eq!(case.grow(0, 16).0, Ok(FULL + splits));
    }
}

#[test]
fn pixel_rows_and_their_refusals() {
    let case = small_tree();
    let broken = case.changed(|case| case.tree.head[0] = 0);
    let untouched = |bytes: usize| vec![0xA5; bytes];
    for (number, first, bytes, answer) in [
        (4_095, 4_095, 3, Ok(0)),
        (4_095, 4_096, 0, Ok(0)),
        (0, 0, 0, Ok(0)),
        (4_096, 0, 3, Err((7, 0))),
        (4_096, 0, 0, Err((7, 0))),
        (0, 4_096, 3, Err((7, 0))),
        (0, 4_095, 6, Err((7, 0))),
        (0, 4_097, 0, Err((7, 0))),
        (0, u32::MAX, 3, Err((7, 0))),
        (0, 0, 1, Err((7, 0))),
        (0, 0, 4, Err((7, 0))),
        (0, 0, 3 * 4_097, Err((7, 0))),
    ] {
        let (found, out) = case.row(number, first, bytes);
        assert_eq!(found, answer, "{number} {first} {bytes}");
        assert!(found.is_ok() || out == untouched(bytes));
        // 7 before 12; no pixel meets no number.
        let expected = match answer {
            Ok(_) if bytes > 0 => Err((12, 0)),
            answer => answer,
        };
        let found = broken.row(number, first, bytes);
        assert_eq!(found, (expected, untouched(bytes)));
    }
    // 12 at a pixel: earlier ones stand, the rest are untouched.
    let bad_leaf = case.changed(|case| case.tree.cells[at(2, 2)] = 16_384);
    let (answer, whole) = case.row(100, 2_040, 3 * 20);
    assert_eq!(answer, Ok(0));
    let stand = [&whole[..24], &untouched(36)[..]].concat();
    assert_eq!(bad_leaf.row(100, 2_040, 3 * 20), (Err((12, 8)), stand));
}

#[test]
fn logs_and_their_refusals() {
    let case = small_tree();
    let broken = case.changed(|case| case.tree.head[0] = 0);
    let bad_leaf = case.changed(|case| case.tree.cells[at(2, 2)] = 16_384);
    assert_eq!(case.log(&[], &[], 1), (Ok(0), vec![77]));
    assert_eq!(broken.log(&[], &[], 1), (Ok(0), vec![77]));
    assert_eq!(broken.log(&[], &[0], 1), (Err((7, 0)), vec![77]));
    assert_eq!(case.log(&[0, 65_536], &[0], 1), (Err((7, 0)), vec![77]));
    let (px, py) = ([0, 1, 65_536, 65_536], [0, 65_535, 0, 65_536]);
    for case in [&case, &broken, &bad_leaf] {
        assert_eq!(case.log(&px, &py, 0), (Err((7, 2)), vec![]));
    }
    // Outside, in the square, in the square, outside again.
    let (px, py) = (
        [65_000, 40_000, 41_000, 65_000],
        [65_000, 40_000, 40_000, 65_000],
    );
    assert_eq!(case.log(&px, &py, 4), (Ok(3), vec![0, 1, 3, 77]));
    assert_eq!(case.log(&px, &py, 2), (Err((11, 0)), vec![77; 2]));
    // All positions by 12 before 11, and before any index is written; its place is 0.
    let (px, py) = ([0, 0, 40_000], [0; 3]);
    assert_eq!(bad_leaf.log(&px, &py, 0), (Err((12, 0)), vec![]));
    assert_eq!(bad_leaf.log(&px, &py, 3), (Err((12, 0)), vec![77; 3]));
    let refused = bad_leaf.log(&px[..2], &py[..2], 0);
    assert_eq!(refused, (Err((11, 0)), vec![]));
}
