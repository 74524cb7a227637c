//! The second implementation of the tree against itself: every reading from the tree against the one
//! with no tree, and the leaf lister.

use zones_tests::class::Square;
use zones_tests::drawing::{refusal, Refusal, MOST_RECORDS};
use zones_tests::expect;
use zones_tests::foreign;
use zones_tests::lister;
use zones_tests::machine;
use zones_tests::meaning::{Drawing, Item, Reading, Scene, Side};
use zones_tests::query::{self, Spot};
use zones_tests::random::Random;
use zones_tests::record::letters;
use zones_tests::samples::{self, Tables};
use zones_tests::scenes::{self, painted, square_at, Look};
use zones_tests::stream::{self, Piece};
use zones_tests::tally::Tally;
use zones_tests::tree::{self, End, Growth, TreeTables};

#[test]
fn the_lister() {
    let quarter = painted(255, [0; 3], square_at(0, 0, 32_768));
    let expected = "1 0 32768 1 0\n2 1073741824 32768 0 0\n\
                    3 2147483648 32768 0 0\n4 3221225472 32768 0 0\n";
    assert_eq!(lister::list(&quarter.concat()), expected);
    assert_eq!(lister::list(&[]), "0 0 65536 0 0\n");
    assert_eq!(lister::list(&[0; 15]), "refused 1 at 0\n");
    assert_eq!(lister::list(&letters("p2").concat()), "refused 5 at 2\n");
    let most = letters(&format!("p{}", "(|)".repeat(1_365)));
    assert_eq!(lister::list(&most.concat()), "0 0 65536 0 0\n");
    let over = letters(&"p".repeat(MOST_RECORDS + 1));
    assert_eq!(lister::list(&over.concat()), "refused 1 at 0\n");

    // In key order, each leaf once, on "full" too.
    let random = &mut Random::for_test(40);
    let mut tally = Tally::default();
    for round in 0..120 {
        let look = match round % 2 {
            0 => Look::fullest(random),
            _ => Look::any(random),
        };
        let text = lister::list(&scenes::of(random, &look).concat());
        let full = text.ends_with("\nfull\n");
        tally.note(if full { "full" } else { "done" }.to_string());
        let leaves = text.lines().filter(|line| *line != "full");
        let leaves: Vec<Vec<u64>> = leaves
            .map(|line| line.split(' ').map(|n| n.parse().unwrap()).collect())
            .collect();
        let mut next = 0;
        for leaf in leaves {
            let [_, key, side, entries, lines] = leaf[..] else {
                panic!("five numbers: {text}");
            };
            // A leaf begins in the order of keys where the one before it ends.
            assert_eq!(key, next, "{text}");
            next += side * side;
            assert!(lines <= entries);
            assert!(lines == 0 || side == 65_536 >> 4 || full, "{text}");
        }
        assert_eq!(next, 1 << 32);
    }
    tally.print("lister");
    tally.reached("full", 2);
    tally.reached("done", 10);
}

// ---- the tree against no tree ----

/// Tables for a tree, full of other words.
fn blank_tree(random: &mut Random, cells: usize, entries: usize) -> TreeTables {
    let mut tree = TreeTables::new(cells, entries);
    for table in [&mut tree.head, &mut tree.cells, &mut tree.entries] {
        let more = random.below(8);
        table.extend((0..more).map(|_| 0));
        for word in table {
            *word = random.word();
        }
    }
    tree
}

/// What stands on a side and in its groups, in order.
fn all_on<T>(side: &Side<T>) -> Vec<&T> {
    side.iter()
        .flat_map(|item| match item {
            Item::One(one) => vec![one],
            Item::Group { left, right } => [all_on(left), all_on(right)].concat(),
        })
        .collect()
}

/// A position's leaf, windings and reading are those with no tree.
fn expect_position(scene: &Scene, tree: &TreeTables, x: u32, y: u32) {
    let drawing = scene.drawing;
    let leaf = tree::find_leaf(drawing, tree.view(), x, y).expect("a leaf is found");
    let cell = tree.view().cell(leaf.cell);
    assert!(cell.is_leaf() && cell.square == leaf.square && leaf.square.holds(x, y));
    assert_eq!(leaf.steps, leaf.square.depth());
    assert_eq!(leaf.stream, tree.stream(leaf.cell));
    let drawn = all_on(&scene.top);
    for piece in all_on(&stream::sides_of(&leaf.stream)) {
        if let Piece::Area {
            number,
            start,
            segments,
        } = piece
        {
            let winding = stream::winding(drawing, *start, segments, x, y);
            assert_eq!(winding, Scene::winding(drawn[*number as usize], x, y));
        }
    }
    let spot = Spot {
        reading: scene.position(x, y),
        uniform: leaf.uniform(),
        square: leaf.square,
    };
    let found = query::position(drawing, tree.view(), x, y);
    assert_eq!(found, Ok(spot), "at {x}, {y}");
}

/// The history of a tree: which squares and parents its cells have.
struct History {
    squares: Vec<Square>,
    parents: Vec<u32>,
    leaf: Vec<bool>,
}

impl History {
    fn new() -> History {
        History {
            squares: vec![Square::WHOLE],
            parents: vec![0],
            leaf: vec![true],
        }
    }

    fn split(&mut self, number: u32) {
        self.leaf[number as usize] = false;
        let quarters = self.squares[number as usize].quarters();
        self.squares.extend(quarters.expect("a side above 1"));
        self.parents.extend([number; 4]);
        self.leaf.extend([true; 4]);
    }

    /// The tree has these cells, and each leaf's stream and line count are the drawing's in its
    /// square.
    fn expect(&self, drawing: Drawing, tree: &TreeTables, streams: bool) {
        assert_eq!(tree.head[0] as usize, self.squares.len());
        for (number, square) in self.squares.iter().enumerate() {
            let cell = tree.view().cell(number as u32);
            assert_eq!((cell.square, cell.is_leaf()), (*square, self.leaf[number]));
            assert_eq!(cell.parent, self.parents[number]);
            if cell.is_leaf() && streams {
                let stream = tree.stream(number as u32);
                assert_eq!(stream, tree::stream_in(drawing, *square), "{square:?}");
                assert_eq!(cell.lines, stream::lines(&stream), "{square:?}");
            }
        }
    }
}

/// One leaf, rather one with lines, rather one at a position near the drawing.
fn pick_leaf(random: &mut Random, tables: &Tables, tree: &TreeTables) -> u32 {
    if random.one_in(3) {
        return random.pick(&tree.leaves());
    }
    let (x, y) = scenes::position(random, tables);
    let found = tree::find_leaf(Drawing::of(tables), tree.view(), x, y);
    found.expect("a leaf is found").cell
}

#[test]
fn readings_from_the_tree_are_those_with_no_tree() {
    let random = &mut Random::for_test(45);
    let mut tally = Tally::default();
    for _ in 0..2_000 {
        let tables = scenes::tables(random);
        let drawing = Drawing::of(&tables);
        let scene = Scene::of(drawing);
        let cells = random.pick(&[1, 5, 30, 100, 300]);
        let entries = random.pick(&[50, 300, 3_000]);
        let mut tree = blank_tree(random, cells, entries);
        let mut history = History::new();
        let before = tree.clone();
        let opened = tree::open(drawing, &mut tree.lend());
        if opened == Err(refusal(11, 0)) {
            assert!(tree == before);
            tally.note("open 11".to_string());
            continue;
        }
        assert_eq!(opened, Ok(()));
        for _ in 0..random.within(1..=8) {
            match random.below(4) {
                0 => random_grow(random, drawing, &mut tree, &mut history, &mut tally),
                1 => _ = tree::open(drawing, &mut TreeTables::new(0, 0).lend()),
                _ => {
                    let number = pick_leaf(random, &tables, &tree);
                    expect_split(drawing, &mut tree, &mut history, &mut tally, number);
                }
            }
            history.expect(drawing, &tree, false);
        }
        history.expect(drawing, &tree, true);
        for _ in 0..60 {
            let (x, y) = scenes::position(random, &tables);
            expect_position(&scene, &tree, x, y);
        }
        for _ in 0..3 {
            expect_pixels(random, &scene, &tables, &tree);
            expect_log(random, &scene, &tables, &tree);
        }
        tally.note("drawings".to_string());
    }
    tally.print("tree");
    for what in ["drawings", "split", "split 11", "split 9", "done", "full"] {
        tally.reached(what, 100);
    }
}

fn expect_split(
    drawing: Drawing,
    tree: &mut TreeTables,
    history: &mut History,
    tally: &mut Tally,
    number: u32,
) {
    let before = tree.clone();
    let cells = before.head[0];
    match tree::split(drawing, &mut tree.lend(), number) {
        Ok(first) => {
            tally.note("split".to_string());
            assert_eq!(first, cells);
            history.split(number);
            expect::split_words(&before, tree, number);
            let again = tree.clone();
            let refused = tree::split(drawing, &mut tree.lend(), number);
            assert_eq!(refused, Err(refusal(9, 0)));
            tally.note("split 9".to_string());
            assert!(*tree == again);
        }
        Err(Refusal { number: why, .. }) => {
            tally.note(format!("split {why}"));
            assert!(*tree == before);
            let side = before.view().cell(number).square.side;
            assert_eq!(why, if side == 1 { 10 } else { 11 });
        }
    }
    let cells = tree.head[0];
    let refused = tree::split(drawing, &mut tree.lend(), cells);
    assert_eq!(refused, Err(refusal(8, 0)));
}

/// Growing, and the same splits made by hand.
fn random_grow(
    random: &mut Random,
    drawing: Drawing,
    tree: &mut TreeTables,
    history: &mut History,
    tally: &mut Tally,
) {
    let threshold = random.pick(&[0, 0, 1, 2, 5, 20]);
    let limit = random.pick(&[0, 1, 2, 3, 4, 6, 16]);
    let mut by_hand = tree.clone();
    let growth = tree::grow(drawing, &mut tree.lend(), threshold, limit);
    let Growth { end, splits } = growth.expect("growing is accepted");
    // One sweep upward finds the same leaves as beginning from cell 0 each time.
    let mut made = 0;
    let mut number = 0;
    let mut full = false;
    while number < by_hand.head[0] {
        let cell = by_hand.view().cell(number);
        let lines = stream::lines(&by_hand.stream(number));
        if cell.is_leaf() && lines > threshold && cell.square.depth() < limit {
            if tree::split(drawing, &mut by_hand.lend(), number).is_err() {
                full = true;
                break;
            }
            history.split(number);
            made += 1;
        }
        number += 1;
    }
    assert_eq!((end == End::Full, splits), (full, made));
    assert!(*tree == by_hand);
    tally.note(if full { "full" } else { "done" }.to_string());
}

fn expect_pixels(random: &mut Random, scene: &Scene, tables: &Tables, tree: &TreeTables) {
    let (x, y) = scenes::position(random, tables);
    let (row, first) = (y / 16, (x / 16).min(4_096 - 3));
    let pixels = random.within(0..=3);
    let mut out = [0xA5; 9];
    let drawn = query::pixel_row(
        scene.drawing,
        tree.view(),
        row,
        first,
        &mut out[..3 * pixels],
    );
    assert_eq!(drawn, Ok(()));
    for (i, found) in out.as_chunks::<3>().0.iter().enumerate() {
        let expected = match i < pixels {
            true => scene.pixel(row, first + i as u32),
            false => [0xA5; 3],
        };
        assert_eq!(*found, expected);
    }
}

fn expect_log(random: &mut Random, scene: &Scene, tables: &Tables, tree: &TreeTables) {
    let len = random.below(20);
    let (px, py) = scenes::run(random, tables, len);
    let expected = scene.zone_log(&px, &py);
    let room = expected.len() + random.below(4);
    let mut out = vec![77; room];
    let logged = query::zone_log(scene.drawing, tree.view(), &px, &py, &mut out);
    assert_eq!(logged, Ok(expected.len() as u32));
    assert_eq!(out[..expected.len()], expected);
    assert!(out[expected.len()..].iter().all(|word| *word == 77));
    if !expected.is_empty() {
        let mut short = vec![77; expected.len() - 1];
        let refused = query::zone_log(scene.drawing, tree.view(), &px, &py, &mut short);
        assert_eq!(refused, Err(refusal(11, 0)));
        assert!(short.iter().all(|word| *word == 77));
    }
}

/// Small drawings, split down to side 1 where they lie, read at every position.
#[test]
fn every_position_of_small_drawings() {
    let random = &mut Random::for_test(46);
    let mut deepest = 0;
    for _ in 0..60 {
        let base = scenes::square_in(random, Square::WHOLE, 13);
        let look = Look {
            base,
            step: random.pick(&[1, 2]),
            beside: 0,
            areas: 6,
            ..Look::any(random)
        };
        let tables = samples::tables(&scenes::of(random, &look));
        let drawing = Drawing::of(&tables);
        let scene = Scene::of(drawing);
        let mut tree = TreeTables::new(400, 9_000);
        assert_eq!(tree::open(drawing, &mut tree.lend()), Ok(()));
        let grown = tree::grow(drawing, &mut tree.lend(), 0, 16);
        assert!(grown.is_ok());
        for _ in 0..20 {
            let x = base.x + random.below(8) as u32;
            let y = base.y + random.below(8) as u32;
            let leaf = tree::find_leaf(drawing, tree.view(), x, y).unwrap();
            _ = tree::split(drawing, &mut tree.lend(), leaf.cell);
        }
        for x in base.x..base.x + 8 {
            for y in base.y..base.y + 8 {
                expect_position(&scene, &tree, x, y);
                let leaf = tree::find_leaf(drawing, tree.view(), x, y).unwrap();
                deepest = deepest.max(leaf.steps);
                // "cell of side 1": its stream has no line, as one position has all or none.
                if leaf.square.side == 1 {
                    assert_eq!(leaf.lines(), 0);
                    let refused = tree::split(drawing, &mut tree.lend(), leaf.cell);
                    assert_eq!(refused, Err(refusal(10, 0)));
                }
            }
        }
    }
    assert_eq!(deepest, 16);
}

/// The largest drawings, opened, split a few times and read.
#[test]
fn the_largest_drawings() {
    let random = &mut Random::for_test(47);
    for _ in 0..4 {
        let records = match random.one_in(2) {
            true => samples::fullest(random),
            false => {
                let look = Look::fullest(random);
                scenes::of(random, &look)
            }
        };
        let tables = samples::tables(&records);
        let drawing = Drawing::of(&tables);
        let scene = Scene::of(drawing);
        let mut tree = TreeTables::new(40, 40_000);
        assert_eq!(tree::open(drawing, &mut tree.lend()), Ok(()));
        for _ in 0..4 {
            let number = pick_leaf(random, &tables, &tree);
            _ = tree::split(drawing, &mut tree.lend(), number);
        }
        for _ in 0..30 {
            let (x, y) = scenes::position(random, &tables);
            expect_position(&scene, &tree, x, y);
        }
    }
}

// ---- tables written by others ----

#[test]
fn trees_written_by_others() {
    let random = &mut Random::for_test(51);
    let mut tally = Tally::default();
    for _ in 0..800 {
        let tables = scenes::tables(random);
        let drawing = Drawing::of(&tables);
        let splits = random.below(12);
        let tree = foreign::tree(random, &tables, splits);
        for _ in 0..10 {
            let (x, y) = scenes::position(random, &tables);
            match tree::find_leaf(drawing, tree.view(), x, y) {
                Err(refused) => {
                    assert_eq!(refused, refusal(12, 0));
                    tally.note("12".to_string());
                }
                Ok(leaf) => {
                    tally.note("found".to_string());
                    assert!(leaf.square.holds(x, y));
                    let shown = machine::shown(drawing, &leaf.stream, x, y);
                    let read = |tree: &TreeTables| {
                        let spot = query::position(drawing, tree.view(), x, y);
                        spot.map(|spot| spot.reading)
                    };
                    let reading = read(&tree);
                    assert_eq!(reading, Ok(Reading::of_set(drawing, shown)));
                    // A split of the leaf changes no reading, unless a start passes its range.
                    let mut after = tree.clone();
                    match tree::split(drawing, &mut after.lend(), leaf.cell) {
                        Ok(_) => {
                            expect::split_words(&tree, &after, leaf.cell);
                            let again = read(&after);
                            if again != reading {
                                assert_eq!(again, Err(refusal(12, 0)));
                                tally.note("start out of range".to_string());
                            } else {
                                tally.note("split".to_string());
                            }
                        }
                        Err(refused) => {
                            assert_eq!(refused, refusal(11, 0));
                            tally.note("11".to_string());
                        }
                    }
                }
            }
        }
        let mut calls = Tally::default();
        expect::all_calls(random, &tables, &tree, &mut calls);
    }
    tally.print("trees of others");
    tally.reached("found", 1_000);
    tally.reached("split", 500);
    tally.reached("start out of range", 3);
}
