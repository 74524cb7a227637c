//! Document 02, Item 4: the yes or no of a leaf, the low corner and side that positions hand on, what a yes means, and that
//! zone logs and pixel rows "report what they did". The library against the second implementation and, where the tree was made
//! from a drawing, against the drawing with no tree.

use std::iter;

use zones_tests::class::Square;
use zones_tests::compare::LEAF_WORDS;
use zones_tests::drawing::{BAR, CLIP, CLOSE, OPEN, PAINT};
use zones_tests::foreign;
use zones_tests::lent::{any_bytes, lent_bytes, lent_words};
use zones_tests::meaning::{self, Drawing, Reading, Scene, MOST_POSITION, PIXEL};
use zones_tests::pages;
use zones_tests::query::{CHANNELS, PIXELS};
use zones_tests::random::Random;
use zones_tests::readings::{shown_words, Reader, SHOWN_WORDS, SPOT_WORDS};
use zones_tests::record::{area, corner, delimiter, Record};
use zones_tests::sample::Sample;
use zones_tests::samples::{self, Tables};
use zones_tests::scenes::{self, contour, painted, square_at, Look};
use zones_tests::stream::{self, Entry, ENTRY_WORDS, MOST_START};
use zones_tests::tally::Tally;
use zones_tests::tree::{put_cell, Cell, Leaf, TreeTables, CELL_WORDS, LINES_WORD, PARENT_WORD};
use zones_tests::zones::{self, Answer};

const TWELVE: Answer = Answer::Refused {
    number: 12,
    place: 0,
};

// ---- leaves and their positions ----

/// The leaves of a sample, each found at its low corner; those that 12 meets are left out.
fn leaves(sample: &Sample) -> Vec<Leaf> {
    let tree = sample.tree.tables();
    let low = |cell: u32| {
        let Square { x, y, .. } = tree.view().cell(cell).square;
        (x, y)
    };
    let found = tree.leaves().into_iter().map(low);
    found.filter_map(|at| sample.leaf_at(at)).collect()
}

fn within(random: &mut Random, low: u32, side: u32) -> u32 {
    low + random.below(side as usize) as u32
}

/// Any position of a square.
fn inside(random: &mut Random, square: Square) -> (u32, u32) {
    let Square { x, y, side } = square;
    (within(random, x, side), within(random, y, side))
}

/// A position on a side of a square: its low and its high ones are those of its first and last row and column.
fn on_side(random: &mut Random, square: Square) -> (u32, u32) {
    let Square { x, y, side } = square;
    let (mut at, high) = (inside(random, square), side - 1);
    match random.below(6) {
        0 => at.0 = x,
        1 => at.0 = x + high,
        2 => at.1 = y,
        3 => at.1 = y + high,
        4 => at = (x, y),
        _ => at = (x + high, y + high),
    }
    at
}

fn all_positions(square: Square) -> impl Iterator<Item = (u32, u32)> {
    let Square { x, y, side } = square;
    (y..y + side).flat_map(move |y| (x..x + side).map(move |x| (x, y)))
}

fn border(square: Square) -> impl Iterator<Item = (u32, u32)> {
    let Square { x, y, side } = square;
    let (right, top) = (x + side - 1, y + side - 1);
    let level = (x..=right).flat_map(move |at| [(at, y), (at, top)]);
    let upright = (y..=top).flat_map(move |at| [(x, at), (right, at)]);
    level.chain(upright)
}

/// The words of a position by the library and the second implementation.
fn spot(reader: &mut Reader, random: &mut Random, at: (u32, u32)) -> [u32; SPOT_WORDS] {
    let blank = lent_words(random, &[77; SPOT_WORDS]);
    let (answer, out) = reader.position(at, &blank);
    assert!(matches!(answer, Answer::Accepted(_)), "{answer:?} {at:?}");
    *out.table().first_chunk().expect("ten words")
}

/// The square and the yes or no of a position's words.
fn reach(words: [u32; SPOT_WORDS]) -> (bool, Square) {
    let [.., uniform, x, y, side] = words;
    assert!(uniform <= 1);
    (uniform == 1, Square { x, y, side })
}

/// "A yes means that each position of the leaf has this shown set, material and colour." At some positions of the square that an
/// answer names, all ten words are the same again, and what shows is what shows with no tree.
fn expect_the_same(
    (random, reader, scene): (&mut Random, &mut Reader, &Scene),
    words: [u32; SPOT_WORDS],
    positions: impl Iterator<Item = (u32, u32)>,
) {
    for (x, y) in positions {
        assert_eq!(spot(reader, random, (x, y)), words, "{x}, {y}");
        let shown = shown_words(scene.position(x, y));
        assert_eq!(words[..SHOWN_WORDS], shown, "{x}, {y}");
    }
}

/// A sample opened over a drawing, with room to grow.
fn opened(random: &mut Random, tables: &Tables, cells: usize, entries: usize) -> Sample {
    let mut sample = Sample::unopened(random, tables.clone(), cells, entries);
    let answer = sample.open();
    assert!(matches!(answer, Answer::Accepted(_)), "{answer:?}");
    sample
}

/// A drawing in a square of so small a side that leaves of few positions are uniform.
fn small(random: &mut Random, side: u32) -> (Square, Tables) {
    let levels = side.ilog2();
    let base = scenes::square_in(random, Square::WHOLE, 16 - levels);
    let mut look = Look::any(random);
    if random.one_in(2) {
        look = Look::curved(random);
    }
    (look.base, look.step) = (base, random.pick(&[1, 1, 2, 4]));
    (look.areas, look.corners) = (random.within(1..=8), 60);
    (base, samples::tables(&scenes::of(random, &look)))
}

// ---- what a yes means ----

/// Small drawings, grown until leaves have a few positions: each position of each leaf that says yes. Of large leaves those of
/// their corners, and some of their sides and inside.
#[test]
fn each_position_of_a_uniform_leaf() {
    let random = &mut Random::for_test(150);
    let mut tally = Tally::default();
    for _ in 0..150 {
        let side = random.pick(&[16, 32, 64]);
        let (base, tables) = small(random, side);
        let mut sample = opened(random, &tables, 400, 8_000);
        // Down to the square, then as far as there is room.
        for _ in 0..base.depth() {
            let leaf = sample.leaf_at((base.x, base.y)).expect("a leaf is found");
            sample.split(leaf.cell);
        }
        sample.grow(random.pick(&[0, 0, 1]), random.pick(&[13, 15, 16]));
        let scene = Scene::of(Drawing::of(&tables));
        let mut reader = sample.reader();
        for leaf in leaves(&sample) {
            let Square { x, y, side } = leaf.square;
            let words = spot(&mut reader, random, (x, y));
            let (uniform, square) = reach(words);
            assert_eq!((uniform, square), (leaf.uniform(), leaf.square));
            tally.note(format!(
                "{} {uniform}",
                if side > 16 { "large" } else { "small" }
            ));
            if !uniform {
                // "No" is said all over the leaf too.
                for _ in 0..8 {
                    let at = inside(random, square);
                    assert_eq!(reach(spot(&mut reader, random, at)), (false, square));
                }
                continue;
            }
            if side <= 16 {
                let all = all_positions(square);
                expect_the_same((random, &mut reader, &scene), words, all);
                tally.note("all positions".to_string());
            } else {
                let some: Vec<(u32, u32)> = iter::repeat_with(|| match random.one_in(2) {
                    true => on_side(random, square),
                    false => inside(random, square),
                })
                .take(40)
                .collect();
                let corners = [(x + side - 1, y), (x, y + side - 1)];
                let some = some.into_iter().chain(corners);
                expect_the_same((random, &mut reader, &scene), words, some);
            }
            if let Some(shown) = Some(words[0] | words[1]).filter(|set| *set != 0) {
                tally.note(format!(
                    "{} shown",
                    if shown.count_ones() > 1 {
                        "several"
                    } else {
                        "one"
                    }
                ));
            }
        }
        reader.finish();
    }
    tally.print("uniform");
    tally.reached("all positions", 1_000);
    tally.reached("large true", 500);
    tally.reached("small false", 300);
    tally.reached("one shown", 300);
    tally.reached("several shown", 20);
}

/// All positions of the borders of uniform leaves of every size, by the library alone; what shows is what shows with no tree.
#[test]
fn the_borders_of_large_uniform_leaves() {
    let random = &mut Random::for_test(151);
    let mut sides = Vec::new();
    for round in 0..6 {
        // A few areas on the borders of large cells, or one beside them, and a corner far down.
        let records = match round {
            0 => painted(255, [9, 8, 7], square_at(16_384, 32_768, 16_384)),
            1 => [
                painted(100, [9, 8, 7], square_at(0, 0, 32_768)),
                painted(255, [1, 2, 3], square_at(32_767, 32_767, 32_769)),
            ]
            .concat(),
            _ => {
                let mut look = Look::any(random);
                (look.base, look.step, look.areas) = (Square::WHOLE, 8_192, 4);
                (look.filling, look.beside, look.curved) = (7, 2, 0);
                scenes::of(random, &look)
            }
        };
        let tables = samples::tables(&records);
        let mut sample = opened(random, &tables, 60, 3_000);
        if sample.leaf_at((0, 0)).is_some_and(|leaf| leaf.uniform()) {
            continue;
        }
        sample.grow(0, random.pick(&[3, 16]));
        let scene = Scene::of(Drawing::of(&tables));
        let (drawing, tree) = (sample.drawing.drawing(), sample.tree.view());
        for leaf in leaves(&sample).into_iter().filter(Leaf::uniform) {
            let Square { x, y, side } = leaf.square;
            let mut first = None;
            for (x, y) in border(leaf.square) {
                let mut words = [77; SPOT_WORDS];
                let answer = zones::position(drawing, tree, x, y, &mut words);
                assert_eq!(answer, Answer::Accepted(words[2]));
                assert_eq!(*first.get_or_insert(words), words, "{x}, {y}");
                assert_eq!(words[..SHOWN_WORDS], shown_words(scene.position(x, y)));
            }
            let words = first.expect("a border has positions");
            assert_eq!(words[SHOWN_WORDS..], [1, x, y, side]);
            sides.push(side);
        }
    }
    println!("{} leaves, sides {sides:?}", sides.len());
    for (side, least) in [(32_768, 2), (16_384, 4), (8_192, 4)] {
        assert!(sides.iter().filter(|one| **one == side).count() >= least);
    }
}

/// The shipped drawings, grown as is advised and further: a position of each leaf, one on a side, and both with no tree.
#[test]
fn uniform_leaves_of_the_samples() {
    let random = &mut Random::for_test(152);
    for name in ["pit.zones", "berms.zones"] {
        let bytes = std::fs::read(pages::sample(name)).expect("the sample");
        let records: Vec<Record> = bytes.as_chunks().0.to_vec();
        let tables = samples::tables(&records);
        let scene = Scene::of(Drawing::of(&tables));
        let mut before = 0;
        for (threshold, limit) in [(2, 8), (0, 6), (0, 8)] {
            let mut sample = opened(random, &tables, 4_096, 30_000);
            sample.grow(threshold, limit);
            let leaves = leaves(&sample);
            let (mut squares, mut reader) = (0, sample.reader());
            for leaf in &leaves {
                let at = inside(random, leaf.square);
                let words = spot(&mut reader, random, at);
                assert_eq!(reach(words), (leaf.uniform(), leaf.square));
                if leaf.uniform() {
                    squares += u64::from(leaf.square.side).pow(2);
                    let at = on_side(random, leaf.square);
                    let one = iter::once(at);
                    expect_the_same((random, &mut reader, &scene), words, one);
                }
            }
            let part = squares * 100 >> 32;
            let uniform = leaves.iter().filter(|leaf| leaf.uniform()).count();
            println!(
                "{name}, threshold {threshold}, limit {limit}: {uniform} of {} leaves, {part} % of the grid",
                leaves.len()
            );
            assert!(0 < part && part < 100 && part >= before);
            before = part;
            reader.finish();
        }
    }
}

// ---- streams written by others ----

/// Areas for streams by hand: 0 opaque, 1 faint, 2 a clip area, 3 faint and even-odd. Corners 0 to 3 are a square, 4 to 6 a curve.
fn hand_drawing() -> Tables {
    let curve = [
        (2, 40, 1_000),
        (7, 90, 1_000),
        (3, 90, 1_300),
        (3, 0, 1_300),
    ];
    let curve = curve.map(|(kind, x, y)| corner(kind, x, y));
    let records: Vec<Record> = [
        painted(255, [10, 20, 30], square_at(100, 200, 5_000)),
        vec![area(PAINT, 0, 100, [200, 100, 0], 8)],
        vec![delimiter(OPEN), area(CLIP, 0, 0, [0; 3], 0)],
        vec![delimiter(BAR), area(PAINT, 1, 128, [1, 2, 3], 9)],
        curve.to_vec(),
        vec![delimiter(CLOSE)],
    ]
    .concat();
    samples::tables(&records)
}

/// A tree of cell 0, with one stream, or of cell 0 and its quarters, with four.
fn tree_by_hand(streams: &[Vec<Entry>]) -> TreeTables {
    let mut tree = TreeTables::new(1, 0);
    let squares = match streams.len() {
        1 => vec![Square::WHOLE],
        _ => Square::WHOLE.quarters().expect("quarters").to_vec(),
    };
    if streams.len() > 1 {
        tree.cells[..4].copy_from_slice(&[0, 0, 65_536, 1]);
    } else {
        tree.cells.clear();
    }
    for (square, stream) in squares.iter().zip(streams) {
        let first = (tree.entries.len() / ENTRY_WORDS) as u32;
        let leaf = Cell::leaf(*square, first, stream, 0);
        tree.cells.extend(leaf.words());
        tree.entries.extend(stream::words(stream));
    }
    let cells = tree.cells.len() / CELL_WORDS;
    tree.head = vec![cells as u32, (tree.entries.len() / ENTRY_WORDS) as u32];
    tree
}

/// The words of the leaf at a position by both.
fn leaf_words(sample: &Sample, random: &mut Random, at: (u32, u32)) -> [u32; LEAF_WORDS] {
    let blank = lent_words(random, &[77; LEAF_WORDS]);
    let (answer, out) = sample.find_leaf(at, &blank);
    assert!(matches!(answer, Answer::Accepted(_)), "{answer:?} {at:?}");
    *out.table().first_chunk().expect("eight words")
}

/// A stream in cell 0 and in each quarter: it says yes or no, and shows the same set at every position that is tried.
fn expect_stream(random: &mut Random, stream: &dyn Fn(Square) -> Vec<Entry>, yes: bool, set: u64) {
    let tables = hand_drawing();
    let reading = Reading::of_set(Drawing::of(&tables), set);
    let quarters = Square::WHOLE.quarters().expect("quarters").map(stream);
    for streams in [vec![stream(Square::WHOLE)], quarters.to_vec()] {
        let tree = tree_by_hand(&streams);
        let sample = Sample::longer(random, tables.clone(), &tree);
        let mut reader = sample.reader();
        for leaf in leaves(&sample) {
            let Square { x, y, side } = leaf.square;
            let words = leaf_words(&sample, random, (x, y));
            let entries = leaf.stream.len() as u32;
            let uniform = u32::from(yes);
            let steps = leaf.square.depth();
            let lines = stream::lines(&leaf.stream);
            assert_eq!(
                words,
                [leaf.cell, x, y, side, steps, entries, lines, uniform]
            );
            for _ in 0..30 {
                let at = match random.one_in(3) {
                    true => on_side(random, leaf.square),
                    false => inside(random, leaf.square),
                };
                let words = spot(&mut reader, random, at);
                assert_eq!(
                    words[..SHOWN_WORDS],
                    shown_words(reading),
                    "{stream:?}",
                    stream = leaf.stream
                );
                assert_eq!(words[SHOWN_WORDS..], [uniform, x, y, side]);
            }
        }
        // One colour, one material: one index, and the same pixels throughout.
        let px: Vec<u32> = (0..20).map(|_| random.below(65_536) as u32).collect();
        let py: Vec<u32> = (0..20).map(|_| random.below(65_536) as u32).collect();
        let (px, py) = (lent_words(random, &px), lent_words(random, &py));
        let blank = lent_words(random, &[77; 20]);
        assert_eq!(reader.zone_log(&px, &py, &blank).0, Answer::Accepted(1));
        let blank = lent_bytes(random, &[77; CHANNELS * 12]);
        let (answer, out) = reader.pixel_row(random.below(4_096) as u32, 2_042, &blank);
        assert_eq!(answer, Answer::Accepted(0));
        let colour = reading.colour.map(|channel| channel as u8);
        assert!(out.table().chunks(CHANNELS).all(|pixel| *pixel == colour));
        reader.finish();
    }
}

const fn number(number: u32, start: i32) -> Entry {
    Entry::Area { number, start }
}

/// A group of two sides.
fn group(left: &[Entry], right: &[Entry]) -> Vec<Entry> {
    [&[Entry::Open], left, &[Entry::Bar], right, &[Entry::Close]].concat()
}

/// Streams that splitting would have pruned, with no line, curve or shortcut: yes, and the same everywhere.
#[test]
fn uniform_streams_that_are_not_pruned() {
    let random = &mut Random::for_test(153);
    let (opaque, faint, odd) = (number(0, 1), number(1, 1), number(3, 1));
    let (clip, no_clip) = (number(2, 1), number(2, 0));
    let streams: Vec<(Vec<Entry>, u64)> = vec![
        (vec![], 0),
        // Areas that fail: by 0, and by an even number.
        (vec![number(0, 0)], 0),
        (vec![number(0, 0), number(3, 2), faint], 0b10),
        (
            vec![number(3, -2), number(3, -1), number(0, -MOST_START)],
            0b1001,
        ),
        // What stands behind an opaque one, and one that stands there twice.
        (vec![opaque, faint, odd], 0b1),
        (vec![faint, opaque, opaque, odd], 0b11),
        // Groups that could go, or lose their brackets.
        (group(&[Entry::Passes], &[faint]), 0b10),
        (group(&[Entry::Passes, Entry::Passes, clip], &[odd]), 0b1000),
        (group(&[], &[opaque]), 0),
        (group(&[no_clip], &[opaque]), 0),
        (group(&[clip], &[]), 0),
        ([group(&[no_clip], &[opaque]), vec![faint]].concat(), 0b10),
        ([group(&[clip], &[opaque]), vec![faint]].concat(), 0b1),
        (
            group(
                &group(&[clip, no_clip], &[no_clip, Entry::Passes]),
                &group(&[Entry::Passes], &[odd, number(0, 0), faint]),
            ),
            0b1010,
        ),
        (group(&group(&[clip], &[no_clip]), &[opaque]), 0),
    ];
    for (stream, set) in streams {
        expect_stream(random, &|_| stream.clone(), true, set);
    }
}

/// One line, curve or shortcut anywhere in the stream: no, even where all positions show the same.
#[test]
fn streams_that_say_no_where_all_is_the_same() {
    let random = &mut Random::for_test(154);
    let short = |sign: i32, first: u32, end: u32| Entry::Shortcut { sign, first, end };
    let all = |sign: i32| move |square: Square| short(sign, square.y, square.y + square.side);
    let first = |sign: i32| move |square: Square| short(sign, square.y, square.y + 1);
    let (opaque, faint, odd) = (number(0, 1), number(1, 1), number(3, 1));
    // A level line, and one from a corner to itself: neither has a row.
    let (level, point) = (
        Entry::Line { from: 0, to: 1 },
        Entry::Line { from: 2, to: 2 },
    );
    // Its only segment is a shortcut over all rows of the cell.
    let over_all = |sign: i32| move |square: Square| vec![number(1, 0), all(sign)(square)];
    expect_stream(random, &over_all(1), false, 0b10);
    expect_stream(random, &over_all(-1), false, 0b10);
    // Two shortcuts that cancel: over all rows, and in one row.
    for (start, set) in [(0, 0), (1, 0b10)] {
        let cancel = |square: Square| vec![number(1, start), all(1)(square), all(-1)(square)];
        expect_stream(random, &cancel, false, set);
        let cancel = |square: Square| vec![number(1, start), first(-1)(square), first(1)(square)];
        expect_stream(random, &cancel, false, set);
    }
    // Twice odd, by start and shortcut: even, and fails.
    expect_stream(random, &|square| vec![odd, all(1)(square)], false, 0);
    for segment in [level, point] {
        expect_stream(random, &|_| vec![number(1, 0), segment], false, 0);
        // Where no reading comes to it: behind an opaque area, and in a group that is not shown.
        expect_stream(random, &|_| vec![opaque, faint, segment], false, 0b1);
        let hidden = |_| [group(&[], &[opaque, segment]), vec![faint]].concat();
        expect_stream(random, &hidden, false, 0b10);
        // In a clip area whose side passes already.
        let clip = |_| group(&[Entry::Passes, number(2, 1), segment], &[odd]);
        expect_stream(random, &clip, false, 0b1000);
    }
    // A curve whose sum cannot bring the area to 0.
    let curve = Entry::Curve { from: 4 };
    expect_stream(random, &|_| vec![number(1, 7), curve], false, 0b10);
    expect_stream(random, &|_| vec![opaque, odd, curve], false, 0b1);
}

/// Streams of others of any form, uniform and not, in trees of any form: what the library says is what the second implementation
/// says, and all positions of a leaf that says yes read the same.
#[test]
fn uniform_leaves_of_trees_written_by_others() {
    let random = &mut Random::for_test(155);
    let mut tally = Tally::default();
    for _ in 0..400 {
        let (_, sample) = foreign_sample(random);
        let mut reader = sample.reader();
        for leaf in leaves(&sample) {
            let Square { x, y, .. } = leaf.square;
            let words = spot(&mut reader, random, (x, y));
            assert_eq!(reach(words), (leaf.uniform(), leaf.square));
            let eighth = leaf_words(&sample, random, (x, y))[7];
            assert_eq!(eighth, u32::from(leaf.uniform()));
            tally.note(format!("uniform {}", leaf.uniform()));
            let some: Vec<(u32, u32)> = match leaf.square.side {
                ..=4 => all_positions(leaf.square).collect(),
                _ => (0..12).map(|_| on_side(random, leaf.square)).collect(),
            };
            for at in some {
                let there = spot(&mut reader, random, at);
                assert!(!leaf.uniform() || there == words, "{at:?} {leaf:?}");
            }
        }
        reader.finish();
    }
    tally.print("others");
    tally.reached("uniform true", 2_000);
    tally.reached("uniform false", 1_000);
}

// ---- logs and rows ----

/// A drawing and a tree of others in which about half of the cells have uniform streams.
fn foreign_sample(random: &mut Random) -> (Tables, Sample) {
    let tables = match random.one_in(2) {
        true => samples::tables(&scenes::curved(random)),
        false => scenes::tables(random),
    };
    let splits = random.within(1..=14);
    let tree = foreign::tree_of(
        random,
        &tables,
        splits,
        |random, tables, square| match random.one_in(2) {
            true => foreign::uniform_stream(random, tables, square),
            false => foreign::stream(random, tables, square),
        },
    );
    let sample = Sample::exact(random, tables.clone(), &tree);
    (tables, sample)
}

/// A tree of a drawing with leaves of sides that go around a pixel: below 16, 16, 32 and more.
fn pixel_sized(random: &mut Random) -> (Tables, Sample) {
    let side = random.pick(&[64, 128, 512]);
    let levels = 16 - u32::ilog2(side);
    let base = scenes::square_in(random, Square::WHOLE, levels);
    let mut look = Look::any(random);
    if random.one_in(3) {
        look = Look::curved(random);
    }
    (look.base, look.step) = (base, random.pick(&[1, 4, 8, 16, 16, 32]));
    (look.areas, look.corners) = (random.within(1..=8), 60);
    look.filling = random.pick(&[2, 6, 9]);
    let tables = samples::tables(&scenes::of(random, &look));
    let mut sample = opened(random, &tables, 300, 6_000);
    for _ in 0..base.depth() {
        let leaf = sample.leaf_at((base.x, base.y)).expect("a leaf is found");
        sample.split(leaf.cell);
    }
    sample.grow(
        random.pick(&[0, 0, 1, 3]),
        random.pick(&[11, 12, 12, 13, 16]),
    );
    // Some leaves are split for nothing, so that uniform ones lie side by side, of any side.
    for _ in 0..random.below(12) {
        let at = inside(random, base);
        let leaf = sample.leaf_at(at).expect("a leaf is found");
        sample.split(leaf.cell);
    }
    (tables, sample)
}

/// The same tree with streams of others in about half of its leaves, uniform and not, behind the entries in use.
fn foreign_pixel_sized(random: &mut Random) -> (Tables, Sample) {
    let (tables, sample) = pixel_sized(random);
    let mut tree = sample.tree.tables();
    tree.entries.truncate(ENTRY_WORDS * tree.head[1] as usize);
    for cell in tree.leaves() {
        let square = tree.view().cell(cell).square;
        let stream = match random.below(4) {
            0 => foreign::stream(random, &tables, square),
            1 => foreign::uniform_stream(random, &tables, square),
            _ => continue,
        };
        let parent = tree.view().cell(cell).parent;
        let leaf = Cell::leaf(square, tree.head[1], &stream, parent);
        put_cell(&mut tree.cells, cell as usize, leaf);
        tree.entries.extend(foreign::words(random, &stream));
        tree.head[1] += stream.len() as u32;
    }
    let sample = Sample::exact(random, tables.clone(), &tree);
    (tables, sample)
}

/// Leaf by leaf, some positions in each: at its low and high sides, or anywhere in it. Uniform ones, others and back.
fn run(random: &mut Random, leaves: &[Leaf], len: usize) -> (Vec<u32>, Vec<u32>) {
    let of = |uniform: bool| -> Vec<&Leaf> {
        let those = leaves.iter().filter(|leaf| leaf.uniform() == uniform);
        those.collect()
    };
    let both = [of(true), of(false)];
    let mut run = (Vec::new(), Vec::new());
    let mut put = |(x, y): (u32, u32)| {
        run.0.push(x.min(MOST_POSITION));
        run.1.push(y.min(MOST_POSITION));
    };
    let mut left = len;
    while left > 0 {
        let which = random.below(2);
        let those = if both[which].is_empty() {
            &both[1 - which]
        } else {
            &both[which]
        };
        let square = random.pick(those).square;
        let Square { x, y, side } = square;
        let positions: Vec<(u32, u32)> = match random.below(4) {
            // Over a low or a high side, in a row or a column: the last position before it, the first behind it, and back.
            0 => {
                let at = inside(random, square);
                let low = random.one_in(2);
                let (one, other) = match (random.one_in(2), low) {
                    (true, true) => ((x.saturating_sub(1), at.1), (x, at.1)),
                    (true, false) => ((x + side - 1, at.1), (x + side, at.1)),
                    (false, true) => ((at.0, y.saturating_sub(1)), (at.0, y)),
                    (false, false) => ((at.0, y + side - 1), (at.0, y + side)),
                };
                vec![one, other, one, other]
            }
            1 => (0..3).map(|_| on_side(random, square)).collect(),
            2 => vec![inside(random, square)],
            _ => (0..random.within(2..=5))
                .map(|_| inside(random, square))
                .collect(),
        };
        for at in positions.into_iter().take(left) {
            put(at);
            left -= 1;
        }
    }
    run
}

/// Notes from what kind of leaf to what kind a run goes.
fn note_steps(sample: &Sample, px: &[u32], py: &[u32], tally: &mut Tally) {
    let leaf = |at: (&u32, &u32)| sample.leaf_at((*at.0, *at.1));
    let found: Vec<Option<Leaf>> = px.iter().zip(py).map(leaf).collect();
    for pair in found.windows(2) {
        let [Some(from), Some(to)] = pair else {
            continue;
        };
        let kind = |leaf: &Leaf| if leaf.uniform() { "uniform" } else { "other" };
        tally.note(match from.cell == to.cell {
            true => format!("{} again", kind(from)),
            false => format!("{} to {}", kind(from), kind(to)),
        });
    }
}

fn logs(
    (random, tally): (&mut Random, &mut Tally),
    sample: &Sample,
    leaves: &[Leaf],
    scene: Option<&Scene>,
) {
    let mut reader = sample.reader();
    for _ in 0..4 {
        let len = random.pick(&[1, 3, 12, 40]);
        let (px, py) = run(random, leaves, len);
        note_steps(sample, &px, &py, tally);
        let (px, py) = (lent_words(random, &px), lent_words(random, &py));
        let blank = lent_words(random, &vec![77; len]);
        let (answer, out) = reader.zone_log(&px, &py, &blank);
        tally.note_call("log", answer);
        if let (Answer::Accepted(indices), Some(scene)) = (answer, scene) {
            let expected = scene.zone_log(px.table(), py.table());
            assert_eq!(out.table()[..indices as usize], expected);
        }
    }
    reader.finish();
}

fn rows(
    (random, tally): (&mut Random, &mut Tally),
    sample: &Sample,
    leaves: &[Leaf],
    scene: Option<&Scene>,
) {
    let mut reader = sample.reader();
    for _ in 0..6 {
        let leaf = &leaves[random.below(leaves.len())];
        let (x, y) = on_side(random, leaf.square);
        let pixels = random.pick(&[1, 2, 4, 9, 20]) as u32;
        // Some pixels before the one of the position, so that the leaf is entered on its low side too.
        let before = random.below(pixels as usize) as u32;
        let first = (x / PIXEL).saturating_sub(before).min(PIXELS - pixels);
        let row = y / PIXEL;
        let bytes = any_bytes(random, CHANNELS * pixels as usize);
        let blank = lent_bytes(random, &bytes);
        let (answer, out) = reader.pixel_row(row, first, &blank);
        tally.note_call("row", answer);
        let drawn = match answer {
            Answer::Accepted(_) => pixels,
            Answer::Refused { place, .. } => place,
        };
        for (pixel, number) in out.table().chunks(CHANNELS).zip(first..first + drawn) {
            tally.note(pixel_kind(sample, row, number));
            if let Some(scene) = scene {
                assert_eq!(*pixel, scene.pixel(row, number));
            }
        }
    }
    reader.finish();
}

/// In which leaves the samples of a pixel lie.
fn pixel_kind(sample: &Sample, row: u32, number: u32) -> String {
    let found =
        meaning::samples(row, number).map(|at| sample.leaf_at(at).expect("a leaf is found"));
    let uniform = found.iter().filter(|leaf| leaf.uniform()).count();
    let one = found.iter().all(|leaf| leaf.cell == found[0].cell);
    match (one, uniform, found[0].square.side) {
        (true, 16, PIXEL) => "pixel that is a uniform leaf".to_string(),
        (true, 16, _) => "pixel in a uniform leaf".to_string(),
        (true, _, _) => "pixel in another leaf".to_string(),
        (false, 16, _) => "pixel of several uniform leaves".to_string(),
        (false, 0, _) => "pixel of several others".to_string(),
        _ => "pixel of both kinds".to_string(),
    }
}

/// Logs and rows over trees whose leaves are uniform and not, of sides below, at and above that of a pixel, "report what they did":
/// what the drawing says with no tree.
#[test]
fn logs_and_rows_over_leaves_of_both_kinds() {
    let random = &mut Random::for_test(156);
    let mut tally = Tally::default();
    for _ in 0..500 {
        let (tables, sample) = pixel_sized(random);
        let scene = Scene::of(Drawing::of(&tables));
        let leaves = leaves(&sample);
        for side in [8, 16, 32] {
            let of_side = |leaf: &&Leaf| leaf.square.side == side && leaf.uniform();
            if leaves.iter().any(|leaf| of_side(&leaf)) {
                tally.note(format!("uniform leaf of side {side}"));
            }
        }
        logs((random, &mut tally), &sample, &leaves, Some(&scene));
        rows((random, &mut tally), &sample, &leaves, Some(&scene));
    }
    tally.print("both kinds");
    for side in [8, 16, 32] {
        tally.reached(&format!("uniform leaf of side {side}"), 100);
    }
    kinds_reached(&tally, 100);
}

/// The steps and pixels that must be among those tried.
fn kinds_reached(tally: &Tally, least: usize) {
    for step in [
        "uniform again",
        "other again",
        "uniform to uniform",
        "uniform to other",
        "other to uniform",
        "other to other",
    ] {
        tally.reached(step, 5 * least);
    }
    for kind in [
        "pixel in a uniform leaf",
        "pixel in another leaf",
        "pixel of several uniform leaves",
        "pixel of both kinds",
    ] {
        tally.reached(kind, least);
    }
    tally.reached("pixel that is a uniform leaf", least / 10);
}

/// The same over trees written by others, where a leaf may be met by 12: pixels before it stand, with its place.
#[test]
fn logs_and_rows_over_trees_written_by_others() {
    let random = &mut Random::for_test(157);
    let mut tally = Tally::default();
    for _ in 0..900 {
        let (_, sample) = match random.one_in(2) {
            true => foreign_sample(random),
            false => foreign_pixel_sized(random),
        };
        let leaves = leaves(&sample);
        if leaves.is_empty() {
            continue;
        }
        logs((random, &mut tally), &sample, &leaves, None);
        rows((random, &mut tally), &sample, &leaves, None);
    }
    tally.print("others");
    kinds_reached(&tally, 20);
    for what in ["log", "row"] {
        tally.reached(&format!("{what} accepted"), 500);
        tally.reached(&format!("{what} 12"), 10);
    }
}

// ---- a uniform leaf beside a broken one ----

/// Ways to break a leaf that 12 finds in the leaf itself.
#[derive(Clone, Copy, Debug)]
enum Broken {
    Side,
    Count,
    /// One line more or less than there is.
    Lines,
    /// The leaf itself, which is not split.
    Parent,
    Kind,
    /// An opening that nothing closes: the stream still has no line, curve or shortcut.
    Open,
    /// An area that the drawing does not have.
    Area,
    /// A bare entry that stands on a paint side.
    Passes,
}

const BROKEN: [Broken; 8] = [
    Broken::Side,
    Broken::Count,
    Broken::Lines,
    Broken::Parent,
    Broken::Kind,
    Broken::Open,
    Broken::Area,
    Broken::Passes,
];

/// Breaks a leaf; those whose stream is broken get one entry of their own at the end.
fn break_leaf(tree: &mut TreeTables, cell: u32, broken: Broken) {
    let row = CELL_WORDS * cell as usize;
    let entry = match broken {
        Broken::Side => {
            tree.cells[row + 2] ^= 1;
            return;
        }
        Broken::Count => {
            tree.cells[row + 5] = tree.head[1] + 1;
            return;
        }
        Broken::Lines => {
            tree.cells[row + LINES_WORD] ^= 1;
            return;
        }
        Broken::Parent => {
            tree.cells[row + PARENT_WORD] = cell;
            return;
        }
        Broken::Kind => [9, 0, 0, 0],
        Broken::Open => Entry::Open.encode(),
        Broken::Area => Entry::Area {
            number: 64,
            start: 1,
        }
        .encode(),
        Broken::Passes => Entry::Passes.encode(),
    };
    let at = ENTRY_WORDS * tree.head[1] as usize;
    tree.entries.splice(at..at, entry);
    tree.cells[row + 4..=row + LINES_WORD].copy_from_slice(&[tree.head[1], 1, 0]);
    tree.head[1] += 1;
}

/// A row runs from a uniform leaf into a broken one: the pixel that has the first sample in it is the place, and those before it
/// stand. A run that meets it is refused as a whole, however often it was in the uniform one.
#[test]
fn a_broken_leaf_beside_a_uniform_one() {
    let random = &mut Random::for_test(158);
    let mut tally = Tally::default();
    for _ in 0..3_000 {
        let by_others = random.one_in(2);
        let (tables, sample) = match by_others {
            true => foreign_pixel_sized(random),
            false => pixel_sized(random),
        };
        let scene = Scene::of(Drawing::of(&tables));
        let all = leaves(&sample);
        let leaf = &all[random.below(all.len())];
        let Square { x, y, .. } = leaf.square;
        if x == 0 {
            continue;
        }
        let row = on_side(random, leaf.square).1;
        let beside = sample.leaf_at((x - 1, row)).expect("a leaf is found");
        if !beside.uniform() {
            continue;
        }
        let broken = random.pick(&BROKEN);
        let mut tree = sample.tree.tables();
        break_leaf(&mut tree, leaf.cell, broken);
        let sample = Sample::exact(random, tables.clone(), &tree);
        let mut reader = sample.reader();

        // Of a row, the first pixel that has a sample in the leaf.
        let (pixel_row, most) = (row / PIXEL, x / PIXEL);
        let first = most - random.below(most.min(6) as usize + 1) as u32;
        let pixels = (most - first + random.within(1..=4) as u32).min(PIXELS - first);
        let met = |number: &u32| {
            let samples = meaning::samples(pixel_row, *number);
            samples.iter().any(|at| leaf.square.holds(at.0, at.1))
        };
        let place = (first..first + pixels)
            .find(met)
            .map(|number| number - first);
        let bytes = any_bytes(random, CHANNELS * pixels as usize);
        let (answer, out) = reader.pixel_row(pixel_row, first, &lent_bytes(random, &bytes));
        let expected = match place {
            Some(place) => Answer::Refused { number: 12, place },
            None => Answer::Accepted(0),
        };
        assert_eq!(answer, expected, "{broken:?} {leaf:?}");
        tally.note(match place {
            Some(0) => "row at once".to_string(),
            Some(_) => "row behind pixels".to_string(),
            None => "row past it".to_string(),
        });
        let stand = out.table().chunks(CHANNELS).zip(first..);
        for (pixel, number) in stand.take(place.unwrap_or(pixels) as usize) {
            // Others' streams were compared with the second implementation.
            assert!(by_others || *pixel == scene.pixel(pixel_row, number));
        }

        // A run in the leaf beside it, again and again, then one step to the right, then back.
        let stay = random.within(1..=5);
        let mut at: Vec<(u32, u32)> = (0..stay).map(|_| inside(random, beside.square)).collect();
        at.push((x - 1, row));
        for (step, accepted) in [
            (None, true),
            (Some((x, row)), false),
            (Some((x - 1, row)), false),
        ] {
            at.extend(step);
            let (px, py): (Vec<u32>, Vec<u32>) = at.iter().copied().unzip();
            let blank = lent_words(random, &vec![77; at.len()]);
            let (px, py) = (lent_words(random, &px), lent_words(random, &py));
            let (answer, _) = reader.zone_log(&px, &py, &blank);
            assert_eq!(
                matches!(answer, Answer::Accepted(1)),
                accepted,
                "{broken:?}"
            );
            assert!(accepted || answer == TWELVE);
        }
        // Neither call says anything of it.
        let blank = lent_words(random, &[77; SPOT_WORDS]);
        assert_eq!(reader.position((x, row), &blank).0, TWELVE);
        assert_eq!(sample.find_leaf((x, y), &blank).0, TWELVE);
        reader.finish();
        tally.note(format!("{broken:?}"));
        let side = leaf.square.side;
        tally.note(format!(
            "side {}",
            if side < 16 {
                "below 16".to_string()
            } else {
                side.min(64).to_string()
            }
        ));
    }
    tally.print("beside a broken leaf");
    for broken in BROKEN {
        tally.reached(&format!("{broken:?}"), 40);
    }
    for what in [
        "row at once",
        "row behind pixels",
        "side below 16",
        "side 16",
        "side 32",
    ] {
        tally.reached(what, 40);
    }
}

// ---- the words and their room ----

/// Eight words of a leaf and ten of a position: with one less nothing is written, and what stands behind them stays.
#[test]
fn room_for_the_words() {
    let random = &mut Random::for_test(159);
    let records = [
        painted(128, [5, 6, 7], square_at(0, 0, 32_768)),
        painted(
            255,
            [50, 60, 70],
            contour(&[(0, 0), (9_000, 0), (60_000, 30_000)]),
        ),
    ]
    .concat();
    let tables = samples::tables(&records);
    let mut sample = opened(random, &tables, 9, 200);
    sample.split(0);
    let eleven = Answer::Refused {
        number: 11,
        place: 0,
    };
    for at in [(100, 40_000), (100, 100), (60_000, 100), (40_000, 40_000)] {
        let leaf = sample.leaf_at(at).expect("a leaf is found");
        let reading = Scene::of(Drawing::of(&tables)).position(at.0, at.1);
        for words in 0..=14 {
            let before: Vec<u32> = (0..words).map(|_| random.word()).collect();
            let blank = lent_words(random, &before);
            let (answer, out) = sample.find_leaf(at, &blank);
            match words {
                ..LEAF_WORDS => {
                    assert_eq!(answer, eleven, "{words}");
                    assert!(out == blank);
                }
                _ => {
                    assert_eq!(answer, Answer::Accepted(leaf.cell));
                    assert_eq!(out.table()[7], u32::from(leaf.uniform()));
                    assert_eq!(out.table()[LEAF_WORDS..], before[LEAF_WORDS..]);
                    assert!(out.guards_as_in(&blank));
                }
            }
            let mut reader = sample.reader();
            let (answer, out) = reader.position(at, &blank);
            match words {
                ..SPOT_WORDS => {
                    assert_eq!(answer, eleven, "{words}");
                    assert!(out == blank);
                }
                _ => {
                    let Square { x, y, side } = leaf.square;
                    assert_eq!(answer, Answer::Accepted(reading.material));
                    let reach = [u32::from(leaf.uniform()), x, y, side];
                    assert_eq!(out.table()[SHOWN_WORDS..SPOT_WORDS], reach);
                    assert_eq!(out.table()[SPOT_WORDS..], before[SPOT_WORDS..]);
                    assert!(out.guards_as_in(&blank));
                }
            }
            reader.finish();
        }
    }
    // The two upper ones of the four are uniform, and there are 8 and 10 words.
    let flags: Vec<bool> = leaves(&sample).iter().map(Leaf::uniform).collect();
    assert!(flags.contains(&true) && flags.contains(&false), "{flags:?}");
    assert_eq!((LEAF_WORDS, SPOT_WORDS), (8, 10));
}
