//! Lent streams, the library against the second implementation: the check, the reading at a
//! position, and the stream of a child. The library reads and makes in one pass by a flat machine;
//! the second implementation reads by meaning and prunes by literal rewriting.

use zones_tests::class::Square;
use zones_tests::curve::Curve;
use zones_tests::drawing::{AREA_WORDS, MOST_AREAS, MOST_CORNERS, MOST_GROUPS, MOST_RECORDS};
use zones_tests::foreign;
use zones_tests::meaning::{Drawing, MOST_POSITION};
use zones_tests::probe::Lent;
use zones_tests::prune::{prune, prune_and_count};
use zones_tests::random::Random;
use zones_tests::record::letters;
use zones_tests::samples::{self, Tables};
use zones_tests::scenes;
use zones_tests::stream::{self, Entry, InUse, ENTRY_WORDS, MOST_START};
use zones_tests::tally::Tally;
use zones_tests::tree::{self, TreeTables};
use zones_tests::tree_damage::{damage_tree, TreeDamage};

/// A drawing, and a stream over it among other entries: as the only cell of a tree, for what
/// damages trees.
#[derive(Clone, Debug)]
struct Sample {
    tables: Tables,
    tree: TreeTables,
    square: Square,
}

impl Sample {
    /// Words of a stream between entries of no meaning, all of them in use.
    fn new(random: &mut Random, tables: Tables, words: &[u32], square: Square) -> Sample {
        let mut any_entries = |most: usize| {
            let words = ENTRY_WORDS * random.within(0..=most);
            (0..words).map(|_| random.word()).collect::<Vec<u32>>()
        };
        let (before, behind) = (any_entries(3), any_entries(2));
        let first = (before.len() / ENTRY_WORDS) as u32;
        let count = (words.len() / ENTRY_WORDS) as u32;
        let mut tree = TreeTables::new(1, 0);
        tree.entries = [&before, words, &behind].concat();
        tree.head = vec![1, (tree.entries.len() / ENTRY_WORDS) as u32];
        tree.cells = vec![square.x, square.y, square.side, 0, first, count, 0, 0];
        Sample {
            tables,
            tree,
            square,
        }
    }

    /// A valid stream over a drawing, in any cell, often one with a corner in it or near it: one
    /// that no splitting made or, one time in three, the drawing's own.
    fn valid(random: &mut Random, tables: &Tables) -> (Sample, Vec<Entry>) {
        let square = match random.one_in(2) {
            true => foreign::any_square(random),
            false => {
                let (x, y) = scenes::position(random, tables);
                let side = 1 << random.within(0..=16);
                Square {
                    x: x / side * side,
                    y: y / side * side,
                    side,
                }
            }
        };
        let stream = match random.below(3) {
            0 => tree::stream_in(Drawing::of(tables), square),
            _ => foreign::stream(random, tables, square),
        };
        let words = foreign::words(random, &stream);
        let sample = Sample::new(random, tables.clone(), &words, square);
        (sample, stream)
    }

    fn first(&self) -> usize {
        self.tree.cells[4] as usize
    }

    fn count(&self) -> usize {
        self.tree.cells[5] as usize
    }

    fn said(&self) -> InUse {
        InUse {
            cells: 1,
            entries: self.tree.head[1] as usize,
            areas: self.tables.plan[1] as usize,
            corners: self.tables.plan[2] as usize,
        }
    }

    fn lent(&self) -> Lent<'_> {
        Lent {
            first: self.first(),
            count: self.count(),
            in_use: self.said(),
            tables: &self.tables,
            square: self.square,
        }
    }

    /// The stream, if the second implementation says that it passes 12.
    fn expected(&self) -> Option<Vec<Entry>> {
        let drawing = Drawing::of(&self.tables);
        let in_use = tree::in_use(drawing, self.tree.view())
            .filter(|in_use| in_use.corners <= drawing.ys.len())?;
        let (first, count) = (self.tree.cells[4], self.tree.cells[5]);
        let entries = &self.tree.entries;
        stream::check(drawing, in_use, self.square, entries, first, count)
    }

    /// The library's check answers as the second implementation's.
    #[track_caller]
    fn expect_check(&self) -> bool {
        let expected = self.expected().is_some();
        assert_eq!(self.lent().check(&self.tree.entries), expected, "{self:?}");
        expected
    }
}

/// Streams over the same drawing.
const STREAMS: usize = 10;

/// So many valid streams, a few over each drawing.
fn each_stream(
    random: &mut Random,
    streams: usize,
    mut each: impl FnMut(&mut Random, Sample, Vec<Entry>),
) {
    for _ in 0..streams / STREAMS {
        let tables = scenes::tables(random);
        for _ in 0..STREAMS {
            let (sample, stream) = Sample::valid(random, &tables);
            each(random, sample, stream);
        }
    }
}

// ---- the check ----

/// Puts one number of an entry out of its range; the name of the range.
fn break_entry(random: &mut Random, sample: &mut Sample, at: usize) -> &'static str {
    let in_use = sample.said();
    let Square { y: low, side, .. } = sample.square;
    let at = ENTRY_WORDS * (sample.first() + at);
    let row = &mut sample.tree.entries[at..at + ENTRY_WORDS];
    let (name, word, value) = match (row[0], random.below(5)) {
        (_, 0) => ("kind", 0, random.pick(&[0, 9, 10, 256 + row[0], u32::MAX])),
        (4, 1 | 2) => {
            let areas = in_use.areas as u32;
            ("area", 1, random.pick(&[areas, areas + 1, 64, u32::MAX]))
        }
        (4, _) => {
            let over = MOST_START as u32 + 1;
            (
                "start",
                2,
                random.pick(&[over, over.wrapping_neg(), 1 << 31]),
            )
        }
        (5, 1 | 2) => (
            "from",
            1,
            random.pick(&[in_use.corners as u32, 2_048, u32::MAX]),
        ),
        (5, _) => (
            "to",
            2,
            random.pick(&[in_use.corners as u32, 2_048, u32::MAX]),
        ),
        (8, _) => {
            // The first of three corners: one of the three is not in use.
            let corners = in_use.corners as u32;
            let number = random.pick(&[corners - 2, corners - 1, corners, u32::MAX - 1, u32::MAX]);
            ("curve", 1, number)
        }
        (6, 1) => ("sign", 1, random.pick(&[0, 2, u32::MAX - 1, 1 << 31])),
        (6, 2) if low > 0 => ("first row", 2, low - 1),
        (6, 2 | 3) => ("no row", 2, row[3]),
        (6, _) => ("last row", 3, random.pick(&[low + side + 1, u32::MAX])),
        (_, _) => ("kind", 0, random.pick(&[0, 9, u32::MAX])),
    };
    row[word] = value;
    name
}

/// Ways to damage the tables that a stream is read from.
const DAMAGES: [TreeDamage; 14] = [
    TreeDamage::EntriesInUse,
    TreeDamage::CellFirst,
    TreeDamage::CellCount,
    TreeDamage::EntryKind,
    TreeDamage::EntryWord,
    TreeDamage::EntriesSwapped,
    TreeDamage::AreasInUse,
    TreeDamage::CornersInUse,
    TreeDamage::AreaWord,
    TreeDamage::Coordinate,
    TreeDamage::EntriesShorter,
    TreeDamage::AreasShorter,
    TreeDamage::CornersShorter,
    TreeDamage::PairUnequal,
];

#[test]
fn the_check_of_lent_streams() {
    let random = &mut Random::for_test(80);
    let mut tally = Tally::default();
    each_stream(random, 30_000, |random, sample, stream| {
        assert!(sample.expect_check(), "{sample:?}");

        // One number of one entry out of its range.
        if !stream.is_empty() {
            let mut broken = sample.clone();
            let at = random.below(stream.len());
            let name = break_entry(random, &mut broken, at);
            assert!(!broken.expect_check(), "{name}: {broken:?}");
            tally.note(format!("broken {name}"));
        }

        // One word, or one length, near the right one, near a limit or far off.
        let mut damaged = sample.clone();
        let damage = random.pick(&DAMAGES);
        damage_tree(random, &mut damaged.tables, &mut damaged.tree, damage);
        let passes = damaged.expect_check();
        tally.note(format!("{damage:?} {passes}"));

        // In another cell.
        let mut moved = sample;
        moved.square = match random.below(3) {
            0 => foreign::any_square(random),
            1 => Square {
                y: moved.square.y + random.pick(&[0, 1]),
                side: moved.square.side - random.pick(&[0, 1]),
                ..moved.square
            },
            _ => Square {
                y: moved.square.y / 2,
                side: moved.square.side * 2,
                ..moved.square
            },
        };
        let passes = moved.expect_check();
        tally.note(format!("other cell {passes}"));
    });
    tally.print("check");
    for name in ["kind", "area", "start", "from", "to", "curve", "sign"] {
        tally.reached(&format!("broken {name}"), 200);
    }
    for name in ["first row", "no row", "last row"] {
        tally.reached(&format!("broken {name}"), 200);
    }
    for damage in DAMAGES {
        tally.reached(&format!("{damage:?} false"), 50);
    }
    tally.reached("other cell true", 200);
    tally.reached("other cell false", 200);
}

/// The drawing with so many paint areas and corners.
fn plain(areas: usize, corners: usize) -> Tables {
    let mut tables = samples::tables(&letters("p"));
    let row = tables.areas.clone();
    assert_eq!(row.len(), AREA_WORDS);
    tables.areas = row.repeat(areas);
    tables.xs = (0..corners as u32).collect();
    tables.ys = (0..corners as u32).rev().collect();
    tables.plan[1] = areas as u32;
    tables.plan[2] = corners as u32;
    tables
}

#[test]
fn the_limits_of_a_stream() {
    let random = &mut Random::for_test(81);
    let paint = Entry::Area {
        number: 0,
        start: 0,
    };
    let line = Entry::Line { from: 0, to: 1 };
    let short = Entry::Shortcut {
        sign: -1,
        first: 0,
        end: 1,
    };
    let nested = |groups: usize| {
        let opens = vec![Entry::Open; groups];
        [opens, [Entry::Bar, Entry::Close].repeat(groups)].concat()
    };
    let with_lines = |lines: usize| {
        let segments = (0..lines).map(|i| if i % 3 == 0 { short } else { line });
        [paint].into_iter().chain(segments).collect::<Vec<Entry>>()
    };
    let groups = |entries: usize| {
        let group = [Entry::Open, Entry::Bar, Entry::Close];
        let mut stream = group.repeat(entries / 3);
        stream.extend(vec![paint; entries % 3]);
        stream
    };
    let square = Square::WHOLE;
    let mut expect = |tables: &Tables, stream: &[Entry], passes: bool| {
        let words = foreign::words(random, stream);
        let sample = Sample::new(random, tables.clone(), &words, square);
        assert_eq!(sample.expect_check(), passes, "{} entries", stream.len());
    };
    let tables = plain(2, 2);
    expect(&tables, &[], true);
    for (over, passes) in [(0, true), (1, false)] {
        expect(&tables, &vec![paint; MOST_AREAS + over], passes);
        expect(&tables, &with_lines(MOST_CORNERS + over), passes);
        expect(&tables, &nested(MOST_GROUPS + over), passes);
        expect(&tables, &groups(MOST_RECORDS + over), passes);
        // What is in use.
        expect(&plain(MOST_AREAS + over, 2), &[paint], passes);
        expect(&plain(2, MOST_CORNERS + over), &[paint], passes);
    }
    // Entries in use: up to 65,536, and what the table holds.
    let words = vec![0; ENTRY_WORDS * 65_537];
    for (used, holds, passes) in [
        (65_536, 65_536, true),
        (65_536, 65_537, true),
        (65_537, 65_537, false),
        (10, 10, true),
        (10, 9, false),
        (usize::MAX, 10, false),
    ] {
        let mut lent = Lent {
            first: 0,
            count: 0,
            in_use: InUse {
                cells: 1,
                entries: used,
                areas: 2,
                corners: 2,
            },
            tables: &tables,
            square,
        };
        let entries = &words[..ENTRY_WORDS * holds];
        assert_eq!(lent.check(entries), passes);
        lent.first = used;
        assert_eq!(lent.check(entries), passes);
        lent.first = used.wrapping_add(1);
        assert!(!lent.check(entries));
        // Sums that wrap.
        (lent.first, lent.count) = (usize::MAX, 2);
        assert!(!lent.check(entries));
        (lent.first, lent.count) = (2, usize::MAX);
        assert!(!lent.check(entries));
        assert_eq!(lent.read(entries, 0, 0), 0);
    }
}

// ---- the reading ----

/// A position of the grid for a stream: mostly in its cell, often on a border of the cell, of a
/// shortcut's rows, or at a corner or one beside it.
fn position(random: &mut Random, sample: &Sample, stream: &[Entry]) -> (u32, u32) {
    let Square { x, y, side } = sample.square;
    let mut in_cell = |low: u32| match random.below(4) {
        0 => low,
        1 => low + side - 1,
        2 => low + (side / 2).min(side - 1),
        _ => low + random.below(side as usize) as u32,
    };
    let (mut at_x, mut at_y) = (in_cell(x), in_cell(y));
    let beside = |random: &mut Random, value: u32| {
        let value = value + random.below(3) as u32;
        value.saturating_sub(1).min(MOST_POSITION)
    };
    match random.below(8) {
        0..3 if !stream.is_empty() => match random.pick(stream) {
            Entry::Shortcut { first, end, .. } => {
                let row = random.pick(&[first, end]);
                at_y = beside(random, row);
            }
            Entry::Line { from, to } => {
                let corner = random.pick(&[from, to]) as usize;
                at_x = beside(random, sample.tables.xs[corner]);
                at_y = beside(random, sample.tables.ys[corner]);
            }
            Entry::Curve { from } => {
                let curve = Curve::of(Drawing::of(&sample.tables).curve_corners(from));
                (at_x, at_y) = scenes::position_on_curve(random, curve);
            }
            _ => {}
        },
        3 => (at_x, at_y) = scenes::position(random, &sample.tables),
        _ => {}
    }
    (at_x, at_y)
}

#[test]
fn the_reading_of_lent_streams() {
    let random = &mut Random::for_test(82);
    let mut tally = Tally::default();
    each_stream(random, 30_000, |random, sample, stream| {
        let drawing = Drawing::of(&sample.tables);
        let (lent, entries) = (sample.lent(), &sample.tree.entries);
        for _ in 0..4 {
            let (x, y) = position(random, &sample, &stream);
            let shown = stream::shown(drawing, &stream, x, y);
            assert_eq!(lent.read(entries, x, y), shown, "at {x}, {y}: {sample:?}");
            tally.note(match shown.count_ones() {
                0 => "nothing".to_string(),
                1 => "one".to_string(),
                _ => "more".to_string(),
            });
        }
        // No position.
        let (x, y) = position(random, &sample, &stream);
        let beyond = random.pick(&[65_536, 65_537, u32::MAX]);
        assert_eq!(lent.read(entries, beyond, y), 0);
        assert_eq!(lent.read(entries, x, beyond), 0);
        // A stream that does not pass shows nothing.
        if !stream.is_empty() {
            let mut broken = sample.clone();
            let at = random.below(stream.len());
            let name = break_entry(random, &mut broken, at);
            assert_eq!(broken.lent().read(&broken.tree.entries, x, y), 0, "{name}");
        }
    });
    tally.print("read");
    tally.reached("nothing", 2_000);
    tally.reached("one", 2_000);
    tally.reached("more", 2_000);
}

// ---- a child's stream ----

/// The stream of a square, written with this room behind the entries in use: as the second
/// implementation makes it, all other words as they were; or no room, and all words as they were.
#[track_caller]
fn expect_child(random: &mut Random, sample: &Sample, square: Square, made: &[u32], room: usize) {
    // Words behind the entries in use: the room, and less than an entry more.
    let used = sample.tree.entries.len();
    let words = ENTRY_WORDS * room + random.below(ENTRY_WORDS);
    let mut entries = sample.tree.entries.clone();
    entries.extend((0..words).map(|_| random.word()));
    let before = entries.clone();
    let answer = sample.lent().child(&mut entries, square);
    let count = made.len() / ENTRY_WORDS;
    if count <= room {
        assert_eq!(answer, Some(count), "{square:?} {sample:?}");
        let (kept, written) = entries.split_at(used);
        let (written, guard) = written.split_at(made.len());
        assert_eq!(written, made, "{square:?} {sample:?}");
        assert_eq!(kept, &before[..used]);
        assert_eq!(guard, &before[used + made.len()..]);
    } else {
        assert_eq!(answer, None);
        assert_eq!(entries, before);
    }
}

#[test]
fn the_streams_of_children() {
    let random = &mut Random::for_test(83);
    let mut tally = Tally::default();
    each_stream(random, 30_000, |random, sample, stream| {
        let drawing = Drawing::of(&sample.tables);
        let mut squares = vec![sample.square];
        squares.extend(sample.square.quarters().into_iter().flatten());
        if random.one_in(4) {
            squares.push(foreign::any_square(random));
        }
        for square in squares {
            let pruned = prune_and_count(drawing, &stream::in_square(drawing, &stream, square));
            for (rule, used) in (12..).zip(pruned.used) {
                if used > 0 {
                    tally.note(format!("rule {rule}"));
                }
            }
            let child = pruned.stream;
            let made = stream::words(&child);
            assert!(child.len() <= stream.len());
            // Room exactly enough, one entry too little, and more.
            expect_child(random, &sample, square, &made, child.len());
            if !child.is_empty() {
                expect_child(random, &sample, square, &made, child.len() - 1);
            }
            let more = random.within(1..=9);
            expect_child(random, &sample, square, &made, child.len() + more);
            tally.note(match (child.len(), child.len() == stream.len()) {
                (0, _) => "empty".to_string(),
                (_, true) => "as long".to_string(),
                (_, false) => "shorter".to_string(),
            });
            for entry in child {
                tally.note(format!("kind {}", entry.encode()[0]));
            }
        }

        // A square that is not that of a cell, and a stream that does not pass.
        let mut entries = sample.tree.entries.clone();
        entries.extend(vec![9; ENTRY_WORDS * (stream.len() + 1)]);
        let before = entries.clone();
        let Square { x, y, side } = sample.square;
        let odd = match random.below(7) {
            0 => (x, y, 0),
            1 => (x, y, 3),
            2 => (x, y, 131_072),
            3 => (65_536, y, side),
            4 => (x, 65_536, side),
            5 if side > 1 => (x + 1, y, side),
            _ => (x | 1, y, 2),
        };
        let odd = Square {
            x: odd.0,
            y: odd.1,
            side: odd.2,
        };
        assert_eq!(sample.lent().child(&mut entries, odd), None, "{odd:?}");
        if !stream.is_empty() {
            let mut broken = sample.clone();
            let at = random.below(stream.len());
            break_entry(random, &mut broken, at);
            broken
                .tree
                .entries
                .extend(&before[sample.tree.entries.len()..]);
            let before = broken.tree.entries.clone();
            let mut entries = before.clone();
            assert_eq!(broken.lent().child(&mut entries, sample.square), None);
            assert_eq!(entries, before);
        }
        assert_eq!(entries, before);
    });
    tally.print("children");
    tally.reached("empty", 2_000);
    tally.reached("as long", 500);
    tally.reached("shorter", 5_000);
    for kind in 1..=6 {
        tally.reached(&format!("kind {kind}"), 2_000);
    }
    tally.reached("kind 7", 200);
    tally.reached("kind 8", 2_000);
    for rule in 12..=18 {
        tally.reached(&format!("rule {rule}"), 300);
    }
}

/// From a drawing down to a cell of side 1, each stream made of the one before in the same table:
/// the drawing's own in each square, which passes 12 and shows what the drawing shows.
#[test]
fn the_streams_on_the_way_down() {
    let random = &mut Random::for_test(84);
    let mut tally = Tally::default();
    for round in 0..1_200 {
        let records = match round % 12 {
            0 => samples::fullest(random),
            1 => {
                let look = scenes::Look::fullest(random);
                scenes::of(random, &look)
            }
            _ => scenes::any(random),
        };
        let tables = samples::tables(&records);
        let drawing = Drawing::of(&tables);
        let (x, y) = scenes::position(random, &tables);
        let mut stream = stream::of_drawing(drawing);
        let shown = stream::shown(drawing, &stream, x, y);
        let mut entries = foreign::words(random, &stream);
        entries.extend(vec![9; ENTRY_WORDS * 8 * MOST_RECORDS]);
        let mut lent = Lent {
            first: 0,
            count: stream.len(),
            in_use: InUse {
                cells: 1,
                entries: stream.len(),
                areas: tables.plan[1] as usize,
                corners: tables.plan[2] as usize,
            },
            tables: &tables,
            square: Square::WHOLE,
        };
        let mut next = Some(Square::WHOLE);
        while let Some(square) = next {
            assert!(lent.check(&entries), "{square:?}");
            assert_eq!(lent.read(&entries, x, y), shown, "{x}, {y} in {square:?}");
            let made = lent.child(&mut entries, square);
            let count = made.expect("the table has room");
            stream = prune(drawing, &stream::in_square(drawing, &stream, square));
            assert!(stream == tree::stream_in(drawing, square), "{square:?}");
            let at = ENTRY_WORDS * lent.in_use.entries;
            let words = &entries[at..at + ENTRY_WORDS * count];
            assert!(words == stream::words(&stream), "{square:?}");
            lent = Lent {
                first: lent.in_use.entries,
                count,
                in_use: InUse {
                    entries: lent.in_use.entries + count,
                    ..lent.in_use
                },
                square,
                ..lent
            };
            let mut quarters = square.quarters().into_iter().flatten();
            next = quarters.find(|quarter| quarter.holds(x, y));
            if square.side == 1 {
                assert!(lent.check(&entries), "{square:?}");
                assert_eq!(lent.read(&entries, x, y), shown, "{x}, {y}");
                tally.note("side 1".to_string());
            }
        }
    }
    tally.print("down");
    tally.reached("side 1", 1_200);
}

// ---- the tallies of the children ----

/// The numbers of a tally, one after another: entries, lines, how many start numbers, and these.
fn numbers(stream: &[Entry]) -> Vec<i64> {
    let starts = stream.iter().filter_map(|entry| match *entry {
        Entry::Area { start, .. } => Some(i64::from(start)),
        _ => None,
    });
    let starts: Vec<i64> = starts.collect();
    let mut numbers = vec![
        stream.len() as i64,
        i64::from(stream::lines(stream)),
        starts.len() as i64,
    ];
    numbers.extend(starts);
    numbers
}

/// After each child's pass its entries, lines and start numbers are those of its stream, and the
/// children to come have none.
#[track_caller]
fn expect_tallies(random: &mut Random, sample: &Sample, stream: &[Entry], tally: &mut Tally) {
    let drawing = Drawing::of(&sample.tables);
    let lent = sample.lent();
    let entries = &sample.tree.entries;
    let Some(quarters) = sample.square.quarters() else {
        let (passes, child) = (random.below(5) as u32, random.below(4) as u32);
        assert_eq!(lent.tally(entries, passes, child, random.below(4)), 0);
        tally.note("no children".to_string());
        return;
    };
    let expected = quarters.map(|square| {
        let child = prune(drawing, &stream::in_square(drawing, stream, square));
        numbers(&child)
    });
    for passes in 0..=4 {
        for (k, child) in (0..).zip(&expected) {
            // All its numbers and one behind them; behind the last of 64 places too.
            let more = child.len() + random.below(3 + MOST_AREAS);
            for number in (0..child.len()).chain([more, 3 + MOST_AREAS, usize::MAX]) {
                let of_child = child.get(number).copied().unwrap_or(0);
                let told = if k < passes { of_child } else { 0 };
                let found = lent.tally(entries, passes, k, number);
                assert_eq!(found, told, "after {passes} passes child {k}, {number}");
            }
        }
    }
    for child in &expected {
        tally.note(if child[1] > 0 { "lines" } else { "no line" }.to_string());
        tally.note(match child[3..].iter().any(|&start| start != 0) {
            true => "starts that are not 0".to_string(),
            false => format!("{} areas", child[2].min(1)),
        });
    }
    // Too many passes, and no such child.
    assert_eq!(lent.tally(entries, 5, 0, 0), 0);
    assert_eq!(lent.tally(entries, u32::MAX, 0, 0), 0);
    assert_eq!(lent.tally(entries, 4, 4, 0), 0);
    assert_eq!(lent.tally(entries, 4, u32::MAX, 0), 0);
}

#[test]
fn the_tallies_after_each_pass() {
    let random = &mut Random::for_test(85);
    let mut tally = Tally::default();
    each_stream(random, 20_000, |random, sample, stream| {
        expect_tallies(random, &sample, &stream, &mut tally);
        // A stream that does not pass.
        if !stream.is_empty() {
            let mut broken = sample.clone();
            let at = random.below(stream.len());
            break_entry(random, &mut broken, at);
            let found = broken.lent().tally(&broken.tree.entries, 4, 0, 0);
            assert_eq!(found, 0);
        }
    });
    // The fullest drawings, as cell 0 has them: up to 64 start numbers.
    for _ in 0..3 {
        let tables = samples::tables(&samples::fullest(random));
        let drawing = Drawing::of(&tables);
        let stream = prune(drawing, &stream::of_drawing(drawing));
        let words = stream::words(&stream);
        let sample = Sample::new(random, tables, &words, Square::WHOLE);
        expect_tallies(random, &sample, &stream, &mut tally);
    }
    tally.print("tallies");
    tally.reached("no children", 100);
    tally.reached("lines", 1_000);
    tally.reached("no line", 1_000);
    tally.reached("starts that are not 0", 1_000);
}
