//! The second implementation against itself, below the tree: document 01's spots, the meaning, the
//! classes, the streams and the pruning.

use zones_tests::class::{self, Class, Square};
use zones_tests::curve::Segment;
use zones_tests::drawing::{check_tables, CLIP, PAINT};
use zones_tests::foreign;
use zones_tests::machine;
use zones_tests::meaning::{self, Drawing, Edge, Item, Reading, Scene, Side};
use zones_tests::prune::{prune, prune_and_count, prune_in_any_order};
use zones_tests::random::Random;
use zones_tests::record::{area, letters, Record};
use zones_tests::samples::{self, Tables};
use zones_tests::scenes::{self, contour, painted, square_at};
use zones_tests::stream::{self, Entry, InUse, Piece};
use zones_tests::tally::Tally;
use zones_tests::tree::{self};

// ---- meaning ----

#[test]
fn spots_of_the_document() {
    let triangle = painted(255, [0; 3], contour(&[(0, 0), (10, 0), (10, 10)]));
    let tables = samples::tables(&triangle);
    let scene = Scene::of(Drawing::of(&tables));
    let Item::One(drawn) = &scene.top[0] else {
        panic!("one area");
    };
    for (x, y) in [(5, 5), (0, 0), (9, 9)] {
        assert_eq!(Scene::winding(drawn, x, y), 1);
    }
    for (x, y) in [(4, 5), (10, 5), (5, 10)] {
        assert_eq!(Scene::winding(drawn, x, y), 0);
    }

    let whole = || square_at(0, 0, 65_536);
    let at_origin = |records: Vec<Record>| {
        let tables = samples::tables(&records);
        Scene::of(Drawing::of(&tables)).position(0, 0)
    };
    // "White ground under black, alpha 128: 127."
    let black = painted(128, [0; 3], whole());
    assert_eq!(at_origin(black.clone()).colour, [127; 3]);
    // "Red (255,0,0), alpha 128, before black, alpha 128: 191, 63, 63."
    let red = painted(128, [255, 0, 0], whole());
    assert_eq!(at_origin([red, black].concat()).colour, [191, 63, 63]);
    // "Two areas of alpha 254: left is 0, and a third behind is still in the shown set."
    let nearly = painted(254, [0; 3], whole());
    let third = painted(1, [255; 3], whole());
    let behind = at_origin([nearly.clone(), nearly, third].concat());
    assert_eq!((behind.shown, behind.colour), (0b111, [0; 3]));
    // "Empty drawing: material 0, white."
    let nothing = Reading {
        shown: 0,
        material: 0,
        colour: [255; 3],
    };
    assert_eq!(at_origin(vec![]), nothing);
    assert_eq!(class::key(32_768, 0), 1_073_741_824);
}

/// A shown set as letters say it: `p` a paint area that passes, `q` one that fails, `o` an opaque
/// one that passes, `c` a clip area that passes, `d` one that fails.
fn shown_by(text: &str) -> u64 {
    let mut records = Vec::new();
    for letter in text.chars() {
        let contour = match letter {
            'p' | 'o' | 'c' => square_at(0, 0, 8),
            'q' | 'd' => square_at(8, 8, 8),
            _ => vec![],
        };
        records.extend(match letter {
            'p' | 'q' => painted(200, [0; 3], contour),
            'o' => painted(255, [0; 3], contour),
            'c' | 'd' => [letters("c"), contour].concat(),
            delimiter => letters(&delimiter.to_string()),
        });
    }
    let tables = samples::tables(&records);
    let drawing = Drawing::of(&tables);
    let shown = Scene::of(drawing).shown(4, 4);
    // The edges as lines, unclassed, say the same.
    let stream = stream::of_drawing(drawing);
    assert_eq!(stream::shown(drawing, &stream, 4, 4), shown, "{text}");
    assert_eq!(machine::shown(drawing, &stream, 4, 4), shown, "{text}");
    shown
}

#[test]
fn sides_and_groups() {
    for (text, expected) in [
        ("", 0),
        ("ppq", 0b011),
        ("pop", 0b011),
        ("qoo", 0b010),
        // "A group on a paint side shows its right side where its left passes."
        ("(c|p)p", 0b110),
        ("(d|p)p", 0b100),
        ("(|p)p", 0b10),
        ("(dc|p)", 0b100),
        ("(c|)p", 0b10),
        // The opaque area ends all that is behind it, out of its group too.
        ("(c|po)p", 0b0110),
        ("(d|po)p", 0b1000),
        ("(c|(c|o)p)p", 0b100),
        // "A group on a clip side passes if both its sides pass."
        ("((c|c)|p)", 0b100),
        ("((c|d)|p)", 0),
        ("((d|c)|p)", 0),
        ("((c|d)c|p)", 0b1000),
        ("((c|)|p)", 0),
        ("((|c)|p)", 0),
        ("((c|(c|d))|p)", 0),
        ("((c|(d|c)c)|p)", 0b10000),
        ("(((c|c)|c)|p)p", 0b11000),
        ("(((c|d)|c)|p)p", 0b10000),
        // "that every group around them shows"
        ("(c|(d|p)p)p", 0b11000),
        ("(d|(c|p)p)p", 0b10000),
        ("(c|(c|(c|(c|(c|(c|(c|(c|p))))))))", 1 << 8),
        ("((((((((c|c)|c)|c)|c)|c)|c)|c)|p)", 1 << 8),
        ("((((((((c|d)|c)|c)|c)|c)|c)|c)|p)", 0),
    ] {
        assert_eq!(shown_by(text), expected, "{text}");
    }
}

#[test]
fn edges_rows_and_fill_rules() {
    let edge = |from, to| Edge { from, to };
    // Upright: its rows hold the lower end and not the upper; a line meeting the position is not
    // right of it.
    let upward = edge((5, 2), (5, 6));
    assert_eq!((upward.rows(), upward.sign()), (2..6, 1));
    for (x, y, counts) in [
        (4, 2, true),
        (4, 5, true),
        (4, 6, false),
        (4, 1, false),
        (5, 3, false),
        (6, 3, false),
        (0, 3, true),
    ] {
        assert_eq!(upward.counts(x, y), counts, "{x} {y}");
        assert_eq!(edge((5, 6), (5, 2)).counts(x, y), counts, "{x} {y}");
    }
    assert_eq!(edge((5, 6), (5, 2)).sign(), -1);
    // Level: no rows.
    assert!(edge((0, 3), (9, 3)).rows().is_empty());
    assert!((0..9).all(|x| !edge((0, 3), (9, 3)).counts(x, 3)));
    // Slanted, either way: x = y, and x = 10 - y.
    for (x, y, counts) in [(2, 3, true), (3, 3, false), (4, 3, false)] {
        assert_eq!(edge((0, 0), (10, 10)).counts(x, y), counts);
    }
    for (x, y, counts) in [(6, 3, true), (7, 3, false), (8, 3, false)] {
        assert_eq!(edge((10, 0), (0, 10)).counts(x, y), counts);
    }
    // Steps of a third: x = y / 3, strictly left of it.
    let third = edge((0, 0), (1, 3));
    let counts = [0, 1, 2].map(|y| third.counts(0, y));
    assert_eq!(counts, [false, true, true]);
    // The largest numbers.
    let widest = edge((65_536, 0), (0, 65_536));
    assert_eq!(widest.product(0, 0), 1 << 32);
    assert!(widest.counts(65_535, 0) && !widest.counts(65_535, 1) && widest.counts(0, 65_535));

    for winding in -5..=5 {
        assert_eq!(meaning::fill_passes(0, winding), winding != 0);
        let odd = [-5, -3, -1, 1, 3, 5].contains(&winding);
        assert_eq!(meaning::fill_passes(1, winding), odd);
    }
}

/// One unit of a pixel painted black shows in it exactly where the unit holds a sample.
#[test]
fn the_samples_of_a_pixel() {
    let offsets = "3 8 13 2 7 12 1 6 11 0 5 10 15 4 9 14";
    let offsets: Vec<u32> = offsets.split(' ').map(|n| n.parse().unwrap()).collect();
    let (pixel, row) = (7, 4_095);
    for (column, offset) in offsets.into_iter().enumerate() {
        for y in 0..16 {
            let unit = square_at(16 * pixel + column as u32, 16 * row + y, 1);
            let tables = samples::tables(&painted(255, [0, 255, 15], unit));
            let scene = Scene::of(Drawing::of(&tables));
            let expected = match y == offset {
                // (15 x 65,025 + 2,040) / 4,080, and (15 x 65,025 + 255 x 15 + 2,040) / 4,080
                true => [239, 255, 240],
                false => [255; 3],
            };
            assert_eq!(scene.pixel(row, pixel), expected, "{column} {y}");
        }
    }
}

/// A pixel whose samples are all alike has the colour of a position: (16 s + 2,040) / 4,080 is
/// (s + 127) / 255 for every sum s that a channel can have.
#[test]
fn sixteen_equal_samples_make_the_colour_of_one() {
    for sum in 0..=255 * 255 {
        let of_position = meaning::rounded([sum; 3]);
        let of_pixel = meaning::pixel([[sum; 3]; 16]);
        assert_eq!(of_pixel.map(u32::from), of_position, "sum {sum}");
    }
}

// ---- squares and classes ----

#[test]
fn the_class_at_four_positions_is_the_class_at_all() {
    let random = &mut Random::for_test(41);
    let mut tally = Tally::default();
    for _ in 0..60_000 {
        // Sides 1 to 16, and now and then 256.
        let levels = match random.one_in(500) {
            true => 8,
            false => random.within(12..=16) as u32,
        };
        let square = scenes::square_in(random, Square::WHOLE, levels);
        let near = |random: &mut Random, low: u32| {
            let side = i64::from(square.side);
            let reach = match random.below(3) {
                0 => 2,
                1 => side + 2,
                _ => 3 * side,
            };
            let far = random.within(0..=(2 * reach + side) as usize) as i64 - reach;
            (i64::from(low) + far).clamp(0, 65_536)
        };
        let any = |random: &mut Random| random.below(65_537) as i64;
        let end = |random: &mut Random| match random.below(8) {
            0 => (any(random), any(random)),
            1 => (any(random), near(random, square.y)),
            2 => (near(random, square.x), any(random)),
            _ => (near(random, square.x), near(random, square.y)),
        };
        let edge = Edge {
            from: end(random),
            to: end(random),
        };
        let edge = Segment::Edge(edge);
        let by_looking = class::by_looking(edge, square);
        assert_eq!(class::of(edge, square), by_looking, "{edge:?} {square:?}");
        tally.note(name_of_class(by_looking).to_string());

        // L3: a shortcut of a parent, cut to a child, is what the edge itself is there.
        if let (Class::Shortcut { sign, first, end }, Some(quarters)) =
            (by_looking, square.quarters())
        {
            for quarter in quarters {
                let of_edge = class::of(edge, quarter);
                assert_eq!(class::shortcut(sign, first, end, quarter), of_edge);
            }
        }
    }
    tally.print("classes");
    for what in ["dropped", "shortcut", "start", "line"] {
        tally.reached(what, 1_000);
    }
}

fn name_of_class(class: Class) -> &'static str {
    match class {
        Class::Dropped => "dropped",
        Class::Shortcut { .. } => "shortcut",
        Class::Start { .. } => "start",
        Class::Line => "line",
    }
}

#[test]
fn keys_and_quarters() {
    let random = &mut Random::for_test(42);
    for _ in 0..2_000 {
        let levels = random.within(0..=16) as u32;
        let square = scenes::square_in(random, Square::WHOLE, levels);
        assert_eq!(square.depth(), levels);
        let Some(quarters) = square.quarters() else {
            assert_eq!(square.side, 1);
            continue;
        };
        // Keys follow the order of the quarters, and the quarters tile the square.
        let positions = square.side / 2 * (square.side / 2);
        for (i, quarter) in quarters.into_iter().enumerate() {
            assert_eq!(quarter.key(), square.key() + i as u32 * positions);
        }
        let x = square.x + random.below(square.side as usize) as u32;
        let y = square.y + random.below(square.side as usize) as u32;
        assert_eq!(quarters.iter().filter(|q| q.holds(x, y)).count(), 1);
    }
}

// ---- streams ----

#[test]
fn entries_and_their_words() {
    let random = &mut Random::for_test(43);
    for _ in 0..10_000 {
        let words = [
            random.within(0..=9) as u32,
            random.word(),
            random.word(),
            random.word(),
        ];
        match Entry::decode(words) {
            None => assert!(words[0] == 0 || words[0] == 9),
            Some(entry) => {
                let named = match words[0] {
                    4 | 5 => 3,
                    6 => 4,
                    8 => 2,
                    _ => 1,
                };
                assert_eq!(entry.named(), named);
                let encoded = entry.encode();
                assert_eq!(encoded[..named], words[..named]);
                assert!(encoded[named..].iter().all(|word| *word == 0));
                assert_eq!(Entry::decode(encoded), Some(entry));
            }
        }
    }
    let start = Entry::Area {
        number: 3,
        start: -2,
    };
    assert_eq!(start.encode(), [4, 3, u32::MAX - 1, 0]);
}

/// A position in a square, often on its border.
fn position_in(random: &mut Random, square: Square) -> (u32, u32) {
    let mut coordinate = |low: u32| match random.below(4) {
        0 => low,
        1 => low + square.side - 1,
        2 => low + (square.side / 2).min(square.side - 1),
        _ => low + random.below(square.side as usize) as u32,
    };
    (coordinate(square.x), coordinate(square.y))
}

#[test]
fn streams_written_by_others() {
    let random = &mut Random::for_test(50);
    let mut tally = Tally::default();
    for _ in 0..1_500 {
        let tables = scenes::tables(random);
        let drawing = Drawing::of(&tables);
        let square = foreign::any_square(random);
        let stream = foreign::stream(random, &tables, square);
        // It passes 12 as cell 0 alone would, or as any run of the entries.
        let in_use = InUse {
            cells: 1,
            entries: stream.len() + 3,
            areas: tables.plan[1] as usize,
            corners: tables.plan[2] as usize,
        };
        let mut words = vec![9; 12];
        words.splice(4..4, stream::words(&stream));
        let count = stream.len() as u32;
        let passed = stream::check(drawing, in_use, square, &words, 1, count);
        assert_eq!(passed.as_ref(), Some(&stream));
        let off = stream::check(drawing, in_use, square, &words, 0, count + 1);
        assert_eq!(off, None, "the kind 9 is not known");

        let pruned = prune(drawing, &stream);
        assert_eq!(pruned, prune_in_any_order(drawing, &stream, random));
        let quarters = square.quarters().map(|quarters| {
            quarters.map(|q| (q, prune(drawing, &stream::in_square(drawing, &stream, q))))
        });
        for _ in 0..20 {
            let (x, y) = position_in(random, square);
            let shown = stream::shown(drawing, &stream, x, y);
            assert_eq!(machine::shown(drawing, &stream, x, y), shown);
            assert_eq!(stream::shown(drawing, &pruned, x, y), shown);
            tally.note(if shown == 0 { "nothing" } else { "shown" }.to_string());
            for (quarter, child) in quarters.iter().flatten() {
                if quarter.holds(x, y) {
                    assert_eq!(stream::shown(drawing, child, x, y), shown);
                    assert_eq!(machine::shown(drawing, child, x, y), shown);
                }
            }
        }
    }
    tally.print("streams of others");
    tally.reached("shown", 3_000);
}

// ---- pruning ----

/// A square in which something of the drawing lies, mostly.
fn random_square(random: &mut Random, tables: &Tables) -> Square {
    let (x, y) = scenes::position(random, tables);
    let side = 1 << random.within(0..=16);
    Square {
        x: x / side * side,
        y: y / side * side,
        side,
    }
}

#[test]
fn pruning_does_not_depend_on_the_order() {
    let random = &mut Random::for_test(44);
    let mut used = [0; 7];
    for _ in 0..5_000 {
        let tables = scenes::tables(random);
        let drawing = Drawing::of(&tables);
        let whole = stream::of_drawing(drawing);
        for _ in 0..4 {
            let square = random_square(random, &tables);
            let unpruned = stream::in_square(drawing, &whole, square);
            let pruned = prune_and_count(drawing, &unpruned);
            for (sum, times) in used.iter_mut().zip(pruned.used) {
                *sum += times;
            }
            let pruned = pruned.stream;
            let other = prune_in_any_order(drawing, &unpruned, random);
            assert_eq!(pruned, other, "{unpruned:?}");
            assert_eq!(prune(drawing, &pruned), pruned, "pruned once more");
            expect_normal(drawing, &stream::sides_of(&pruned), PAINT, false);
        }
    }
    println!("rules 12 to 18: {used:?}");
    for (i, times) in used.into_iter().enumerate() {
        assert!(times >= 300, "rule {} was used {times} times", i + 12);
    }
}

/// What stands in a pruned stream: "In a pruned stream `passes` stands only as the one item on the
/// right of a group on a clip side", no side of a group is empty, nothing stands behind an F1.
fn expect_normal(drawing: Drawing, side: &Side<Piece>, role: u32, right_of_clip: bool) {
    for (i, item) in side.iter().enumerate() {
        match item {
            Item::One(Piece::Passes) => {
                assert!(role == CLIP && right_of_clip && side.len() == 1);
            }
            Item::One(Piece::Area {
                number,
                start,
                segments,
            }) => {
                let area = drawing.area(*number);
                assert_eq!(area.role, role);
                if segments.is_empty() {
                    assert!(role == PAINT && meaning::fill_passes(area.rule, *start));
                    assert!(area.alpha < 255 || i + 1 == side.len());
                }
            }
            Item::Group { left, right } => {
                assert!(!left.is_empty() && !right.is_empty());
                expect_normal(drawing, left, CLIP, false);
                expect_normal(drawing, right, role, role == CLIP);
            }
        }
    }
}

/// Rewriting by hand, from letters: `f`, `F`, `c`, `C` are F0, F1, C0, C1, `x` and `y` a paint area
/// and a clip area with a line.
fn rewritten(text: &str) -> String {
    let mut records = Vec::new();
    for letter in text.chars() {
        let inside = || contour(&[(5, 5), (9, 5), (9, 9)]);
        let paint = |alpha| vec![area(PAINT, 0, alpha, [0; 3], 1)];
        let clip = || vec![area(CLIP, 0, 0, [0; 3], 0)];
        records.extend(match letter {
            'f' => paint(255),
            'F' => [paint(255), square_at(0, 0, 65_536)].concat(),
            'w' => [paint(254), square_at(0, 0, 65_536)].concat(),
            'x' => [paint(255), inside()].concat(),
            'c' => clip(),
            'C' => [clip(), square_at(0, 0, 65_536)].concat(),
            'y' => [clip(), inside()].concat(),
            delimiter => letters(&delimiter.to_string()),
        });
    }
    let tables = samples::tables(&records);
    let Tables {
        plan,
        areas,
        xs,
        ys,
    } = &tables;
    assert!(check_tables(plan, areas, xs, ys).is_some(), "{text}");
    let drawing = Drawing::of(&tables);
    let stream = tree::stream_in(drawing, Square::WHOLE);
    let letter = |(i, entry): (usize, &Entry)| match entry {
        Entry::Open => Some('('),
        Entry::Bar => Some('|'),
        Entry::Close => Some(')'),
        Entry::Passes => Some('C'),
        Entry::Area { number, start } => {
            let line = matches!(stream.get(i + 1), Some(Entry::Line { .. }));
            assert!(*start == if line { 0 } else { 1 });
            Some(match (drawing.area(*number), line) {
                (area, true) if area.role == CLIP => 'y',
                (_, true) => 'x',
                (area, false) if area.alpha == 255 => 'F',
                _ => 'w',
            })
        }
        _ => None,
    };
    stream.iter().enumerate().filter_map(letter).collect()
}

#[test]
fn rules_by_hand() {
    for (text, expected) in [
        // 12, 13
        ("f", ""),
        ("fxf", "x"),
        ("(cyc|x)", "(y|x)"),
        // 14, at the top level and in groups; not for alpha 254, not from one level to another
        ("xFxx", "xF"),
        ("xF", "xF"),
        ("FF", "F"),
        ("xwx", "xwx"),
        ("F(y|x)", "F"),
        ("(y|xFx)x", "(y|xF)x"),
        ("(y|x(y|xFx)x)x", "(y|x(y|xF)x)x"),
        // 15, 16
        ("(|x)", ""),
        ("(y|)", ""),
        ("(|)", ""),
        ("(c|x)x", "x"),
        ("(y|f)x", "x"),
        ("((y|c)|x)", ""),
        ("((|y)y|x)", "(y|x)"),
        // 17
        ("(C|x)", "x"),
        ("(yCy|xx)x", "xxx"),
        ("(C|xF)x", "xF"),
        ("(C|)x", "x"),
        ("((C|y)|x)", "(y|x)"),
        ("((C|C)|x)", "x"),
        ("((y|y)C|x)", "x"),
        // 18, and what is left of it
        ("((y|C)|x)", "((y|C)|x)"),
        ("((y|yCy)|x)", "((y|C)|x)"),
        ("((y|CC)|x)", "((y|C)|x)"),
        ("((y|(y|yC))|x)", "((y|(y|C))|x)"),
        ("((y|(C|C))|x)", "((y|C)|x)"),
        ("((yC|yCy)|x)", "x"),
    ] {
        assert_eq!(rewritten(text), expected, "{text}");
    }
}

// ---- random drawings ----

/// Drawings of all shapes are made.
#[test]
fn the_random_drawings() {
    let random = &mut Random::for_test(49);
    let mut tally = Tally::default();
    let (mut all_areas, mut all_corners, mut all_entries) = (0, 0, 0);
    for _ in 0..2_000 {
        let tables = scenes::tables(random);
        let areas = tables.plan[1] as usize;
        all_areas += areas;
        all_corners += tables.xs.len();
        let drawing = Drawing::of(&tables);
        let deepest = nested(&Scene::of(drawing).top);
        tally.note(format!("{deepest} deep"));
        let clips = tables.areas.chunks(8).filter(|row| row[0] == CLIP).count();
        for (what, so) in [
            ("no record", tables.plan[0] == 0),
            ("no area", areas == 0),
            ("one area", areas == 1),
            ("over 8 areas", areas > 8),
            ("64 areas", areas == 64),
            ("clip areas", clips > 0),
            ("over 100 corners", tables.xs.len() > 100),
            ("even-odd", tables.areas.chunks(8).any(|row| row[1] == 1)),
        ] {
            if so {
                tally.note(what.to_string());
            }
        }
        let stream = tree::stream_in(drawing, Square::WHOLE);
        all_entries += stream.len();
        if stream.is_empty() {
            tally.note("empty stream".to_string());
        }
        if stream.contains(&Entry::Passes) {
            tally.note("passes".to_string());
        }
    }
    println!("areas {all_areas}, corners {all_corners}, entries of cells 0 {all_entries}");
    tally.print("drawings");
    for deep in 0..=8 {
        tally.reached(&format!("{deep} deep"), 20);
    }
    for what in [
        "no record",
        "one area",
        "over 8 areas",
        "64 areas",
        "passes",
    ] {
        tally.reached(what, 20);
    }
}

fn nested<T>(side: &Side<T>) -> usize {
    let deep = |item: &Item<T>| match item {
        Item::One(_) => 0,
        Item::Group { left, right } => 1 + nested(left).max(nested(right)),
    };
    side.iter().map(deep).max().unwrap_or(0)
}
