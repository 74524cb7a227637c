//! The readings of a tree: the library against the second implementation, with the tree and with no
//! tree, after lists of calls, on damaged tables and on tables written by others.

use zones_tests::class::Square;
use zones_tests::compare;
use zones_tests::drawing::{MOST_AREAS, MOST_RECORDS};
use zones_tests::foreign;
use zones_tests::lent::{any_bytes, lent_bytes, lent_words, LentTables, LentTree};
use zones_tests::meaning::{self, Drawing, Scene, PIXEL};
use zones_tests::query::{CHANNELS, PIXELS};
use zones_tests::random::Random;
use zones_tests::readings::{shown_words, SHOWN_WORDS, SPOT_WORDS};
use zones_tests::record::{letters, Record};
use zones_tests::sample::{grown, Sample};
use zones_tests::samples;
use zones_tests::scenes::{self, painted, square_at};
use zones_tests::tally::Tally;
use zones_tests::tree::CELL_WORDS;
use zones_tests::tree_damage::TREE_DAMAGES;
use zones_tests::zones::Answer;

/// A coordinate of a border of a leaf, or one beside it.
fn on_border(random: &mut Random, low: u32, side: u32) -> u32 {
    let at = random.pick(&[low, low + side]) + random.pick(&[0, 0, 1]);
    at.saturating_sub(random.pick(&[0, 1])).min(65_535)
}

/// On a line, a corner or a border of the sample's cells, or one beside it, or anywhere.
fn any_position(random: &mut Random, sample: &Sample) -> (u32, u32) {
    let (mut x, mut y) = scenes::any_position(random, &sample.tables);
    if random.one_in(4) {
        if let Some(leaf) = sample.leaf_at((x, y)) {
            let border = random.below(3);
            if border != 1 {
                x = on_border(random, leaf.square.x, leaf.square.side);
            }
            if border != 0 {
                y = on_border(random, leaf.square.y, leaf.square.side);
            }
        }
    }
    (x, y)
}

// ---- the readings, one by one ----

/// Reads at so many positions, with room for the words or too little. With a scene, what is read is
/// what the drawing says with no tree.
fn positions(
    random: &mut Random,
    sample: &Sample,
    scene: Option<&Scene>,
    tally: &mut Tally,
    times: usize,
) {
    let mut reader = sample.reader();
    for _ in 0..times {
        let (mut x, mut y) = any_position(random, sample);
        match random.below(80) {
            0 => x = random.pick(&[65_536, 65_537, u32::MAX]),
            1 => y = random.pick(&[65_536, 131_071, u32::MAX]),
            _ => {}
        }
        let words = match random.below(10) {
            0 => random.pick(&[11, 14, 9, 9, 6, 1, 0]),
            _ => SPOT_WORDS,
        };
        let words: Vec<u32> = (0..words).map(|_| random.word()).collect();
        let blank = lent_words(random, &words);
        let (answer, out) = reader.position((x, y), &blank);
        tally.note_call("position", answer);
        if let (Answer::Accepted(material), Some(scene)) = (answer, scene) {
            let reading = scene.position(x, y);
            assert_eq!(out.table()[..SHOWN_WORDS], shown_words(reading));
            assert_eq!(material, reading.material);
            assert_eq!(out.table()[SPOT_WORDS..], words[SPOT_WORDS..]);
        }
    }
    reader.finish();
}

/// Fills rows of a few pixels, now and then of none or of pixels that are not there.
fn rows(
    random: &mut Random,
    sample: &Sample,
    scene: Option<&Scene>,
    tally: &mut Tally,
    times: usize,
) {
    let mut reader = sample.reader();
    for _ in 0..times {
        let (x, y) = any_position(random, sample);
        let pixels = random.pick(&[0, 1, 2, 3, 5, 20]);
        let most = PIXELS - pixels as u32;
        // The pixel of a position is not always the first, so that a row passes borders of cells.
        let before = random.below(pixels + 1) as u32;
        let (mut row, mut first) = (y / PIXEL, (x / PIXEL).saturating_sub(before).min(most));
        let mut bytes = CHANNELS * pixels;
        match random.below(40) {
            0 => row = random.pick(&[PIXELS, PIXELS + 1, u32::MAX]),
            1 => first = random.pick(&[most + 1, PIXELS + 1, u32::MAX]),
            2 => bytes += random.within(1..=2),
            3 => (row, first) = (PIXELS - 1, most),
            _ => {}
        }
        let bytes = any_bytes(random, bytes);
        let blank = lent_bytes(random, &bytes);
        let (answer, out) = reader.pixel_row(row, first, &blank);
        tally.note_call("row", answer);
        let drawn = match answer {
            Answer::Accepted(result) => {
                assert_eq!(result, 0);
                pixels
            }
            Answer::Refused { place, .. } => place as usize,
        };
        for (pixel, i) in out.table().chunks(CHANNELS).take(drawn).zip(first..) {
            tally.note("pixels".to_string());
            if let Some(scene) = scene {
                if expect_pixel(pixel, scene, (row, i)) {
                    tally.note(DIFFERS.to_string());
                }
            }
        }
    }
    reader.finish();
}

/// A pixel by document 02, Item 1; whether the rule of before gives another colour.
fn expect_pixel(pixel: &[u8], scene: &Scene, (row, number): (u32, u32)) -> bool {
    let sums = scene.sums(row, number);
    let now = meaning::pixel(sums);
    assert_eq!(*pixel, now, "pixel {number} of row {row}");
    let before = meaning::pixel_before_item_1(sums.map(meaning::rounded));
    let nearly = |(now, then): (u8, u8)| now.abs_diff(then) <= 1;
    let nearly_all = now.into_iter().zip(before).all(nearly);
    assert!(nearly_all, "the two rules: {now:?} {before:?}");
    now != before
}

const DIFFERS: &str = "pixels on which the rules differ";

/// Writes logs of runs, with room for the indices or too little, now and then of runs that have a
/// position that is none, or tables of unequal length.
fn logs(
    random: &mut Random,
    sample: &Sample,
    scene: Option<&Scene>,
    tally: &mut Tally,
    times: usize,
) {
    let mut reader = sample.reader();
    for _ in 0..times {
        let len = random.pick(&[0, 1, 2, 5, 20, 60]);
        let (mut px, mut py) = scenes::run(random, &sample.tables, len);
        match random.below(30) {
            0 if len > 0 => px[random.below(len)] = random.pick(&[65_536, u32::MAX]),
            1 if len > 0 => py[random.below(len)] = random.pick(&[65_536, u32::MAX]),
            2 => py.push(0),
            3 => px.push(u32::MAX),
            _ => {}
        }
        let indices = scene.map_or(len, |scene| scene.zone_log(&px, &py).len());
        let room = match random.below(8) {
            0 => indices.saturating_sub(1),
            1 => random.below(indices + 1),
            2 => indices + random.below(4),
            _ => indices,
        };
        let words: Vec<u32> = (0..room).map(|_| random.word()).collect();
        let blank = lent_words(random, &words);
        let (px, py) = (lent_words(random, &px), lent_words(random, &py));
        let (answer, out) = reader.zone_log(&px, &py, &blank);
        tally.note_call("log", answer);
        match (answer, scene) {
            (Answer::Accepted(indices), Some(scene)) => {
                let expected = scene.zone_log(px.table(), py.table());
                assert_eq!(out.table()[..indices as usize], expected);
                if indices > 1 {
                    tally.note("log of a change".to_string());
                }
            }
            (Answer::Refused { place, .. }, _) if place > 0 => {
                tally.note("log with a place".to_string());
            }
            _ => {}
        }
    }
    reader.finish();
}

// ---- lists of calls ----

/// One call that splits, grows, opens or finds; what it changed stays.
fn change(random: &mut Random, sample: &mut Sample, tally: &mut Tally) {
    match random.below(8) {
        0 => refused_open(random, sample, tally),
        1 => grow(random, sample, tally),
        2 => {
            let blank = lent_words(random, &[7; 9]);
            let at = any_position(random, sample);
            tally.note_call("find", sample.find_leaf(at, &blank).0);
        }
        _ => {
            let at = any_position(random, sample);
            let cell = match random.below(8) {
                0 => random.below(sample.tree.head.table()[0] as usize + 1) as u32,
                _ => sample.leaf_at(at).expect("a leaf is found").cell,
            };
            tally.note_call("split", sample.split(cell));
        }
    }
}

/// An opening that is refused: with tables of unequal length, or a drawing that breaks the grammar.
fn refused_open(random: &mut Random, sample: &mut Sample, tally: &mut Tally) {
    let mut drawing = sample.drawing.clone();
    match random.below(2) {
        0 => {
            let corners = drawing.xs.table().len();
            match corners {
                0 => drawing.plan.shorten(2),
                _ => drawing.xs.shorten(corners - 1),
            }
        }
        _ => drawing.plan.table_mut()[0] += 1_000_000,
    }
    let (answer, after) = compare::open(&drawing, &sample.tree);
    assert!(matches!(answer, Answer::Refused { .. }), "{answer:?}");
    tally.note_call("open", answer);
    sample.tree = after;
}

/// Growing, now and then with a depth limit that is none.
fn grow(random: &mut Random, sample: &mut Sample, tally: &mut Tally) {
    let threshold = random.pick(&[0, 0, 1, 2, 5, 20]);
    let limit = random.pick(&[1, 2, 3, 4, 6, 16, 17]);
    tally.note_call("grow", sample.grow(threshold, limit));
}

/// A tree opened by both in tables that are full of other words; None where they have no room.
fn opened(random: &mut Random, tally: &mut Tally) -> Option<Sample> {
    let tables = scenes::any_tables(random, 100);
    let cells = random.pick(&[1, 5, 9, 30, 100, 100, 300]);
    let entries = random.pick(&[50, 300, 300, 3_000, 3_000]);
    let mut sample = Sample::unopened(random, tables, cells, entries);
    let answer = sample.open();
    tally.note_call("open", answer);
    matches!(answer, Answer::Accepted(_)).then_some(sample)
}

#[test]
fn readings_in_lists_of_calls() {
    let random = &mut Random::for_test(110);
    let mut tally = Tally::default();
    for _ in 0..2_000 {
        let Some(mut sample) = opened(random, &mut tally) else {
            continue;
        };
        let tables = sample.tables.clone();
        let scene = Scene::of(Drawing::of(&tables));
        for _ in 0..random.within(1..=8) {
            change(random, &mut sample, &mut tally);
            positions(random, &sample, Some(&scene), &mut tally, 50);
            rows(random, &sample, Some(&scene), &mut tally, 5);
            logs(random, &sample, Some(&scene), &mut tally, 5);
        }
        positions(random, &sample, Some(&scene), &mut tally, 50);
        tally.note("drawings".to_string());
    }
    tally.print("lists");
    tally.reached("drawings", 1_000);
    tally.reached("position accepted", 200_000);
    tally.reached("pixels", 20_000);
    tally.reached(DIFFERS, 50);
    tally.reached("log accepted", 10_000);
    tally.reached("log of a change", 2_000);
    for what in ["position 7", "position 11"] {
        tally.reached(what, 2_000);
    }
    for what in ["row 7", "log 7", "log 11", "log with a place"] {
        tally.reached(what, 100);
    }
    for what in [
        "split accepted",
        "grow accepted",
        "find accepted",
        "open 7",
        "open 12",
    ] {
        tally.reached(what, 100);
    }
    for what in ["split 9", "split 11", "grow 7"] {
        tally.reached(what, 20);
    }
}

// ---- pixels by Item 1 of document 02 ----

/// Every pixel of a square in which faint areas overlap, in trees of few and of many cells: in each
/// drawing there are some on which the two rules differ.
#[test]
fn pixels_of_faint_areas_that_overlap() {
    let random = &mut Random::for_test(117);
    let mut counts = Vec::new();
    for _ in 0..60 {
        let square = scenes::square_in(random, Square::WHOLE, 8);
        let tables = samples::tables(&scenes::faint(random, square));
        let mut sample = Sample::unopened(random, tables.clone(), 100, 3_000);
        assert!(matches!(sample.open(), Answer::Accepted(_)));
        sample.grow(random.pick(&[0, 10, 100]), 10);
        let scene = Scene::of(Drawing::of(&tables));
        let mut reader = sample.reader();
        let (first, pixels) = (square.x / PIXEL, (square.side / PIXEL) as usize);
        let mut count = 0;
        for row in (square.y / PIXEL..).take(pixels) {
            let bytes = any_bytes(random, CHANNELS * pixels);
            let (answer, out) = reader.pixel_row(row, first, &lent_bytes(random, &bytes));
            assert_eq!(answer, Answer::Accepted(0));
            let drawn = out.table().chunks(CHANNELS).zip(first..);
            count += drawn
                .filter(|(pixel, i)| expect_pixel(pixel, &scene, (row, *i)))
                .count();
        }
        reader.finish();
        counts.push(count);
    }
    let all: usize = counts.iter().sum();
    let (least, most) = (counts.iter().min(), counts.iter().max());
    println!("{DIFFERS}: {all}, in a drawing {least:?} to {most:?} of 256");
    assert!(counts.iter().all(|count| *count > 0), "{counts:?}");
}

/// A pixel of which the rule of before is one off, once each way. An area of alpha 11 and colour 243,
/// 58, 255 covers columns 0 to 8 of pixel 0, so samples 0 to 8 of the sixteen; samples 9 to 15 have
/// the white ground. Its weight is (255 × 11 + 127) / 255 = 11, and left is 244.
///
/// The sixteen sums of red: nine times 11 × 243 + 244 × 255 = 64,893 and seven times 255 × 255 =
/// 65,025, together 1,039,212; + 2,040 and / 4,080 is 255.2: 255. Of positions: (64,893 + 127) / 255 is
/// 254.98, so nine times 254 and seven times 255, together 4,071; + 8 and / 16 is 254.9: 254.
///
/// The sixteen sums of green: nine times 11 × 58 + 244 × 255 = 62,858 and seven times 65,025, together
/// 1,020,897; + 2,040 and / 4,080 is 250.7: 250. Of positions: (62,858 + 127) / 255 is 247, so nine
/// times 247 and seven times 255, together 4,008; + 8 and / 16 is 251.
///
/// Those of blue are all 65,025: 255 by both.
#[test]
fn a_pixel_that_was_one_off() {
    let random = &mut Random::for_test(118);
    let columns = scenes::contour(&[(0, 0), (9, 0), (9, 16), (0, 16)]);
    let mut sample = read_and_open(random, &painted(11, [243, 58, 255], columns));
    let tables = sample.tables.clone();
    let scene = Scene::of(Drawing::of(&tables));
    let (area, ground) = ([64_893, 62_858, 65_025], [65_025; 3]);
    let sums: Vec<[u32; 3]> = [vec![area; 9], vec![ground; 7]].concat();
    assert_eq!(scene.sums(0, 0)[..], sums);
    let colours = scene.sums(0, 0).map(meaning::rounded);
    assert_eq!(meaning::pixel_before_item_1(colours), [254, 251, 255]);
    assert_eq!(scene.pixel(0, 0), [255, 250, 255]);
    for cell in 0..2 {
        let mut reader = sample.reader();
        let blank = lent_bytes(random, &[77; 6]);
        let (answer, out) = reader.pixel_row(0, 0, &blank);
        assert_eq!(answer, Answer::Accepted(0));
        assert_eq!(out.table(), [255, 250, 255, 255, 255, 255]);
        // "Single positions keep their rounding", says document 02.
        let blank = lent_words(random, &[77; SPOT_WORDS]);
        let (_, out) = reader.position((8, 11), &blank);
        assert_eq!(out.table()[..SHOWN_WORDS], [1, 0, 7, 254, 247, 255]);
        reader.finish();
        let answer = sample.split(cell);
        assert!(matches!(answer, Answer::Accepted(_)), "{answer:?}");
    }
}

/// Of one area that covers a whole pixel, whatever its alpha and channel, the pixel has exactly the
/// colour of a position. 64 areas to a drawing, each in its own block of the grid, of three
/// channels each; 86 of them have all values of a channel with one alpha.
#[test]
fn a_pixel_of_one_area_has_the_colour_of_a_position() {
    let random = &mut Random::for_test(119);
    let mut seen = vec![false; 256 * 256];
    let kinds: Vec<(u8, [u8; 3])> = (0..256 * 86)
        .map(|n| {
            let channel = |more: u32| (n % 86 * 3 + more).min(255) as u8;
            ((n / 86) as u8, [0, 1, 2].map(channel))
        })
        .collect();
    for kinds in kinds.chunks(MOST_AREAS) {
        let blocks = (0..MOST_AREAS as u32).map(|n| (n % 8 * 8_192, n / 8 * 8_192));
        let placed: Vec<_> = kinds.iter().copied().zip(blocks).collect();
        let one = |((alpha, colour), (x, y))| painted(alpha, colour, square_at(x, y, 8_192));
        let records: Vec<Record> = placed.iter().copied().flat_map(one).collect();
        let mut sample = Sample::unopened(random, samples::tables(&records), 85, 3_000);
        assert!(matches!(sample.open(), Answer::Accepted(_)));
        assert_eq!(sample.grow(0, 3), Answer::Accepted(21));
        let mut reader = sample.reader();
        for ((alpha, colour), (x, y)) in placed {
            let (x, y) = (
                x + random.below(8_192) as u32,
                y + random.below(8_192) as u32,
            );
            let blank = lent_words(random, &[77; SPOT_WORDS]);
            let (_, position) = reader.position((x, y), &blank);
            let blank = lent_bytes(random, &[77; CHANNELS]);
            let (_, pixel) = reader.pixel_row(y / PIXEL, x / PIXEL, &blank);
            let pixel: Vec<u32> = pixel.table().iter().map(|byte| (*byte).into()).collect();
            let position = &position.table()[3..SHOWN_WORDS];
            assert_eq!(pixel, position, "alpha {alpha}, {colour:?}");
            for channel in colour {
                seen[usize::from(alpha) * 256 + usize::from(channel)] = true;
            }
        }
        reader.finish();
    }
    assert!(seen.iter().all(|seen| *seen));
}

// ---- damaged tables ----

#[test]
fn readings_of_damaged_tables() {
    let random = &mut Random::for_test(111);
    let mut all = Tally::default();
    for damage in TREE_DAMAGES {
        let mut tally = Tally::default();
        for _ in 0..150 {
            let sample = Sample::damaged(random, damage);
            for tally in [&mut tally, &mut all] {
                positions(random, &sample, None, tally, 10);
                rows(random, &sample, None, tally, 10);
                logs(random, &sample, None, tally, 10);
            }
        }
        tally.print(&format!("{damage:?}"));
    }
    all.print("damaged");
    for what in ["accepted", "7", "11", "12"] {
        all.reached(&format!("position {what}"), 100);
        all.reached(&format!("log {what}"), 100);
    }
    for what in ["accepted", "7", "12"] {
        all.reached(&format!("row {what}"), 100);
    }
}

/// "a pixel row met by 12: place is the pixel's index in the call, earlier pixels stand, the rest are
/// untouched." A run that meets the same leaf is refused as a whole.
#[test]
fn pixels_before_a_broken_leaf_stand() {
    let random = &mut Random::for_test(116);
    let mut tally = Tally::default();
    for _ in 0..2_000 {
        let (tables, mut tree) = grown(random);
        let scene = Scene::of(Drawing::of(&tables));
        let leaf = random.pick(&tree.leaves());
        let square = tree.view().cell(leaf).square;
        if square.side < PIXEL || square.x == 0 {
            continue;
        }
        tree.cells[CELL_WORDS * leaf as usize + 2] = random.pick(&[0, 3, 131_072]);
        let sample = Sample::exact(random, tables.clone(), &tree);
        let mut reader = sample.reader();
        let before = random.within(1..=(square.x / PIXEL).min(6) as usize) as u32;
        let (x, y) = (
            square.x - PIXEL * before,
            square.y + random.below(square.side as usize) as u32,
        );
        let pixels = before + random.within(1..=(square.side / PIXEL).min(4) as usize) as u32;
        let bytes = any_bytes(random, CHANNELS * pixels as usize);
        let blank = lent_bytes(random, &bytes);
        let (row, first) = (y / PIXEL, x / PIXEL);
        let (answer, out) = reader.pixel_row(row, first, &blank);
        let expected = Answer::Refused {
            number: 12,
            place: before,
        };
        assert_eq!(answer, expected);
        for (i, pixel) in out
            .table()
            .chunks(CHANNELS)
            .take(before as usize)
            .enumerate()
        {
            assert_eq!(*pixel, scene.pixel(row, first + i as u32));
        }
        let (mut px, mut py) = (vec![x, x + 1, square.x - 1], vec![y; 3]);
        let blank = lent_words(random, &[77; 3]);
        for accepted in [true, false] {
            let (lent_x, lent_y) = (lent_words(random, &px), lent_words(random, &py));
            let (answer, _) = reader.zone_log(&lent_x, &lent_y, &blank);
            assert_eq!(matches!(answer, Answer::Accepted(_)), accepted);
            px.push(square.x);
            py.push(y);
        }
        reader.finish();
        tally.note("rows".to_string());
    }
    tally.print("before a broken leaf");
    tally.reached("rows", 200);
}

#[test]
fn readings_of_trees_written_by_others() {
    let random = &mut Random::for_test(112);
    let mut tally = Tally::default();
    for _ in 0..600 {
        let tables = scenes::tables(random);
        let splits = random.below(12);
        let tree = foreign::tree(random, &tables, splits);
        let sample = Sample::exact(random, tables, &tree);
        positions(random, &sample, None, &mut tally, 40);
        rows(random, &sample, None, &mut tally, 10);
        logs(random, &sample, None, &mut tally, 10);
    }
    tally.print("others");
    for what in ["accepted", "12"] {
        for call in ["position", "row", "log"] {
            tally.reached(&format!("{call} {what}"), 200);
        }
    }
}

// ---- the spots of document 01 that are not proved ----

const ONE_AT_0: Answer = Answer::Refused {
    number: 1,
    place: 0,
};
const SEVEN_AT_0: Answer = Answer::Refused {
    number: 7,
    place: 0,
};

/// Reads records and opens a tree over them.
fn read_and_open(random: &mut Random, records: &[Record]) -> Sample {
    let blank = LentTables::ample(random);
    let bytes = lent_bytes(random, &records.concat());
    let (answer, drawing) = compare::read(&bytes, &blank);
    assert_eq!(answer, Answer::Accepted(records.len() as u32));
    let mut sample = Sample {
        tables: samples::tables(records),
        drawing,
        tree: LentTree::blank(random, 30, 8_000),
    };
    let answer = sample.open();
    assert!(matches!(answer, Answer::Accepted(_)), "{answer:?}");
    sample
}

/// "4,096 records read, 4,097 give 1".
#[test]
fn as_many_records_as_a_file_may_have() {
    let random = &mut Random::for_test(113);
    let mut records = samples::fullest(random);
    assert_eq!(records.len(), MOST_RECORDS);
    let sample = read_and_open(random, &records);
    let tables = sample.tables.clone();
    let scene = Scene::of(Drawing::of(&tables));
    positions(random, &sample, Some(&scene), &mut Tally::default(), 100);
    rows(random, &sample, Some(&scene), &mut Tally::default(), 10);
    logs(random, &sample, Some(&scene), &mut Tally::default(), 10);
    records.extend(letters("p"));
    let bytes = lent_bytes(random, &records.concat());
    let blank = LentTables::ample(random);
    assert_eq!(compare::read(&bytes, &blank).0, ONE_AT_0);
}

/// "64 areas pass": all of them are in the set, before and behind a split.
#[test]
fn as_many_areas_as_a_drawing_may_have() {
    let random = &mut Random::for_test(114);
    let one = |n: u32| painted(254, [0; 3], square_at(n, n, 65_536 - 2 * n));
    let records: Vec<Record> = (0..MOST_AREAS as u32).flat_map(one).collect();
    let mut sample = read_and_open(random, &records);
    for cell in 0..2 {
        let blank = lent_words(random, &[77; SPOT_WORDS]);
        let mut reader = sample.reader();
        let (answer, out) = reader.position((2_000, 3_000), &blank);
        assert_eq!(answer, Answer::Accepted(7));
        assert_eq!(out.table()[..2], [u32::MAX; 2]);
        // At (40, 70) the areas 0 to 40 pass.
        let (answer, out) = reader.position((40, 70), &blank);
        assert_eq!(answer, Answer::Accepted(7));
        assert_eq!(out.table()[..2], [u32::MAX, (1 << 9) - 1]);
        reader.finish();
        let answer = sample.split(cell);
        assert!(matches!(answer, Answer::Accepted(_)), "{answer:?}");
    }
}

/// "position 65,535 passes, 65,536 gives 7".
#[test]
fn the_last_position() {
    let random = &mut Random::for_test(115);
    let records = painted(255, [10, 20, 30], square_at(0, 0, 65_536));
    let mut sample = read_and_open(random, &records);
    for cell in 0..2 {
        let blank = lent_words(random, &[77; SPOT_WORDS]);
        let mut reader = sample.reader();
        for at in [(65_535, 65_535), (65_535, 0), (0, 65_535)] {
            let (answer, out) = reader.position(at, &blank);
            assert_eq!(answer, Answer::Accepted(7));
            assert_eq!(out.table()[..SHOWN_WORDS], [1, 0, 7, 10, 20, 30]);
        }
        for at in [(65_536, 0), (0, 65_536), (65_536, 65_536), (u32::MAX, 0)] {
            assert_eq!(reader.position(at, &blank).0, SEVEN_AT_0);
        }
        // In a run it is refused with its index, and the last pixel of a row is drawn.
        let px = lent_words(random, &[0, 65_535, 0, 65_536, 65_536]);
        let py = lent_words(random, &[0, 65_535, 65_535, 0, 1]);
        let expected = Answer::Refused {
            number: 7,
            place: 3,
        };
        assert_eq!(reader.zone_log(&px, &py, &blank).0, expected);
        let bytes = lent_bytes(random, &[77; 3]);
        let (answer, out) = reader.pixel_row(4_095, 4_095, &bytes);
        assert_eq!(
            (answer, out.table()),
            (Answer::Accepted(0), &[10, 20, 30][..])
        );
        for (row, first) in [(4_096, 0), (0, 4_096)] {
            assert_eq!(reader.pixel_row(row, first, &bytes).0, SEVEN_AT_0);
        }
        reader.finish();
        let answer = sample.split(cell);
        assert!(matches!(answer, Answer::Accepted(_)), "{answer:?}");
    }
}
