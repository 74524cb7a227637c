//! The curves of document 02, Item 2: the second implementation against the document's sentence, and
//! the library against the second implementation.

use std::fs;
use std::ops::RangeInclusive;

use zones_tests::bends::{self, Corner};
use zones_tests::class::{self, Class, Square};
use zones_tests::compare::{self, LEAF_WORDS};
use zones_tests::curve::{self, Curve, Segment, MOST_SPAN};
use zones_tests::damage;
use zones_tests::drawing::{
    self, AREA_WORDS, CONTROL, FIRST, MOST_COORDINATE, MOST_CORNERS, NEXT, PLAN_COUNTS,
    RECORD_BYTES,
};
use zones_tests::expect;
use zones_tests::fast;
use zones_tests::foreign;
use zones_tests::lent::{any_bytes, lent_bytes, lent_words, Lent, LentTables, LentTree};
use zones_tests::lister;
use zones_tests::machine;
use zones_tests::meaning::{Drawing, Scene, MOST_POSITION, PIXEL};
use zones_tests::pages;
use zones_tests::probe;
use zones_tests::prune::{prune, prune_in_any_order};
use zones_tests::query::{self, CHANNELS};
use zones_tests::random::Random;
use zones_tests::readings::{shown_words, SHOWN_WORDS, SPOT_WORDS};
use zones_tests::record::{corner, letters, Record};
use zones_tests::sample::Sample;
use zones_tests::samples::{self, Tables};
use zones_tests::scenes::{self, painted};
use zones_tests::stream::{self, Entry, InUse, ENTRY_WORDS};
use zones_tests::tally::Tally;
use zones_tests::tree::{self, TreeTables};
use zones_tests::tree_damage::{damage_tree, TREE_DAMAGES};
use zones_tests::zones::{Answer, FULL};
use zones_tools::words;

// ---- where a curve counts ----

/// Three numbers in order, up or down, from a range.
fn ordered(range: RangeInclusive<u32>) -> Vec<[u32; 3]> {
    let mut all = Vec::new();
    for a in range.clone() {
        for b in range.clone() {
            for c in range.clone() {
                if curve::in_order([a, b, c]) {
                    all.push([a, b, c]);
                }
            }
        }
    }
    all
}

/// Whether the fraction t = n / m does what the sentence says, for a curve taken from its lower end:
/// "where its x do not fall, some fraction t from 0 to 1 has curve x above x and curve y at most y;
/// where its x fall, some such t has curve x above x and curve y at least y."
fn serves(xs: [u32; 3], ys: [u32; 3], (n, m): (i64, i64), (x, y): (i64, i64)) -> bool {
    let at = |p: [u32; 3]| {
        let [p0, p1, p2] = p.map(i64::from);
        let k = m - n;
        p0 * k * k + 2 * p1 * k * n + p2 * n * n
    };
    let falls = xs[2] < xs[0];
    let low = at(ys) <= y * m * m;
    let high = at(ys) >= y * m * m;
    at(xs) > x * m * m && if falls { high } else { low }
}

/// The fractions of denominators up to 24 against the surds, on all small curves: a fraction that serves
/// shows that the curve counts, and where it counts some fraction serves, of a larger denominator if need
/// be.
#[test]
fn the_sentence_by_a_search_of_fractions() {
    let mut tally = Tally::default();
    let mut finest = 0;
    let rising = |ys: &[u32; 3]| ys[0] == 0 && ys[0] <= ys[1] && ys[1] <= ys[2];
    for ys in ordered(0..=6).into_iter().filter(rising) {
        for xs in ordered(0..=6) {
            let corners = [0, 1, 2].map(|i| (xs[i], ys[i]));
            let [from, control, to] = corners;
            let curve = Curve::of(corners);
            let downward = Curve::of([to, control, from]);
            assert_eq!(curve.ends().rows(), 0..ys[2].into());
            for y in 0..7 {
                for x in 0..7 {
                    let counts = curve.counts(x, y);
                    assert_eq!(downward.counts(x, y), counts);
                    assert_eq!(fast::curve_counts(curve, x, y), counts, "{curve:?}");
                    if y >= ys[2].into() {
                        assert!(!counts);
                        continue;
                    }
                    let found = |m: &i64| (0..=*m).any(|n| serves(xs, ys, (n, *m), (x, y)));
                    if (1..=24).any(|m| found(&m)) {
                        assert!(counts, "{curve:?} at {x}, {y}");
                        tally.note("found".to_string());
                    } else if counts {
                        let m = (25..5_000).find(found);
                        finest = finest.max(m.expect("a fraction serves"));
                        tally.note("found later".to_string());
                    } else {
                        tally.note("none".to_string());
                    }
                }
            }
        }
    }
    tally.print(&format!("fractions, denominators up to {finest}"));
    tally.reached("found", 50_000);
    tally.reached("none", 50_000);
}

/// What a curve is like: which way its x go as it rises, and where its control corner lies.
fn shape(curve: Curve) -> &'static str {
    let chord = curve.ends();
    let upward = i64::from(chord.sign());
    let right = upward * (chord.to.0 - chord.from.0);
    let (x, y) = curve.control;
    let level = chord.rows().is_empty();
    match (level, right.signum(), chord.product(x, y).signum()) {
        (true, _, _) => "level",
        (_, 0, _) => "upright",
        (_, _, 0) => "straight",
        (_, 1, 1) => "right, bent to the left",
        (_, 1, _) => "right, bent to the right",
        (_, _, 1) => "left, bent to the left",
        (_, _, _) => "left, bent to the right",
    }
}

const SHAPES: [&str; 7] = [
    "level",
    "upright",
    "straight",
    "right, bent to the left",
    "right, bent to the right",
    "left, bent to the left",
    "left, bent to the right",
];

/// Surds against document 000's implicit form, beside curves of all spans all over the grid.
#[test]
fn the_implicit_form_against_the_surds() {
    let random = &mut Random::for_test(130);
    let mut tally = Tally::default();
    for _ in 0..60_000 {
        let corners = bends::any_curve(random);
        assert!(curve::fits(corners), "{corners:?}");
        let curve = Curve::of(corners);
        tally.note(shape(curve).to_string());
        for _ in 0..4 {
            let (x, y) = scenes::position_on_curve(random, curve);
            let (x, y) = (x.into(), y.into());
            let counts = curve.counts(x, y);
            assert_eq!(fast::curve_counts(curve, x, y), counts, "{curve:?}");
            // The control corner on the chord: the curve is the edge.
            if shape(curve) == "straight" {
                assert_eq!(curve.ends().counts(x, y), counts, "{curve:?}");
            }
            tally.note(if counts { "counts" } else { "does not" }.to_string());
        }
    }
    tally.print("implicit form");
    for shape in SHAPES {
        tally.reached(shape, 2_000);
    }
    for what in ["counts", "does not"] {
        tally.reached(what, 50_000);
    }
}

/// A lower end, a control corner, an upper end, positions that count and positions that do not.
type Spot = ([Corner; 3], &'static [Corner], &'static [Corner]);

/// Spots worked by hand. For (0,0) (8,0) (8,8): curve x is 16t − 8t², curve y is 8t². In row 2 t is 1/2
/// and curve x is 6, in row 4 it is 8√2 − 4 = 7.3, in row 7 7.97. For (0,0) (0,8) (8,8) curve x is 8t²,
/// curve y is 16t − 8t²: in row 6 t is 1/2 and curve x is 2, in row 4 t is 1 − √½ and curve x is 0.69.
/// The next two are these with 8 − x for x. The last is the chord from (0,0) to (8,8).
const SPOTS: [Spot; 5] = [
    (
        [(0, 0), (8, 0), (8, 8)],
        &[(5, 2), (7, 4), (7, 7)],
        &[(6, 2), (8, 4), (0, 0)],
    ),
    (
        [(0, 0), (0, 8), (8, 8)],
        &[(1, 6), (0, 4)],
        &[(2, 6), (1, 4)],
    ),
    (
        [(8, 0), (8, 8), (0, 8)],
        &[(5, 6), (7, 2), (7, 0)],
        &[(6, 6), (8, 2), (8, 0)],
    ),
    (
        [(8, 0), (0, 0), (0, 8)],
        &[(1, 2), (7, 0), (0, 4)],
        &[(2, 2), (8, 0)],
    ),
    ([(0, 0), (4, 4), (8, 8)], &[(3, 4)], &[(4, 4)]),
];

/// A paint area whose winding is 1 or −1 where a curve counts and 0 elsewhere: its other sides are
/// level, or at x = 0, right of no position.
fn area_of(corners: [Corner; 3]) -> Vec<Record> {
    let [from, control, to] = corners;
    let contour = vec![
        corner(FIRST, from.0, from.1),
        corner(CONTROL, control.0, control.1),
        corner(NEXT, to.0, to.1),
        corner(NEXT, 0, to.1),
        corner(NEXT, 0, from.1),
    ];
    painted(1, [0; 3], contour)
}

/// Reads records and opens a tree over them, by both.
fn read_and_open(random: &mut Random, records: &[Record]) -> Sample {
    let blank = LentTables::ample(random);
    let bytes = lent_bytes(random, &records.concat());
    let (answer, drawing) = compare::read(&bytes, &blank);
    assert_eq!(answer, Answer::Accepted(records.len() as u32));
    let mut sample = Sample {
        tables: samples::tables(records),
        drawing,
        tree: LentTree::blank(random, 300, 20_000),
    };
    let answer = sample.open();
    assert!(matches!(answer, Answer::Accepted(_)), "{answer:?}");
    sample
}

/// Whether area 0 is in the set that shows at a position, by both.
fn shows(random: &mut Random, sample: &Sample, at: Corner) -> bool {
    let blank = lent_words(random, &[77; SPOT_WORDS]);
    let (answer, out) = sample.reader().position(at, &blank);
    assert!(matches!(answer, Answer::Accepted(_)), "{answer:?}");
    out.table()[0] & 1 == 1
}

#[test]
fn spots_worked_by_hand() {
    let random = &mut Random::for_test(131);
    for (corners, counting, others) in SPOTS {
        let [lower, control, upper] = corners;
        for corners in [[lower, control, upper], [upper, control, lower]] {
            let curve = Curve::of(corners);
            let mut sample = read_and_open(random, &area_of(corners));
            // In cell 0, and in a cell of side 1.
            for split in [0, 16] {
                for (expected, positions) in [(true, counting), (false, others)] {
                    for at in positions {
                        for _ in 0..split {
                            let leaf = sample.leaf_at(*at).expect("a leaf is found");
                            sample.split(leaf.cell);
                        }
                        let (x, y) = *at;
                        assert_eq!(curve.counts(x.into(), y.into()), expected, "{curve:?}");
                        assert_eq!(shows(random, &sample, *at), expected, "{curve:?} {at:?}");
                    }
                }
            }
            // "A curve has the rows of its ends".
            for x in 0..9 {
                assert!(!shows(random, &sample, (x, 8)), "{curve:?}");
            }
        }
    }
}

/// Positions on and beside curves of all shapes and spans, many in one drawing: each area shows where
/// its curve counts.
#[test]
fn positions_on_and_beside_curves() {
    let random = &mut Random::for_test(132);
    let mut tally = Tally::default();
    for _ in 0..40 {
        let curves: Vec<[Corner; 3]> = (0..64).map(|_| bends::any_curve(random)).collect();
        let records: Vec<Record> = curves.iter().flat_map(|c| area_of(*c)).collect();
        let mut sample = read_and_open(random, &records);
        sample.grow(random.pick(&[0, 10, 60]), random.pick(&[0, 4, 9, 16]));
        let mut reader = sample.reader();
        for corners in &curves {
            let curve = Curve::of(*corners);
            tally.note(shape(curve).to_string());
            for _ in 0..12 {
                let (x, y) = scenes::position_on_curve(random, curve);
                let counts = |corners: &[Corner; 3]| {
                    let curve = Curve::of(*corners);
                    u64::from(curve.counts(x.into(), y.into()))
                };
                let bits = curves.iter().map(counts).zip(0..).map(|(bit, n)| bit << n);
                let shown: u64 = bits.sum();
                let blank = lent_words(random, &[77; SPOT_WORDS]);
                let (answer, out) = reader.position((x, y), &blank);
                assert!(matches!(answer, Answer::Accepted(_)));
                let halves = [shown as u32, (shown >> 32) as u32];
                assert_eq!(out.table()[..2], halves, "{curve:?} at {x}, {y}");
                tally.note(match counts(corners) {
                    1 => "counts".to_string(),
                    _ => "does not".to_string(),
                });
            }
        }
        reader.finish();
    }
    tally.print("beside curves");
    for shape in SHAPES {
        tally.reached(shape, 50);
    }
    for what in ["counts", "does not"] {
        tally.reached(what, 5_000);
    }
}

// ---- classes ----

#[test]
fn the_class_at_four_positions_is_the_class_at_all() {
    let random = &mut Random::for_test(133);
    let mut tally = Tally::default();
    for _ in 0..25_000 {
        let corners = bends::any_curve(random);
        let curve = Segment::Curve(Curve::of(corners));
        // A square with a position beside the curve in it, or any near one; sides 1 to 16, and now and
        // then larger.
        let side = match random.one_in(200) {
            true => 256,
            false => 1 << random.below(5),
        };
        let (x, y) = scenes::position_on_curve(random, Curve::of(corners));
        let mut low = |at: u32| {
            let beside = at + random.pick(&[0, 0, 0, side]);
            beside.min(MOST_POSITION) / side * side
        };
        let square = Square {
            x: low(x),
            y: low(y),
            side,
        };
        let by_looking = class::by_looking(curve, square);
        assert_eq!(class::of(curve, square), by_looking, "{curve:?} {square:?}");
        if side == 1 {
            assert_ne!(by_looking, Class::Line);
        }
        let name = match by_looking {
            Class::Dropped => "dropped",
            Class::Shortcut { .. } => "shortcut",
            Class::Start { .. } => "start",
            Class::Line => "kept",
        };
        tally.note(name.to_string());
        // A shortcut of a parent, cut to a child, is what the curve itself is there.
        if let (Class::Shortcut { sign, first, end }, Some(quarters)) =
            (by_looking, square.quarters())
        {
            for quarter in quarters {
                let of_curve = class::of(curve, quarter);
                assert_eq!(class::shortcut(sign, first, end, quarter), of_curve);
            }
        }
    }
    tally.print("classes");
    for what in ["dropped", "shortcut", "start", "kept"] {
        tally.reached(what, 1_000);
    }
}

// ---- records ----

fn refused(number: u32, place: usize) -> Answer {
    Answer::Refused {
        number,
        place: place as u32,
    }
}

/// Both answer a reading into ample tables so.
#[track_caller]
fn expect_read(records: &[Record], expected: Answer) {
    let random = &mut Random::new(records.len() as u64);
    let bytes = lent_bytes(random, &records.concat());
    let tables = LentTables::ample(random);
    assert_eq!(compare::read(&bytes, &tables).0, expected);
}

/// Both answer a writing and an opening of the records' tables so: with 12, or accepted.
#[track_caller]
fn expect_tables(records: &[Record], accepted: bool) {
    let random = &mut Random::new(records.len() as u64);
    let drawing = LentTables::longer(random, samples::tables(records));
    let bytes = RECORD_BYTES * records.len();
    let out = lent_bytes(random, &vec![0xA5; bytes + 7]);
    let (written, _) = compare::write(&drawing, &out);
    let tree = LentTree::blank(random, 1, 2_100);
    let (opened, _) = compare::open(&drawing, &tree);
    match accepted {
        true => {
            assert_eq!(written, Answer::Accepted(bytes as u32));
            assert!(matches!(opened, Answer::Accepted(_)));
        }
        false => assert_eq!([written, opened], [refused(12, 0); 2]),
    }
}

#[track_caller]
fn expect_accepted(records: &[Record]) {
    expect_read(records, Answer::Accepted(records.len() as u32));
    expect_tables(records, true);
}

/// Refused when read, with this number and place; as tables met by 12.
#[track_caller]
fn expect_refused(records: &[Record], number: u32, place: usize) {
    expect_read(records, refused(number, place));
    expect_tables(records, false);
}

/// All sequences of up to six of the records p, c, 2, 3, 7, (, |, ): of all seven kinds.
#[test]
fn every_short_sequence_is_read_and_checked_alike() {
    let random = &mut Random::for_test(134);
    let blank = LentTables::blank(random, [PLAN_COUNTS + 6, AREA_WORDS * 6, 6, 6]);
    let out = lent_bytes(random, &[0xA5; RECORD_BYTES * 6]);
    let alphabet = letters("pc237(|)");
    let mut tally = Tally::default();
    for len in 0..=6 {
        for number in 0..alphabet.len().pow(len) {
            let letter = |i| alphabet[number / alphabet.len().pow(i) % alphabet.len()];
            let records: Vec<Record> = (0..len).map(letter).collect();
            let file = Lent::new(1, &records.concat(), 1, || 4);
            let (read, _) = compare::read(&file, &blank);
            tally.note_answer(read);
            let tables = samples::tables(&records);
            let drawing = LentTables {
                plan: Lent::new(1, &tables.plan, 1, || 7),
                areas: Lent::new(1, &tables.areas, 1, || 0),
                xs: Lent::new(1, &tables.xs, 1, || 0),
                ys: Lent::new(1, &tables.ys, 1, || 0),
            };
            let (written, _) = compare::write(&drawing, &out);
            match read {
                Answer::Accepted(records) => assert_eq!(written, Answer::Accepted(16 * records)),
                Answer::Refused { .. } => assert_eq!(written, refused(12, 0)),
            }
        }
    }
    tally.print("short sequences");
    for what in ["accepted", "4", "5", "13"] {
        tally.reached(what, 10);
    }
}

#[test]
fn what_fits() {
    for text in ["p2733", "p27333", "p27332733", "p27333p2733(c2733|p2733)"] {
        expect_accepted(&letters(text));
    }
    // "it follows kind 2 or 3": else 4 at the control corner.
    for text in [
        "7", "p7", "(7", "(|7", "(|)7", "p2733p7", "p2733(7", "(c2733|7",
    ] {
        expect_refused(&letters(text), 4, text.len() - 1);
    }
    // "and is followed by kind 3, otherwise 4": at the record that follows, the end too.
    for follower in ["p", "c", "2", "7", "(", "|", ")", ""] {
        for before in ["p2", "p23", "p233", "p2332", "(c2", "(c233", "(|p2"] {
            let text = format!("{before}7{follower}");
            expect_refused(&letters(&text), 4, before.len() + 1);
            let text = format!("{before}7{follower}3");
            if !follower.is_empty() {
                expect_refused(&letters(&text), 4, before.len() + 1);
            }
        }
    }
}

/// "It counts toward 2,048 corners but not toward the three of a contour."
#[test]
fn what_a_control_corner_counts_toward() {
    for (before, ends) in [
        ("p", "p"),
        ("p", "2"),
        ("p", "("),
        ("(c", "|"),
        ("(|p", ")"),
        ("p", ""),
    ] {
        // Two corners and one control corner.
        let records = letters(&format!("{before}273{ends}"));
        expect_refused(&records, 5, before.len() + 3);
    }
    // Curves from 2 to 3 and back to a corner at 2: contours of many curves.
    let curves = |curves: usize| {
        let mut records = letters("p2");
        for i in 0..curves {
            let (x, y) = if i % 2 == 0 { (30, 5) } else { (10, 20) };
            records.extend([corner(CONTROL, 20, 12), corner(NEXT, x, y)]);
        }
        records
    };
    expect_refused(&curves(1), 5, 4);
    expect_accepted(&curves(2));
    // 2,047 corners, and one more of each kind.
    let most = (MOST_CORNERS - 1) / 2;
    let with = |rest: &str| [curves(most), letters(rest)].concat();
    assert_eq!(curves(most).len(), MOST_CORNERS);
    expect_accepted(&curves(most));
    expect_accepted(&with("3"));
    expect_accepted(&with("3p"));
    expect_refused(&with("33"), 6, MOST_CORNERS + 1);
    expect_refused(&with("37"), 6, MOST_CORNERS + 1);
    // The 2,048th is a control corner: the end of its curve is the 2,049th.
    expect_refused(&with("7"), 4, MOST_CORNERS + 1);
    expect_refused(&with("7p"), 4, MOST_CORNERS + 1);
}

#[test]
fn spans_and_orders() {
    let base = (30_000, 40_000);
    let far = |at: u32, units: i64| (i64::from(at) + units) as u32;
    let with = |corners: [Corner; 3]| {
        let [from, control, to] = corners;
        let contour = vec![
            corner(FIRST, 1, 2),
            corner(NEXT, from.0, from.1),
            corner(CONTROL, control.0, control.1),
            corner(NEXT, to.0, to.1),
        ];
        painted(255, [0; 3], contour)
    };
    // The record of kind 3 that ends the curve.
    let place = 4;
    for wide in [0, 1, 4_095, 4_096, 4_097, 5_000] {
        for high in [0, 1, 4_095, 4_096, 4_097] {
            for (right, up) in [(1, 1), (1, -1), (-1, 1), (-1, -1)] {
                let to = (far(base.0, right * wide), far(base.1, up * high));
                let middle = (base.0.midpoint(to.0), base.1.midpoint(to.1));
                for control in [base, to, (base.0, to.1), (to.0, base.1), middle] {
                    let records = with([base, control, to]);
                    if wide <= 4_096 && high <= 4_096 {
                        expect_accepted(&records);
                    } else {
                        expect_refused(&records, 13, place);
                    }
                }
                // Out of order by one, at either end and in either axis.
                let beside = [
                    (far(base.0, -right), base.1),
                    (base.0, far(base.1, -up)),
                    (far(to.0, right), to.1),
                    (to.0, far(to.1, up)),
                ];
                for control in beside {
                    expect_refused(&with([base, control, to]), 13, place);
                }
            }
        }
    }
    // Corners at 0 and 65,536.
    let (least, most) = (0, MOST_COORDINATE);
    for (one, other) in [(least, MOST_SPAN), (most, most - MOST_SPAN)] {
        for corners in [
            [(one, one), (one, other), (other, other)],
            [(one, other), (one, one), (other, one)],
            [(one, one), (one, one), (one, one)],
        ] {
            expect_accepted(&with(corners));
        }
    }
    // A span as wide as the grid: in order, and too far.
    expect_refused(&with([(0, 0), (0, 0), (most, most)]), 13, place);
    expect_refused(&with([(0, 0), (most, most), (0, 0)]), 13, place);
}

#[test]
fn order_of_checks() {
    let marked = |text: &str, place: usize, at: usize, byte: u8| {
        let mut records = letters(text);
        records[place][at] = byte;
        records
    };
    // A broken curve alone: 13 at its end.
    expect_refused(&letters("p2373"), 13, 4);
    expect_refused(&letters("p23733"), 13, 4);
    expect_refused(&letters("p2373)"), 13, 4);
    // 2 and 3 before 13.
    expect_read(&marked("p2373", 4, 0, 8), refused(2, 4));
    expect_read(&marked("p2373", 4, 0, 0), refused(2, 4));
    for at in [1, 2, 3, 12, 13, 14, 15] {
        expect_read(&marked("p2373", 4, at, 1), refused(3, 4));
        expect_read(&marked("p2373", 3, at, 1), refused(3, 3));
        expect_read(&marked("p2733", 2, at, 1), refused(3, 2));
    }
    for at in [6, 10] {
        // 65,566 and 65,541: out of range.
        expect_read(&marked("p2373", 4, at, 1), refused(3, 4));
    }
    // 3 before 4, of a control corner that does not fit and of what follows one.
    expect_read(&marked("p7", 1, 15, 1), refused(3, 1));
    expect_read(&marked("p27p", 3, 7, 1), refused(3, 3));
    expect_read(&marked("p27)", 3, 1, 1), refused(3, 3));
    expect_read(&marked("p27)", 3, 0, 9), refused(2, 3));
    // 13 needs the record of kind 3: where another follows a control corner out of order, 4.
    expect_refused(&letters("p237("), 4, 4);
    expect_refused(&letters("p2377"), 4, 4);
    expect_refused(&letters("p237"), 4, 4);
    // 13 before 5 and 6, and before a later 4; an earlier 4 or 5 before 13.
    expect_refused(&letters("p2337323p"), 13, 5);
    expect_refused(&letters("p23232373"), 5, 3);
    expect_refused(&letters("p3373"), 4, 1);
    let corners = "3".repeat(MOST_CORNERS - 2);
    let broken = format!("p2{corners}73");
    assert_eq!(broken.len(), MOST_CORNERS + 2);
    expect_refused(&letters(&broken), 13, MOST_CORNERS + 1);
    let mut fitting = letters(&broken);
    fitting[MOST_CORNERS - 1] = corner(NEXT, 10, 20);
    expect_refused(&fitting, 6, MOST_CORNERS + 1);
    // 4 before 6: a control corner that does not fit, and one too many that does.
    let corners = "3".repeat(MOST_CORNERS - 1);
    expect_refused(&letters(&format!("p2{corners}p7")), 4, MOST_CORNERS + 2);
    expect_refused(&letters(&format!("p2{corners}7")), 6, MOST_CORNERS + 1);
    // At the end 4 before 5.
    for text in ["p27", "(c27", "(|p27", "(c273", "(c2733"] {
        expect_refused(&letters(text), 4, text.len());
    }
    expect_refused(&letters("p273"), 5, 4);
}

/// A file of a random drawing with curves, mostly damaged once or twice.
fn random_file(random: &mut Random) -> Vec<u8> {
    let over = random.one_in(30);
    let records = samples::curved(random, over);
    if random.one_in(4) {
        return records.concat();
    }
    let bytes = damage::damaged(random, records);
    match bytes.as_chunks::<RECORD_BYTES>() {
        (records, []) if random.one_in(4) => damage::damaged(random, records.to_vec()),
        _ => bytes,
    }
}

#[test]
fn random_records_are_read_alike() {
    let random = &mut Random::for_test(135);
    let mut tally = Tally::default();
    for _ in 0..15_000 {
        let bytes = random_file(random);
        let mut file = lent_bytes(random, &bytes);
        // Now and then up to the refused record only: what is behind it becomes guard.
        if let (Err(refusal), true) = (drawing::check(&bytes), random.one_in(3)) {
            if refusal.number > 1 {
                file.shorten(RECORD_BYTES * (refusal.place as usize + 1));
            }
        }
        let records = file.table().as_chunks::<RECORD_BYTES>().0;
        let count = |kinds: &[u8]| records.iter().filter(|r| kinds.contains(&r[0])).count();
        let (areas, corners) = (count(&[1]), count(&[FIRST, NEXT, CONTROL]));
        let mut length = |needed: usize| match random.below(24) {
            0 => needed.saturating_sub(1),
            1..12 => needed,
            _ => needed + random.within(1..=20),
        };
        let lengths = [
            length(PLAN_COUNTS + records.len()),
            length(AREA_WORDS * areas),
            length(corners),
        ];
        let [plan, areas, xs] = lengths;
        let ys = xs + usize::from(random.one_in(50));
        let tables = LentTables::blank(random, [plan, areas, xs, ys]);
        let (answer, _) = compare::read(&file, &tables);
        tally.note_answer(answer);
    }
    tally.print("read");
    for what in ["accepted", "1", "2", "3", "4", "5", "7", "11", "13"] {
        tally.reached(what, 100);
    }
    tally.reached("6", 20);
}

#[test]
fn what_was_read_is_written_back() {
    let random = &mut Random::for_test(136);
    let mut tally = Tally::default();
    for _ in 0..4_000 {
        let records = samples::curved(random, false);
        let bytes = records.concat();
        let longer = LentTables::longer(random, samples::tables(&records));
        let blank = LentTables::blank(random, longer.each().map(|table| table.table().len()));
        let (answer, drawing) = compare::read(&lent_bytes(random, &bytes), &blank);
        assert_eq!(answer, Answer::Accepted(records.len() as u32));
        let before = any_bytes(random, bytes.len() + records.len() % 5);
        let (answer, out) = compare::write(&drawing, &lent_bytes(random, &before));
        assert_eq!(answer, Answer::Accepted(bytes.len() as u32));
        assert!(out.table()[..bytes.len()] == bytes);
        // Read again into other words, the same tables.
        let file = lent_bytes(random, &out.table()[..bytes.len()]);
        assert!(compare::read(&file, &drawing).1 == drawing);
        if !bytes.is_empty() {
            let short = any_bytes(random, bytes.len() - 1);
            let (answer, _) = compare::write(&drawing, &lent_bytes(random, &short));
            assert_eq!(answer, refused(11, 0));
        }
        let curves = records.iter().filter(|record| record[0] == CONTROL).count();
        tally.note(if curves > 0 { "curves" } else { "none" }.to_string());
    }
    tally.print("written back");
    tally.reached("curves", 2_000);
}

/// A lent drawing with one curve broken, one kind changed or two exchanged.
#[test]
fn damaged_plans_and_curves_are_met_by_12() {
    let random = &mut Random::for_test(137);
    let mut tally = Tally::default();
    for _ in 0..8_000 {
        let records = match random.one_in(4) {
            true => scenes::curved(random),
            false => samples::curved(random, false),
        };
        let mut tables = samples::tables(&records);
        let curves = bends::curves(&tables);
        if curves.is_empty() {
            continue;
        }
        let from = random.pick(&curves);
        let kinds = PLAN_COUNTS..tables.plan.len();
        let kind = kinds.start + random.below(kinds.len());
        let control = kinds.clone().filter(|at| tables.plan[*at] == 7);
        let controls: Vec<usize> = control.collect();
        let control = random.pick(&controls);
        let made = match random.below(6) {
            0 => "whole",
            1 | 2 => {
                let corners = bends::broken(random, bends::corners_at(&tables, from));
                for (at, (x, y)) in (from as usize..).zip(corners) {
                    (tables.xs[at], tables.ys[at]) = (x, y);
                }
                "broken"
            }
            3 => {
                tables.plan[control] = random.pick(&[0, 1, 2, 3, 4, 5, 6, 8, 256 + 7, u32::MAX]);
                "control changed"
            }
            4 => {
                tables.plan[kind] = 7;
                "control made"
            }
            _ => {
                let other = control + 1 - 2 * random.below(2);
                tables.plan.swap(control, other);
                "exchanged"
            }
        };
        let drawing = LentTables::longer(random, tables);
        let out = any_bytes(random, RECORD_BYTES * records.len() + 3);
        let (written, _) = compare::write(&drawing, &lent_bytes(random, &out));
        let tree = LentTree::blank(random, 1, 2_500);
        let (opened, _) = compare::open(&drawing, &tree);
        match made {
            "whole" => assert!(matches!(written, Answer::Accepted(_))),
            "broken" => assert_eq!([written, opened], [refused(12, 0); 2]),
            _ => {}
        }
        tally.note_call(made, written);
        tally.note_call(&format!("{made} opened"), opened);
    }
    tally.print("lent drawings");
    for made in ["broken", "control changed", "control made", "exchanged"] {
        tally.reached(&format!("{made} 12"), 500);
        tally.reached(&format!("{made} opened 12"), 500);
    }
    tally.reached("control changed accepted", 10);
}

// ---- streams ----

/// A drawing with curves and a stream over it in a square, the words in use alone.
fn stream_sample(random: &mut Random) -> (Tables, Vec<Entry>, Square) {
    let tables = samples::tables(&scenes::curved(random));
    let (x, y) = scenes::any_position(random, &tables);
    let side = 1 << random.within(0..=16);
    let square = Square {
        x: x / side * side,
        y: y / side * side,
        side,
    };
    let stream = match random.below(3) {
        0 => tree::stream_in(Drawing::of(&tables), square),
        _ => foreign::stream(random, &tables, square),
    };
    (tables, stream, square)
}

fn in_use(tables: &Tables, stream: &[Entry]) -> InUse {
    InUse {
        cells: 1,
        entries: stream.len(),
        areas: tables.plan[1] as usize,
        corners: tables.plan[2] as usize,
    }
}

/// The check of a lent stream by both.
#[track_caller]
fn expect_check(tables: &Tables, in_use: InUse, words: &[u32], square: Square) -> bool {
    let count = in_use.entries;
    let drawing = Drawing::of(tables);
    let expected = stream::check(drawing, in_use, square, words, 0, count as u32).is_some();
    let lent = probe::Lent {
        first: 0,
        count,
        in_use,
        tables,
        square,
    };
    assert_eq!(lent.check(words), expected, "{tables:?} {words:?}");
    expected
}

#[test]
fn the_check_of_curves_in_streams() {
    let random = &mut Random::for_test(138);
    let mut tally = Tally::default();
    while tally.times("streams") < 4_000 {
        let (tables, stream, square) = stream_sample(random);
        let curves: Vec<usize> = (0..stream.len())
            .filter(|at| matches!(stream[*at], Entry::Curve { .. }))
            .collect();
        if curves.is_empty() {
            continue;
        }
        tally.note("streams".to_string());
        let words = foreign::words(random, &stream);
        let used = in_use(&tables, &stream);
        assert!(expect_check(&tables, used, &words, square));
        let at = ENTRY_WORDS * random.pick(&curves);
        let from = words[at + 1];

        // Its number near the corners in use.
        let corners = used.corners as u32;
        for number in [
            corners - 3,
            corners - 2,
            corners - 1,
            corners,
            corners + 1,
            u32::MAX,
            u32::MAX - 1,
            u32::MAX - 2,
        ] {
            let mut words = words.clone();
            words[at + 1] = number;
            let passes = expect_check(&tables, used, &words, square);
            assert!(!passes || number == corners - 3);
        }
        // Fewer corners in use: up to the end of the curve, or not.
        for more in 0..=3 {
            let fewer = InUse {
                corners: from as usize + more,
                ..used
            };
            let passes = expect_check(&tables, fewer, &words, square);
            assert!(!passes || more == 3);
            tally.note(format!("{more} corners {passes}"));
        }
        // Words without a name are not looked at.
        let mut other = words.clone();
        (other[at + 2], other[at + 3]) = (random.word(), random.word());
        assert!(expect_check(&tables, used, &other, square));
        // Order and span broken, and a coordinate out of range, in the tables.
        let mut broken = tables.clone();
        let corners = bends::broken(random, bends::corners_at(&tables, from));
        for (number, (x, y)) in (from as usize..).zip(corners) {
            (broken.xs[number], broken.ys[number]) = (x, y);
        }
        assert!(!expect_check(&broken, used, &words, square));
        let mut beyond = tables.clone();
        let coordinates = random.pick(&[0, 1, 2]) + from as usize;
        let axis = match random.one_in(2) {
            true => &mut beyond.xs,
            false => &mut beyond.ys,
        };
        axis[coordinates] = random.pick(&[65_537, 1 << 31, u32::MAX]);
        assert!(!expect_check(&beyond, used, &words, square));
        // "In ... their grammar ... a curve goes as an edge or line does": not behind a delimiter.
        for kind in [1, 2, 3, 7] {
            let mut other = words.clone();
            if at >= ENTRY_WORDS {
                other[at - ENTRY_WORDS] = kind;
                let passes = expect_check(&tables, used, &other, square);
                assert!(!passes);
            }
        }
        // Another kind, a line to the curve's end among them, and another entry as a curve.
        for kind in [0, 4, 5, 6, 9, 256 + 8] {
            let mut other = words.clone();
            (other[at], other[at + 2]) = (kind, from + 2);
            let passes = expect_check(&tables, used, &other, square);
            tally.note(format!("kind {kind} {passes}"));
        }
        let any = ENTRY_WORDS * random.below(stream.len());
        let mut other = words.clone();
        other[any] = 8;
        let passes = expect_check(&tables, used, &other, square);
        tally.note(format!("made a curve {passes}"));
    }
    tally.print("curves in streams");
    tally.reached("3 corners true", 50);
    tally.reached("kind 5 true", 4_000);
    tally.reached("made a curve true", 100);
    tally.reached("made a curve false", 100);
}

/// As many curves as a stream may have lines: 2,048 lines, curves and shortcuts.
#[test]
fn the_limits_of_a_stream() {
    let random = &mut Random::for_test(139);
    let tables = samples::tables(&letters("p2733"));
    let area = Entry::Area {
        number: 0,
        start: 0,
    };
    let kinds = [
        Entry::Curve { from: 0 },
        Entry::Line { from: 0, to: 2 },
        Entry::Curve { from: 0 },
        Entry::Shortcut {
            sign: 1,
            first: 3,
            end: 4,
        },
    ];
    for (segments, passes) in [(0, true), (2_048, true), (2_049, false)] {
        let mut stream = vec![area];
        stream.extend((0..segments).map(|i| kinds[i % 4]));
        let words = foreign::words(random, &stream);
        let used = in_use(&tables, &stream);
        let checked = expect_check(&tables, used, &words, Square::WHOLE);
        assert_eq!(checked, passes, "{segments}");
    }
}

/// Streams with curves: what shows at a position, and the streams of children.
#[test]
fn streams_read_and_cut() {
    let random = &mut Random::for_test(140);
    let mut tally = Tally::default();
    for _ in 0..4_000 {
        let (tables, stream, square) = stream_sample(random);
        let drawing = Drawing::of(&tables);
        let words = foreign::words(random, &stream);
        let used = in_use(&tables, &stream);
        let lent = probe::Lent {
            first: 0,
            count: stream.len(),
            in_use: used,
            tables: &tables,
            square,
        };
        assert!(expect_check(&tables, used, &words, square));
        for _ in 0..4 {
            let (x, y) = match random.one_in(2) {
                true => scenes::any_position(random, &tables),
                false => (
                    square.x + random.below(square.side as usize) as u32,
                    square.y + random.below(square.side as usize) as u32,
                ),
            };
            let shown = stream::shown(drawing, &stream, x, y);
            assert_eq!(machine::shown(drawing, &stream, x, y), shown);
            assert_eq!(lent.read(&words, x, y), shown, "at {x}, {y}: {stream:?}");
            tally.note(if shown == 0 { "nothing" } else { "shown" }.to_string());
        }
        let mut squares = vec![square];
        squares.extend(square.quarters().into_iter().flatten());
        for square in squares {
            let made = stream::in_square(drawing, &stream, square);
            let child = prune(drawing, &made);
            assert_eq!(prune_in_any_order(drawing, &made, random), child);
            let made = stream::words(&child);
            let mut entries = words.clone();
            entries.extend(any_words(random, made.len() + 3));
            let before = entries.clone();
            assert_eq!(lent.child(&mut entries, square), Some(child.len()));
            let (kept, written) = entries.split_at(words.len());
            assert!(kept == words && written[..made.len()] == made);
            assert!(written[made.len()..] == before[words.len() + made.len()..]);
            for entry in child {
                tally.note(format!("kind {}", entry.encode()[0]));
            }
        }
    }
    tally.print("streams");
    tally.reached("shown", 2_000);
    for kind in [4, 5, 6, 8] {
        tally.reached(&format!("kind {kind}"), 1_000);
    }
}

fn any_words(random: &mut Random, len: usize) -> Vec<u32> {
    (0..len).map(|_| random.word()).collect()
}

// ---- trees ----

/// One curve and nothing else with rows right of any position: each split keeps the curve where its
/// cell's positions differ, and it counts as one line.
#[test]
fn a_kept_curve_is_one_line() {
    let random = &mut Random::for_test(141);
    // From (0, 0) over (4096, 0) to (4096, 4096): below the chord. Cell 0 keeps it.
    let corners = [(0, 0), (4_096, 0), (4_096, 4_096)];
    let mut sample = read_and_open(random, &area_of(corners));
    let blank = lent_words(random, &[77; LEAF_WORDS]);
    let (answer, out) = sample.find_leaf((0, 0), &blank);
    assert_eq!(answer, Answer::Accepted(0));
    // Cell 0, its square, no steps, two entries (the area and the curve), one line, and so not uniform.
    // The upright side at x = 0 counts nowhere and is dropped; level ones have no rows.
    assert_eq!(out.table(), [0, 0, 0, 65_536, 0, 2, 1, 0]);
    let words = &sample.tree.view().entries[..8];
    assert_eq!(words, [4, 0, 0, 0, 8, 0, 0, 0]);
    // Growing with threshold 1 splits nothing, with threshold 0 down to the limit.
    assert_eq!(sample.grow(1, 16), Answer::Accepted(0));
    assert_eq!(sample.grow(0, 4), Answer::Accepted(4));
    // The leaf of side 4,096 holds the curve whole.
    let (_, out) = sample.find_leaf((0, 0), &blank);
    assert_eq!(out.table()[1..], [0, 0, 4_096, 4, 2, 1, 0]);
    // In its quarters: left of the curve above, right below; the upper left quarter lies left of the
    // curve in all its rows, the lower right one holds its lower part.
    assert_eq!(sample.grow(0, 5), Answer::Accepted(1));
    let leaf = |sample: &Sample, at: Corner| {
        let leaf = sample.leaf_at(at).expect("a leaf is found");
        (leaf.stream.clone(), leaf.lines())
    };
    let kept = Entry::Curve { from: 0 };
    let area = |start| Entry::Area { number: 0, start };
    // Curve x is 2·4096·√(y/4096) − y: in row 2,047 3,745.
    assert_eq!(leaf(&sample, (0, 0)), (vec![area(0), kept], 1));
    assert_eq!(leaf(&sample, (2_048, 0)), (vec![area(0), kept], 1));
    assert_eq!(leaf(&sample, (0, 2_048)), (vec![area(1)], 0));
    assert_eq!(leaf(&sample, (2_048, 2_048)), (vec![area(0), kept], 1));
    // Half of the curve's rows in a taller cell: a shortcut of those rows.
    let corners = [(9_000, 1_000), (9_500, 1_000), (9_500, 2_000)];
    let sample = read_and_open(random, &area_of(corners));
    let stream = tree::stream_in(
        Drawing::of(&sample.tables),
        Square {
            x: 0,
            y: 0,
            side: 8_192,
        },
    );
    let short = Entry::Shortcut {
        sign: 1,
        first: 1_000,
        end: 2_000,
    };
    assert_eq!(stream, [area(0), short]);
}

/// A call that splits, grows or finds by both; what it changed stays.
fn change(random: &mut Random, sample: &mut Sample, tally: &mut Tally) {
    let at = scenes::any_position(random, &sample.tables);
    match random.below(6) {
        0 => {
            let (threshold, limit) = (random.pick(&[0, 1, 3, 20]), random.pick(&[2, 5, 9, 16]));
            let answer = sample.grow(threshold, limit);
            tally.note(match answer {
                Answer::Accepted(splits) if splits < FULL => "grow done".to_string(),
                Answer::Accepted(_) => "grow full".to_string(),
                Answer::Refused { number, .. } => format!("grow {number}"),
            });
        }
        1 => {
            let blank = lent_words(random, &[7; 9]);
            tally.note_call("find", sample.find_leaf(at, &blank).0);
        }
        _ => {
            let cells = sample.tree.head.table().first().copied().unwrap_or(0);
            let leaf = sample.leaf_at(at).map(|leaf| leaf.cell);
            let cell = match random.one_in(8) {
                true => random.below(cells.clamp(1, 5_000) as usize + 1) as u32,
                false => leaf.unwrap_or(0),
            };
            tally.note_call("split", sample.split(cell));
        }
    }
}

/// Positions, a pixel row and a log by both; with a scene, what is read is what shows with no tree.
fn readings(random: &mut Random, sample: &Sample, scene: Option<&Scene>, tally: &mut Tally) {
    let mut reader = sample.reader();
    for _ in 0..20 {
        let (x, y) = scenes::any_position(random, &sample.tables);
        let blank = lent_words(random, &[77; SPOT_WORDS]);
        let (answer, out) = reader.position((x, y), &blank);
        tally.note_call("position", answer);
        if let (Some(scene), Answer::Accepted(_)) = (scene, answer) {
            let shown = shown_words(scene.position(x, y));
            assert_eq!(out.table()[..SHOWN_WORDS], shown);
        }
    }
    let (x, y) = scenes::any_position(random, &sample.tables);
    let (row, first) = (y / PIXEL, (x / PIXEL).min(4_096 - 6));
    let bytes = any_bytes(random, CHANNELS * 6);
    let (answer, out) = reader.pixel_row(row, first, &lent_bytes(random, &bytes));
    tally.note_call("row", answer);
    if let (Some(scene), Answer::Accepted(_)) = (scene, answer) {
        for (pixel, i) in out.table().chunks(CHANNELS).zip(first..) {
            assert_eq!(*pixel, scene.pixel(row, i));
        }
    }
    let run: Vec<Corner> = (0..12)
        .map(|_| scenes::any_position(random, &sample.tables))
        .collect();
    let px: Vec<u32> = run.iter().map(|at| at.0).collect();
    let py: Vec<u32> = run.iter().map(|at| at.1).collect();
    let [px, py] = [px, py].map(|run| lent_words(random, &run));
    let blank = lent_words(random, &[77; 12]);
    let (answer, out) = reader.zone_log(&px, &py, &blank);
    tally.note_call("log", answer);
    if let (Some(scene), Answer::Accepted(indices)) = (scene, answer) {
        let expected = scene.zone_log(px.table(), py.table());
        assert_eq!(out.table()[..indices as usize], expected);
    }
    reader.finish();
}

/// How many streams of leaves hold a curve.
fn leaves_with_curves(tree: &TreeTables) -> usize {
    let has_curve = |leaf: &u32| {
        let stream = tree.stream(*leaf);
        stream.iter().any(|e| matches!(e, Entry::Curve { .. }))
    };
    tree.leaves().iter().filter(|leaf| has_curve(leaf)).count()
}

#[test]
fn lists_of_calls_on_drawings_with_curves() {
    let random = &mut Random::for_test(142);
    let mut tally = Tally::default();
    for _ in 0..400 {
        let records = scenes::curved(random);
        let tables = samples::tables(&records);
        let (cells, entries) = (
            random.pick(&[1, 9, 30, 100, 300]),
            random.pick(&[300, 3_000]),
        );
        let mut sample = Sample::unopened(random, tables.clone(), cells, entries);
        let opened = sample.open();
        tally.note_call("open", opened);
        if let Answer::Refused { number, .. } = opened {
            assert_eq!(number, 11);
            continue;
        }
        let scene = Scene::of(Drawing::of(&tables));
        for _ in 0..random.within(1..=8) {
            change(random, &mut sample, &mut tally);
        }
        readings(random, &sample, Some(&scene), &mut tally);
        if leaves_with_curves(&sample.tree.tables()) > 0 {
            tally.note("with curves".to_string());
        }
        // Each leaf's stream is the drawing's in its square.
        let tree = sample.tree.tables();
        let leaf = random.pick(&tree.leaves());
        let square = tree.view().cell(leaf).square;
        let made = tree::stream_in(Drawing::of(&tables), square);
        assert_eq!(tree.stream(leaf), made, "{square:?}");
        // Down to side 1 at a position beside a curve: no line is kept there.
        if random.one_in(6) {
            let at = scenes::any_position(random, &tables);
            for _ in 0..17 {
                let leaf = sample.leaf_at(at).expect("a leaf is found");
                if sample.split(leaf.cell) == refused(10, 0) {
                    assert_eq!(leaf.lines(), 0);
                    tally.note("side 1".to_string());
                }
            }
        }
    }
    tally.print("calls");
    for what in ["split accepted", "grow done", "grow full", "with curves"] {
        tally.reached(what, 50);
    }
    tally.reached("side 1", 5);
}

/// 1,000 control corners and more, in long contours of curves and in many areas.
#[test]
fn drawings_of_many_curves() {
    let random = &mut Random::for_test(143);
    let mut tally = Tally::default();
    for (areas, curves) in [(1, 1_023), (1, 1_000), (4, 250), (40, 25)] {
        let mut records = Vec::new();
        for _ in 0..areas {
            let mut at = (
                random.within(8_192..=57_344) as u32,
                random.within(8_192..=57_344) as u32,
            );
            let mut contour = vec![corner(FIRST, at.0, at.1)];
            for _ in 0..curves {
                let (control, to) = bends::curve_from(random, at);
                contour.push(corner(CONTROL, control.0, control.1));
                contour.push(corner(NEXT, to.0, to.1));
                at = to;
            }
            let alpha = random.pick(&[255, 128, 7]);
            records.extend(painted(alpha, [9, 80, 200], contour));
        }
        let tables = samples::tables(&records);
        let scene_tables = tables.clone();
        let scene = Scene::of(Drawing::of(&scene_tables));
        let mut sample = read_and_open(random, &records);
        let kept = tree::stream_in(Drawing::of(&tables), Square::WHOLE);
        assert!(stream::lines(&kept) >= 500, "{}", stream::lines(&kept));
        readings(random, &sample, Some(&scene), &mut tally);
        sample.grow(40, 6);
        readings(random, &sample, Some(&scene), &mut tally);
        let before = any_bytes(random, RECORD_BYTES * records.len());
        let (answer, out) = compare::write(&sample.drawing, &lent_bytes(random, &before));
        assert!(matches!(answer, Answer::Accepted(_)));
        assert!(out.table() == records.concat());
    }
    tally.print("many curves");
}

/// The pit with curved berms, samples/berms: its words make its records, and the second implementation
/// lists its leaves. What both make of it, and what shows at a few places of it.
#[test]
fn the_sample_with_curves() {
    let random = &mut Random::for_test(147);
    let sample = pages::top().join("samples/berms");
    let read = |kind: &str| fs::read(sample.with_extension(kind)).expect("a sample");
    let text = |kind: &str| String::from_utf8(read(kind)).expect("text");
    let records = words::records(&text("txt")).expect("the words of a drawing");
    assert_eq!(read("zones"), records.concat());
    assert_eq!(lister::list(&read("zones")), text("leaves"));
    let mut sample = read_and_open(random, &records);
    let tables = sample.tables.clone();
    let scene = Scene::of(Drawing::of(&tables));
    let curves = bends::curves(&tables).len();
    assert!(curves > 60, "{curves}");
    sample.grow(0, 4);
    for _ in 0..20 {
        readings(random, &sample, Some(&scene), &mut Tally::default());
    }
    // In the road's bend, on the berm beside it, on the stockpile and on its pad, in the sump, on the
    // benches and on the berm between them.
    for (x, y, material) in [
        (23_800, 25_400, 1),
        (25_100, 25_400, 51),
        (9_500, 12_000, 21),
        (12_000, 14_000, 90),
        (42_400, 37_200, 41),
        (47_200, 38_000, 14),
        (50_500, 38_000, 13),
        (48_800, 38_000, 52),
        (1_000, 1_000, 0),
    ] {
        assert_eq!(scene.position(x, y).material, material, "{x}, {y}");
        let blank = lent_words(random, &[77; SPOT_WORDS]);
        let (answer, _) = sample.reader().position((x, y), &blank);
        assert_eq!(answer, Answer::Accepted(material));
    }
}

// ---- damaged tables, and those of others ----

#[test]
fn calls_on_damaged_tables() {
    let random = &mut Random::for_test(144);
    let mut all = Tally::default();
    for damage in TREE_DAMAGES {
        for _ in 0..25 {
            let mut tables = samples::tables(&scenes::curved(random));
            let mut tree = TreeTables::new(60, 2_000);
            if tree::open(Drawing::of(&tables), &mut tree.lend()).is_err() {
                continue;
            }
            for _ in 0..random.below(6) {
                let (x, y) = scenes::any_position(random, &tables);
                let drawing = Drawing::of(&tables);
                let leaf = tree::find_leaf(drawing, tree.view(), x, y).expect("a leaf is found");
                _ = tree::split(drawing, &mut tree.lend(), leaf.cell);
            }
            damage_tree(random, &mut tables, &mut tree, damage);
            damaged_calls(random, tables, tree, &mut all);
        }
    }
    // A curve of a leaf broken in the tables of corners: every call that meets it is refused.
    for _ in 0..300 {
        let mut tables = samples::tables(&scenes::curved(random));
        let mut tree = TreeTables::new(60, 2_000);
        let curves = bends::curves(&tables);
        let drawing = Drawing::of(&tables);
        if curves.is_empty() || tree::open(drawing, &mut tree.lend()).is_err() {
            continue;
        }
        _ = tree::grow(drawing, &mut tree.lend(), 2, 3);
        let from = random.pick(&curves);
        let corners = bends::broken(random, bends::corners_at(&tables, from));
        for (at, (x, y)) in (from as usize..).zip(corners) {
            (tables.xs[at], tables.ys[at]) = (x, y);
        }
        damaged_calls(random, tables, tree, &mut all);
    }
    all.print("damaged");
    for call in ["split", "find", "position", "row", "log"] {
        all.reached(&format!("{call} accepted"), 50);
        all.reached(&format!("{call} 12"), 50);
    }
    all.reached("grow 12", 20);
}

/// Calls by both on tables that may be damaged, all on the same ones.
fn damaged_calls(random: &mut Random, tables: Tables, tree: TreeTables, tally: &mut Tally) {
    expect::all_calls(random, &tables, &tree, &mut Tally::default());
    let mut sample = Sample::exact(random, tables, &tree);
    let before = sample.tree.clone();
    for _ in 0..6 {
        change(random, &mut sample, tally);
        sample.tree = before.clone();
    }
    readings(random, &sample, None, tally);
}

#[test]
fn calls_on_trees_written_by_others() {
    let random = &mut Random::for_test(145);
    let mut tally = Tally::default();
    for _ in 0..250 {
        let tables = samples::tables(&scenes::curved(random));
        let splits = random.below(10);
        let tree = foreign::tree(random, &tables, splits);
        let mut sample = Sample::longer(random, tables, &tree);
        readings(random, &sample, None, &mut tally);
        for _ in 0..6 {
            change(random, &mut sample, &mut tally);
        }
    }
    tally.print("others");
    for what in ["split accepted", "position accepted", "position 12"] {
        tally.reached(what, 50);
    }
}

/// The fast form against the literal one.
#[test]
fn the_fast_form_answers_as_the_literal_one() {
    let random = &mut Random::for_test(146);
    let mut made = Vec::new();
    for _ in 0..600 {
        let tables = samples::tables(&scenes::curved(random));
        let mut by_fast = TreeTables::new(100, 3_000);
        let mut literal = by_fast.clone();
        let drawing = Drawing::of(&tables);
        let opened = fast::open(drawing, &mut by_fast.lend(), &mut made).map(|_| ());
        assert_eq!(opened, tree::open(drawing, &mut literal.lend()));
        assert!(by_fast == literal);
        if random.one_in(3) {
            by_fast = foreign::tree(random, &tables, 6);
            literal = by_fast.clone();
        }
        let (threshold, limit) = (random.pick(&[0, 2, 9]), random.pick(&[3, 7, 16]));
        let grown = fast::grow(drawing, &mut by_fast.lend(), threshold, limit, &mut made);
        let by_literal = tree::grow(drawing, &mut literal.lend(), threshold, limit);
        assert_eq!(grown, by_literal);
        assert!(by_fast == literal);
        let (x, y) = scenes::any_position(random, &tables);
        if let Ok(spot) = query::position(drawing, literal.view(), x, y) {
            let leaf = tree::find_leaf(drawing, literal.view(), x, y).expect("a leaf is found");
            let shown = machine::shown(drawing, &leaf.stream, x, y);
            assert_eq!(spot.reading.shown, shown);
        }
    }
}
