//! docs/DRAWING.md is true: its orders of records, its triangle and its complete drawing are read out of the page and asked of the
//! library, and of the second implementation. So is the leaf of that drawing in docs/HOW.md.

use std::fs;

use zones_tests::compare::LEAF_WORDS;
use zones_tests::drawing::{AREA_WORDS, MOST_AREAS, MOST_CORNERS, MOST_RECORDS, PLAN_COUNTS};
use zones_tests::meaning::{Drawing, Scene};
use zones_tests::pages;
use zones_tests::query::CHANNELS;
use zones_tests::readings::{shown_words, SHOWN_WORDS, SPOT_WORDS};
use zones_tests::record::letters;
use zones_tests::samples::Tables;
use zones_tests::stream::Entry;
use zones_tests::tree::{TreeTables, MOST_CELLS, MOST_DEPTH, MOST_ENTRIES};
use zones_tests::zones::{self, Answer};

// ---- the page ----

/// The lines below a heading of docs/DRAWING.md or docs/HOW.md, up to the next.
fn section(title: &str) -> Vec<String> {
    let read = |page| fs::read_to_string(pages::top().join(page)).expect("the page");
    let page = ["docs/DRAWING.md", "docs/HOW.md"].map(read).concat();
    let mut lines = page.lines().map(str::to_string);
    lines
        .find(|line| *line == format!("## {title}"))
        .expect("the heading");
    lines.take_while(|line| !line.starts_with("## ")).collect()
}

/// The rows of the table whose first heading is this, as cells.
fn table(title: &str, heading: &str) -> Vec<Vec<String>> {
    let lines = section(title);
    let cells = |line: &String| -> Vec<String> {
        let cells = pages::cells(line);
        cells.iter().map(|cell| cell.trim().to_string()).collect()
    };
    let rows = lines
        .iter()
        .skip_while(|line| !line.starts_with(&format!("| {heading} |")))
        .take_while(|line| line.starts_with('|'))
        .skip(2);
    let rows: Vec<Vec<String>> = rows.map(cells).collect();
    assert!(!rows.is_empty(), "no table of {heading} in {title}");
    rows
}

/// The numbers of a text, whatever stands between them.
fn numbers(text: &str) -> Vec<u32> {
    let words = text.split(|letter: char| !letter.is_ascii_digit());
    words.filter_map(|word| word.parse().ok()).collect()
}

/// Two numbers of a cell, as of `200, 300`.
fn pair(cell: &str) -> (u32, u32) {
    let [x, y] = numbers(cell)[..] else {
        panic!("no pair: {cell}");
    };
    (x, y)
}

/// The lines of a section between the marks of a program of this kind.
fn block(title: &str, kind: &str) -> Vec<String> {
    let lines = section(title).into_iter();
    let below = lines.skip_while(|line| *line != format!("```{kind}"));
    let block = below.skip(1).take_while(|line| line != "```");
    block.collect()
}

fn hex() -> Vec<u8> {
    let lines = block("A complete drawing", "hex");
    let bytes = lines.iter().flat_map(|line| line.split(' '));
    bytes
        .map(|byte| u8::from_str_radix(byte, 16).expect("two hexadecimal digits"))
        .collect()
}

// ---- the library ----

fn read(records: &[u8]) -> (Answer, Tables) {
    let mut tables = Tables {
        plan: vec![0; PLAN_COUNTS + MOST_RECORDS],
        areas: vec![0; AREA_WORDS * MOST_AREAS],
        xs: vec![0; MOST_CORNERS],
        ys: vec![0; MOST_CORNERS],
    };
    let Tables {
        plan,
        areas,
        xs,
        ys,
    } = &mut tables;
    (zones::read(records, plan, areas, xs, ys), tables)
}

/// Trees of many shapes over a drawing: the whole grid alone, and grown by several thresholds and limits.
fn trees(drawing: Drawing) -> Vec<TreeTables> {
    let grown = [(0, 0), (0, 4), (2, 9), (0, MOST_DEPTH)].map(|(threshold, limit)| {
        let mut tree = TreeTables::new(MOST_CELLS, MOST_ENTRIES);
        let opened = zones::open(drawing, &mut tree.lend());
        assert!(matches!(opened, Answer::Accepted(_)), "{opened:?}");
        let grown = zones::grow(drawing, &mut tree.lend(), threshold, limit);
        assert!(matches!(grown, Answer::Accepted(_)), "{grown:?}");
        tree
    });
    grown.into()
}

/// The words of what shows at a position, the same by every tree and with none.
fn position(tables: &Tables, x: u32, y: u32) -> [u32; SHOWN_WORDS] {
    let drawing = Drawing::of(tables);
    let plain = shown_words(Scene::of(drawing).position(x, y));
    for tree in trees(drawing) {
        let mut out = [0; SPOT_WORDS];
        let answer = zones::position(drawing, tree.view(), x, y, &mut out);
        assert_eq!(answer, Answer::Accepted(plain[2]), "{x}, {y}");
        assert_eq!(out[..SHOWN_WORDS], plain, "{x}, {y}");
    }
    plain
}

// ---- what the page says ----

#[test]
fn orders_of_records() {
    for row in table("The order of records", "records") {
        let text: String = row[0].chars().filter(|c| !['`', ' '].contains(c)).collect();
        let (answer, _) = read(&letters(&text).concat());
        let said = match row[1].strip_prefix("accepted") {
            Some(_) => Answer::Accepted(text.chars().count() as u32),
            None => {
                let (number, place) = pair(row[1].split(':').next().expect("an answer"));
                Answer::Refused { number, place }
            }
        };
        assert_eq!(answer, said, "{}", row[0]);
    }
}

#[test]
fn the_triangle() {
    let words = "paint non-zero 255 0 0 0 1\ncontour 0,0 10,0 10,10";
    let records = zones_tools::words::records(words).expect("words");
    let (_, tables) = read(&records.concat());
    for row in table("Where an edge counts", "position") {
        let (x, y) = pair(&row[0]);
        let winding: u32 = row[3].parse().expect("a winding");
        assert_eq!(position(&tables, x, y)[0], winding, "{}", row[0]);
    }
}

#[test]
fn the_words_and_the_bytes() {
    let words = block("A complete drawing", "text");
    // Notes stand behind the words, after two spaces or more.
    let plain: Vec<&str> = words
        .iter()
        .map(|line| line.split("  ").next().expect("a part"))
        .collect();
    let records = zones_tools::words::records(&plain.join("\n")).expect("words");
    assert_eq!(records.concat(), hex());
}

#[test]
fn positions_of_the_complete_drawing() {
    let (answer, tables) = read(&hex());
    assert_eq!(answer, Answer::Accepted(22));
    for row in table("A complete drawing", "position") {
        let (x, y) = pair(&row[0]);
        let said = [
            numbers(&row[1]),
            vec![0],
            numbers(&row[2]),
            numbers(&row[3]),
        ]
        .concat();
        assert_eq!(position(&tables, x, y).to_vec(), said, "{}", row[0]);
    }
}

#[test]
fn pixels_of_the_complete_drawing() {
    let (_, tables) = read(&hex());
    let drawing = Drawing::of(&tables);
    for row in table("A complete drawing", "pixel") {
        let (pixel, number) = pair(&row[..2].join(" "));
        let said = numbers(&row[2]);
        for tree in trees(drawing) {
            let mut out = [0; CHANNELS];
            let answer = zones::pixel_row(drawing, tree.view(), number, pixel, &mut out);
            assert_eq!(answer, Answer::Accepted(0));
            assert_eq!(out.map(u32::from).to_vec(), said);
        }
    }
}

/// The paragraph of the complete drawing that begins so.
fn paragraph(begins: &str) -> String {
    let lines = section("A complete drawing");
    let found = lines.into_iter().find(|line| line.starts_with(begins));
    found.expect("a paragraph")
}

#[test]
fn the_log_of_the_complete_drawing() {
    let (_, tables) = read(&hex());
    let drawing = Drawing::of(&tables);
    let text = paragraph("The zone log");
    let (run, rest) = text.split_once(" has the materials ").expect("materials");
    let (materials, indices) = rest
        .split_once(" and so the indices ")
        .expect("and its indices");
    let run = numbers(run);
    let (px, py): (Vec<u32>, Vec<u32>) = run.chunks(2).map(|at| (at[0], at[1])).unzip();
    let spots = px.iter().zip(&py);
    let found: Vec<u32> = spots.map(|(x, y)| position(&tables, *x, *y)[2]).collect();
    assert_eq!(found, numbers(materials));
    for tree in trees(drawing) {
        let mut out = vec![0; px.len()];
        let answer = zones::zone_log(drawing, tree.view(), &px, &py, &mut out);
        let said = numbers(indices);
        assert_eq!(answer, Answer::Accepted(said.len() as u32));
        assert_eq!(&out[..said.len()], said);
    }
}

#[test]
fn the_stream_and_the_refusals_of_the_complete_drawing() {
    let text = paragraph("Opening makes a stream of 14 entries");
    assert!(text.contains("refused, 4 at 21;") && text.ends_with("13 at 11."));
    let (_, tables) = read(&hex());
    let mut tree = TreeTables::new(MOST_CELLS, MOST_ENTRIES);
    let opened = zones::open(Drawing::of(&tables), &mut tree.lend());
    assert_eq!(opened, Answer::Accepted(14));
    let refused = |number, place| Answer::Refused { number, place };
    let bytes = hex();
    assert_eq!(read(&bytes[..16 * 21]).0, refused(4, 21));
    let mut turned = bytes.clone();
    turned[16 * 10 + 4..16 * 10 + 6].copy_from_slice(&700_u16.to_le_bytes());
    assert_eq!(read(&turned).0, refused(13, 11));
}

/// An entry of a stream in the words of docs/HOW.md.
fn entry_in_words(drawing: Drawing, entry: &Entry) -> String {
    let corner = |number| format!("corner {number} {:?}", drawing.corner(number));
    match *entry {
        Entry::Area { number, start } => format!("area {number}, start number {start}"),
        Entry::Line { from, to } => format!("line from {} to {}", corner(from), corner(to)),
        Entry::Shortcut { sign, first, end } => {
            format!("shortcut {sign:+}, rows {first} to {}", end - 1)
        }
        _ => panic!("the leaf of the page has no such entry: {entry:?}"),
    }
}

#[test]
fn the_leaf_of_the_other_page() {
    let (_, tables) = read(&hex());
    let drawing = Drawing::of(&tables);
    let mut tree = TreeTables::new(MOST_CELLS, MOST_ENTRIES);
    zones::open(drawing, &mut tree.lend());
    zones::grow(drawing, &mut tree.lend(), 0, 8);
    let mut leaf = [0; LEAF_WORDS];
    for row in table("Reading a leaf", "position") {
        let (x, y) = pair(&row[0]);
        zones::find_leaf(drawing, tree.view(), x, y, &mut leaf);
        assert_eq!(leaf[1..=3], [512, 512, 256], "{}", row[0]);
        // The pad is area 2, and even-odd.
        let winding: u32 = row[4].parse().expect("a winding");
        assert_eq!(position(&tables, x, y)[0], (winding % 2) << 2, "{}", row[0]);
    }
    let stream = tree.stream(leaf[0]);
    let said: Vec<String> = stream
        .iter()
        .map(|entry| entry_in_words(drawing, entry))
        .collect();
    assert_eq!(block("The tree", "stream"), said);
}

#[test]
fn the_texts_of_the_refusals() {
    let rows = table("Refusals", "no.");
    assert_eq!(rows.len(), ::zones::Refusal::ALL.len());
    for (row, refusal) in rows.iter().zip(::zones::Refusal::ALL) {
        assert_eq!(
            row[..2],
            [refusal.number().to_string(), refusal.to_string()]
        );
    }
}
