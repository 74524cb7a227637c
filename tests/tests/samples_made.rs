//! The sample `mine` is what its script writes, and has the size that docs/SAMPLES.md says.

use std::fs;
use std::process::Command;

use zones_tests::drawing::{AREA, CLOSE, CONTROL, FIRST, MOST_AREAS, MOST_CORNERS, NEXT, OPEN};
use zones_tests::meaning::Drawing;
use zones_tests::pages::{self, sample};
use zones_tests::record::Record;
use zones_tests::stream::Entry;
use zones_tests::tree::{TreeTables, MOST_CELLS, MOST_ENTRIES};
use zones_tests::zones::{self, Answer, FULL};
use zones_tests::{lister, samples};
use zones_tools::words;

fn text(file: &str) -> String {
    fs::read_to_string(sample(file)).expect("a sample")
}

fn records() -> Vec<Record> {
    words::records(&text("mine.txt")).expect("the words of a drawing")
}

#[test]
fn the_script_writes_the_words() {
    let made = Command::new("python3").arg(sample("mine.py")).output();
    let Ok(made) = made else {
        println!("no python3: nothing compared");
        return;
    };
    assert!(made.status.success(), "samples/mine.py ends with an error");
    assert!(
        made.stdout == text("mine.txt").into_bytes(),
        "samples/mine.txt is not what the script writes: python3 samples/mine.py > samples/mine.txt"
    );
}

#[test]
fn records_and_leaves_are_those_of_the_words() {
    let bytes = records().concat();
    assert!(fs::read(sample("mine.zones")).expect("a sample") == bytes);
    assert_eq!(lister::list(&bytes), text("mine.leaves"));
}

/// The drawing is of the size of a real pit: near the limits, with curves, and groups three deep.
#[test]
fn the_size_of_a_real_pit() {
    let kinds: Vec<u8> = records().iter().map(|record| record[0]).collect();
    let count = |of: &[u8]| kinds.iter().filter(|kind| of.contains(kind)).count();
    let (mut open, mut deepest) = (0, 0);
    for kind in &kinds {
        open += i32::from(*kind == OPEN) - i32::from(*kind == CLOSE);
        deepest = deepest.max(open);
    }
    let areas = count(&[AREA]);
    let corners = count(&[FIRST, NEXT, CONTROL]);
    let says = format!(
        "{areas} areas, {} corners, {} of them control corners",
        corners.to_string().replacen('2', "2,", 1),
        count(&[CONTROL])
    );
    assert!((55..=MOST_AREAS).contains(&areas) && (1_900..=MOST_CORNERS).contains(&corners));
    assert_eq!(deepest, 3);
    let page = fs::read_to_string(pages::top().join("docs/SAMPLES.md")).expect("a page");
    assert!(page.contains(&says), "docs/SAMPLES.md does not say: {says}");
}

/// The numbers of a text; a comma inside a number is left out.
fn numbers(text: &str) -> Vec<u32> {
    let words = text.split(' ').map(|word| word.replace(',', ""));
    words.filter_map(|word| word.parse().ok()).collect()
}

/// The trees that docs/SAMPLES.md tells of: threshold and depth limit, done or full, cells and entries.
#[test]
fn the_trees_over_it() {
    let tables = samples::tables(&records());
    let drawing = Drawing::of(&tables);
    let page = fs::read_to_string(pages::top().join("docs/SAMPLES.md")).expect("a page");
    let rows = page
        .lines()
        .skip_while(|line| !line.starts_with("| threshold, depth limit |"));
    let rows = rows.take_while(|line| line.starts_with('|')).skip(2);
    let mut trees = 0;
    for row in rows {
        let [threshold, limit, cells, entries] = numbers(row)[..] else {
            panic!("no tree: {row}");
        };
        let mut tree = TreeTables::new(MOST_CELLS, MOST_ENTRIES);
        zones::open(drawing, &mut tree.lend());
        let grown = zones::grow(drawing, &mut tree.lend(), threshold, limit);
        let full = if row.contains("| full |") { FULL } else { 0 };
        assert_eq!(grown, Answer::Accepted(full + (cells - 1) / 4), "{row}");
        assert_eq!(tree.head, [cells, entries], "{row}");
        trees += 1;
    }
    assert_eq!(trees, 4);
}

/// What docs/HOW.md says of the tree in its picture.
#[test]
fn the_tree_of_the_picture() {
    let tables = samples::tables(&records());
    let drawing = Drawing::of(&tables);
    let mut tree = TreeTables::new(MOST_CELLS, MOST_ENTRIES);
    let lines = |tree: &TreeTables, leaf| {
        let stream = tree.stream(leaf).into_iter();
        let kept = stream.filter(|entry| matches!(entry, Entry::Line { .. } | Entry::Curve { .. }));
        kept.count()
    };
    zones::open(drawing, &mut tree.lend());
    let all = lines(&tree, 0);
    zones::grow(drawing, &mut tree.lend(), 8, 8);
    let leaves = tree.leaves();
    let most = leaves.iter().map(|leaf| lines(&tree, *leaf)).max();
    assert_eq!((all, leaves.len(), most), (1_172, 799, Some(8)));
    let weighed = |leaf: &u32| {
        let side = u64::from(tree.view().cell(*leaf).square.side);
        lines(&tree, *leaf) as u64 * side * side
    };
    let tenths = 10 * leaves.iter().map(weighed).sum::<u64>();
    assert_eq!((tenths + (1 << 31)) >> 32, 39);
    let page = fs::read_to_string(pages::top().join("docs/HOW.md")).expect("a page");
    for said in [
        "1,172 lines and curves",
        "799 leaves; each keeps at most 8 lines or curves, 3.9 in the mean",
    ] {
        assert!(page.contains(said), "{said}");
    }
}
