//! The nine calls in a few seconds, the library against the second implementation: what `.ci/run` has
//! run over the WebAssembly module (`tools/port-compare wasm32 --quick`). The other tests are the
//! whole comparison; `tools/port-compare` runs them over the library of another processor too.

use std::fs;
use std::path::PathBuf;

use zones_tests::compare::{self, LEAF_WORDS};
use zones_tests::damage::{self, damage_tables, DAMAGES};
use zones_tests::drawing;
use zones_tests::foreign;
use zones_tests::lent::{any_bytes, lent_bytes, lent_words, Lent, LentTables};
use zones_tests::meaning::PIXEL;
use zones_tests::pages;
use zones_tests::query::{CHANNELS, PIXELS};
use zones_tests::random::Random;
use zones_tests::readings::SPOT_WORDS;
use zones_tests::sample::Sample;
use zones_tests::samples;
use zones_tests::scenes;
use zones_tests::tally::Tally;
use zones_tests::tree::{MOST_CELLS, MOST_ENTRIES};
use zones_tests::tree_damage::TREE_DAMAGES;
use zones_tests::zones::Answer;

/// Reads records into tables of any words and writes back what was read.
fn read_and_write(random: &mut Random, bytes: &[u8], tally: &mut Tally) {
    let blank = LentTables::ample(random);
    let (answer, drawing) = compare::read(&lent_bytes(random, bytes), &blank);
    tally.note_call("read", answer);
    let room = bytes.len() + random.below(40);
    let before = any_bytes(random, room);
    let (written, out) = compare::write(&drawing, &lent_bytes(random, &before));
    tally.note_call("write", written);
    if let Answer::Accepted(_) = answer {
        assert_eq!(written, Answer::Accepted(bytes.len() as u32));
        assert!(out.table()[..bytes.len()] == *bytes);
    }
}

/// So many words of 77, lent.
fn blank_words(random: &mut Random, words: usize) -> Lent<u32> {
    lent_words(random, &vec![77; words])
}

/// Every call that answers from a tree, at so many places: now and then at none, and with room for the
/// words or too little.
fn readings(random: &mut Random, sample: &Sample, times: usize, tally: &mut Tally) {
    let mut reader = sample.reader();
    for _ in 0..times {
        let (mut x, y) = scenes::any_position(random, &sample.tables);
        if random.one_in(20) {
            x = random.pick(&[65_535, 65_536, u32::MAX]);
        }
        let room = random.pick(&[LEAF_WORDS, LEAF_WORDS, LEAF_WORDS - 1, 9]);
        let blank = blank_words(random, room);
        tally.note_call("find", sample.find_leaf((x, y), &blank).0);
        let room = random.pick(&[SPOT_WORDS, SPOT_WORDS, SPOT_WORDS - 1, 11]);
        let blank = blank_words(random, room);
        tally.note_call("position", reader.position((x, y), &blank).0);
        let pixels = random.pick(&[1, 2, 5, 20]);
        let most = PIXELS - pixels;
        let (row, first) = (y / PIXEL, (x / PIXEL).min(most + random.below(2) as u32));
        let more = random.pick(&[0, 0, 0, 0, 0, 0, 1, 2]);
        let blank = lent_bytes(random, &vec![77; CHANNELS * pixels as usize + more]);
        tally.note_call("row", reader.pixel_row(row, first, &blank).0);
        let (px, py) = scenes::run(random, &sample.tables, 20);
        let (px, py) = (lent_words(random, &px), lent_words(random, &py));
        let room = random.pick(&[0, 1, 2, 5, 20, 20, 20]);
        let blank = blank_words(random, room);
        tally.note_call("log", reader.zone_log(&px, &py, &blank).0);
    }
    reader.finish();
}

/// Opens, splits, grows and reads.
fn tree(random: &mut Random, sample: &mut Sample, times: usize, tally: &mut Tally) {
    tally.note_call("open", sample.open());
    for _ in 0..times {
        let at = scenes::any_position(random, &sample.tables);
        let cell = sample.leaf_at(at).map_or(0, |leaf| leaf.cell);
        tally.note_call("split", sample.split(cell));
    }
    readings(random, sample, times, tally);
    let (threshold, limit) = (random.pick(&[0, 1, 5]), random.pick(&[4, 8, 15, 16, 17]));
    tally.note_call("grow", sample.grow(threshold, limit));
    readings(random, sample, times, tally);
}

fn sample_files() -> Vec<PathBuf> {
    let files = fs::read_dir(pages::top().join("samples")).expect("the folder of samples");
    let paths = files.map(|file| file.expect("a sample").path());
    let mut paths: Vec<_> = paths
        .filter(|path| path.extension().is_some_and(|kind| kind == "zones"))
        .collect();
    paths.sort();
    paths
}

#[test]
fn the_samples() {
    let random = &mut Random::for_test(200);
    let mut tally = Tally::default();
    for path in sample_files() {
        let bytes = fs::read(&path).expect("a sample");
        read_and_write(random, &bytes, &mut tally);
        let (records, _) = bytes.as_chunks();
        if drawing::check(&bytes).is_err() {
            continue;
        }
        let tables = samples::tables(records);
        for (cells, entries) in [(60, 2_000), (MOST_CELLS, MOST_ENTRIES)] {
            let mut sample = Sample::unopened(random, tables.clone(), cells, entries);
            tree(random, &mut sample, 12, &mut tally);
        }
        tally.note("samples".to_string());
    }
    tally.print("samples");
    tally.reached("samples", 4);
    tally.reached("read 5", 1);
    for call in ["find", "position", "row", "log"] {
        tally.reached(&format!("{call} accepted"), 80);
    }
}

#[test]
fn random_records() {
    let random = &mut Random::for_test(201);
    let mut tally = Tally::default();
    for _ in 0..1_500 {
        let over = random.one_in(5);
        let records = match random.below(2) {
            0 => samples::curved(random, over),
            _ => samples::drawing(random, over),
        };
        let bytes = match random.below(2) {
            0 => records.concat(),
            _ => damage::damaged(random, records),
        };
        read_and_write(random, &bytes, &mut tally);
    }
    tally.print("records");
    for what in ["read accepted", "write accepted", "write 12"] {
        tally.reached(what, 50);
    }
}

#[test]
fn random_trees() {
    let random = &mut Random::for_test(202);
    let mut tally = Tally::default();
    for _ in 0..400 {
        let tables = match random.below(3) {
            0 => scenes::any_tables(random, 40),
            _ => samples::tables(&scenes::curved(random)),
        };
        let (cells, entries) = (
            random.pick(&[5, 30, 300]),
            random.pick(&[100, 1_000, 5_000]),
        );
        let mut sample = Sample::unopened(random, tables, cells, entries);
        tree(random, &mut sample, 10, &mut tally);
    }
    tally.print("trees");
    for what in ["split accepted", "split 11", "grow accepted", "grow 7"] {
        tally.reached(what, 20);
    }
    for call in ["find", "position", "row", "log"] {
        tally.reached(&format!("{call} accepted"), 1_000);
    }
}

#[test]
fn tables_that_are_damaged_or_written_by_others() {
    let random = &mut Random::for_test(203);
    let mut tally = Tally::default();
    for damage in TREE_DAMAGES {
        for _ in 0..12 {
            let mut sample = Sample::damaged(random, damage);
            readings(random, &sample, 3, &mut tally);
            tally.note_call("split", sample.split(0));
            tally.note_call("grow", sample.grow(0, 4));
        }
    }
    for damage in DAMAGES {
        let tables = scenes::tables(random);
        let mut drawing = LentTables::longer(random, tables);
        damage_tables(random, &mut drawing, damage);
        let out = lent_bytes(random, &[77; 9_000]);
        tally.note_call("write", compare::write(&drawing, &out).0);
    }
    for _ in 0..120 {
        let tables = scenes::tables(random);
        let tree = foreign::tree(random, &tables, 6);
        let sample = Sample::longer(random, tables, &tree);
        readings(random, &sample, 5, &mut tally);
    }
    tally.print("damaged");
    for what in ["split 12", "grow 12", "position 12", "row 12", "log 12"] {
        tally.reached(what, 10);
    }
    tally.reached("position accepted", 200);
}
