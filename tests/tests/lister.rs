//! The program `lister`: its stored outputs, and what it prints against the second implementation's lister.

use std::env;
use std::fs;
use std::io::Write;
use std::path::{Path, PathBuf};
use std::process::{Command, Stdio};
use std::thread;
use std::time::Duration;

use zones_tests::damage;
use zones_tests::drawing::{MOST_RECORDS, RECORD_BYTES};
use zones_tests::lister;
use zones_tests::pages::sample;
use zones_tests::random::Random;
use zones_tests::record::letters;
use zones_tests::scenes::{self, Look};
use zones_tests::tally::Tally;
use zones_tools::words;

/// The program, in ZONES_BIN_DIR or in ../crates/lister/out: `rt run` there makes it, and so does `rt ci`.
fn program() -> PathBuf {
    let chosen = env::var_os("ZONES_BIN_DIR").unwrap_or("../crates/lister/out".into());
    Path::new(env!("CARGO_MANIFEST_DIR"))
        .join(chosen)
        .join("lister")
}

/// What the program prints of an input that comes in these parts.
fn printed(parts: &[&[u8]]) -> String {
    let mut lister = Command::new(program())
        .stdin(Stdio::piped())
        .stdout(Stdio::piped())
        .spawn()
        .expect("the program is there: rt run, in crates/lister");
    let mut input = lister.stdin.take().expect("a pipe");
    for (index, part) in parts.iter().enumerate() {
        if index > 0 {
            thread::sleep(Duration::from_millis(20));
        }
        // The program reads no more than it needs, and may have ended.
        let _ = input.write_all(part);
    }
    drop(input);
    let output = lister.wait_with_output().expect("the program ends");
    assert!(output.status.success());
    String::from_utf8(output.stdout).expect("text")
}

/// The program prints what the second implementation says.
fn expect_same(input: &[u8]) -> String {
    let text = printed(&[input]);
    assert_eq!(text, lister::list(input));
    text
}

#[test]
fn the_samples() {
    for (name, last) in [
        ("pit", "84 4227858432 8192 0 0\n"),
        ("berms", "84 4227858432 8192 0 0\n"),
        ("quarter", "4 3221225472 32768 0 0\n"),
        ("full", "\nfull\n"),
        ("mine", "\nfull\n"),
        ("refused", "refused 5 at 7\n"),
    ] {
        let read = |kind| fs::read(sample(name).with_extension(kind)).expect("a sample");
        let text = |kind| String::from_utf8(read(kind)).expect("text");
        let records = words::records(&text("txt")).expect("the words of a drawing");
        assert_eq!(read("zones"), records.concat(), "{name}");
        assert_eq!(expect_same(&read("zones")), text("leaves"), "{name}");
        assert!(text("leaves").ends_with(last), "{name}");
    }
}

#[test]
fn words_are_refused() {
    for text in [
        "paint",
        "paint non-zero 256 0 0 0 1",
        "clip odd",
        "contour 1",
        "contour 1,2 control",
        "contour 1,2 control control 3,4",
        "( (",
        "group",
    ] {
        assert!(words::records(text).is_err(), "{text}");
    }
    assert_eq!(words::records("# nothing\n\n"), Ok(vec![]));
}

#[test]
fn lengths() {
    assert_eq!(expect_same(&[]), "0 0 65536 0 0\n");
    for length in [1, 15, 17, 65_535, 65_537, 65_552, 70_000, 1_000_000] {
        assert_eq!(expect_same(&vec![0; length]), "refused 1 at 0\n");
    }
    assert_eq!(expect_same(&[0; RECORD_BYTES]), "refused 2 at 0\n");
    let most = letters(&format!("p{}", "(|)".repeat(1_365))).concat();
    assert_eq!(most.len(), RECORD_BYTES * MOST_RECORDS);
    assert_eq!(expect_same(&most), "0 0 65536 0 0\n");
    let over = [most.as_slice(), &letters("p").concat()].concat();
    assert_eq!(expect_same(&over), "refused 1 at 0\n");
    // An input that comes in parts is one input.
    assert_eq!(
        printed(&[&most[..5], &most[5..9_000], &most[9_000..]]),
        "0 0 65536 0 0\n"
    );
}

#[test]
fn random_drawings() {
    let random = &mut Random::for_test(60);
    let mut tally = Tally::default();
    for round in 0..400 {
        let look = match round % 8 {
            0 => Look::fullest(random),
            _ => Look::any(random),
        };
        let records = scenes::of(random, &look);
        let input = match round % 4 {
            3 => damage::damaged(random, records),
            _ => records.concat(),
        };
        let text = expect_same(&input);
        let ends_with = |end: &&str| {
            text.lines()
                .last()
                .is_some_and(|line| line.starts_with(*end))
        };
        let end = ["full", "refused"].into_iter().find(ends_with);
        tally.note(end.unwrap_or("done").to_string());
    }
    tally.print("lister");
    for end in ["done", "full", "refused"] {
        tally.reached(end, 5);
    }
}
