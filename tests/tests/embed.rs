//! The C programs: they compile with include/zones.h and link the archive. That of samples/ says what the second implementation says; those of
//! tools/, whose instructions are counted, have every call accepted.

use std::collections::BTreeSet;
use std::fs;
use std::path::{Path, PathBuf};
use std::process::Command;

use zones::{ADVISED_DEPTH, ADVISED_THRESHOLD};
use zones_tests::c_program::compiled;
use zones_tests::class::Square;
use zones_tests::meaning::{Drawing, Scene};
use zones_tests::pages::{sample, top};
use zones_tests::samples;
use zones_tests::tree::{self, TreeTables, MOST_CELLS, MOST_ENTRIES};
use zones_tools::words;

/// samples/where.c, in a folder of its own.
fn where_program(name: &str) -> PathBuf {
    let folder = Path::new(env!("CARGO_TARGET_TMPDIR")).join(name);
    fs::create_dir_all(&folder).expect("a folder for the test");
    compiled(&[&sample("where.c")], &folder)
}

/// What the program prints of a drawing at a position, what it says of an error, and its exit status.
fn run(program: &Path, drawing: &Path, x: &str, y: &str) -> (String, String, Option<i32>) {
    let mut command = Command::new(program);
    let output = command.arg(drawing).args([x, y]).output();
    let output = output.expect("the program runs");
    let text = |bytes: Vec<u8>| String::from_utf8(bytes).expect("text");
    (
        text(output.stdout),
        text(output.stderr),
        output.status.code(),
    )
}

#[test]
fn positions_of_the_pit() {
    let program = where_program("positions");
    let text = fs::read_to_string(sample("pit.txt")).expect("the sample");
    let tables = samples::tables(&words::records(&text).expect("the words of a drawing"));
    let drawing = Drawing::of(&tables);
    let scene = Scene::of(drawing);
    let mut tree = TreeTables::new(MOST_CELLS, MOST_ENTRIES);
    tree::open(drawing, &mut tree.lend()).expect("it opens");
    tree::grow(drawing, &mut tree.lend(), ADVISED_THRESHOLD, ADVISED_DEPTH).expect("it grows");
    let (mut materials, mut uniform) = (BTreeSet::new(), 0);
    for x in (0..=65_535).step_by(4_369) {
        for y in (0..=65_535).step_by(4_369) {
            let reading = scene.position(x, y);
            let [red, green, blue] = reading.colour;
            let mut expected = format!(
                "material {}, colour {red} {green} {blue}\n",
                reading.material
            );
            let leaf = tree::find_leaf(drawing, tree.view(), x, y).expect("a leaf is found");
            if leaf.uniform() {
                uniform += 1;
                expected += &reach(leaf.square);
            }
            let asked = run(
                &program,
                &sample("pit.zones"),
                &x.to_string(),
                &y.to_string(),
            );
            assert_eq!(asked, (expected, String::new(), Some(0)));
            materials.insert(reading.material);
        }
    }
    assert!(materials.len() > 5, "{materials:?}");
    assert!((1..256).contains(&uniform), "{uniform} of 256 reach");
}

/// What the program says of a leaf that is uniform.
fn reach(square: Square) -> String {
    let Square { x, y, side } = square;
    let (right, top) = (x + side - 1, y + side - 1);
    format!("the same for x {x} to {right}, y {y} to {top}\n")
}

/// What is refused is said with its number, its place and its words.
#[test]
fn refusals_in_words() {
    let program = where_program("refusals");
    let refused = |drawing: &Path, x: &str, y: &str| {
        let (printed, error, status) = run(&program, drawing, x, y);
        assert_eq!((error.as_str(), status), ("", Some(1)));
        printed
    };
    let outside = "position refused 7 at 0: an argument is out of range: unequal tables of x and y, a position, a depth limit, a pixel row, first pixel or buffer\n";
    for (x, y) in [("65536", "0"), ("0", "65536"), ("4294967295", "7")] {
        assert_eq!(refused(&sample("pit.zones"), x, y), outside);
    }
    let short = "read refused 5 at 7: a contour of under 3 corners\n";
    assert_eq!(refused(&sample("refused.zones"), "1", "1"), short);
}

#[test]
fn arguments_that_are_no_numbers() {
    let program = where_program("arguments");
    let pit = sample("pit.zones");
    let no_numbers = [
        "",
        "x",
        "12x",
        "x12",
        "-3",
        "+4",
        " 5",
        "5 ",
        "1.5",
        "1e3",
        "0x10",
        "4294967296",
        "99999999999999999999999",
    ];
    for word in no_numbers {
        let said = |letter: &str| {
            format!(
                "where: {letter} is '{word}', which is no number: give digits alone, 0 to 65535\n"
            )
        };
        assert_eq!(
            run(&program, &pit, word, "3"),
            (String::new(), said("X"), Some(2))
        );
        assert_eq!(
            run(&program, &pit, "3", word),
            (String::new(), said("Y"), Some(2))
        );
    }
    let plain = run(&program, &pit, "40000", "30000");
    assert_eq!(run(&program, &pit, "0040000", "000000000030000"), plain);
    let usage = Command::new(&program)
        .arg(&pit)
        .output()
        .expect("the program runs");
    assert_eq!(
        (usage.status.code(), usage.stderr.as_slice()),
        (Some(2), "usage: where DRAWING X Y\n".as_bytes())
    );
}

/// A file of 4,096 records is read; one that is longer, by a record or by much, is refused by its length, not cut.
#[test]
fn files_that_are_too_long() {
    let program = where_program("lengths");
    let file = program.with_extension("zones");
    let group = [4, 5, 6].map(|kind| {
        let mut record = [0_u8; 16];
        record[0] = kind;
        record
    });
    let groups = group.concat().repeat(1_365);
    let area = [[1_u8, 0, 0, 0, 0, 0, 0, 0, 1, 0, 0, 0, 0, 0, 0, 0]].concat();
    let longest = [groups, area].concat();
    // No area has a contour, so no line is left.
    let nothing = "material 0, colour 255 255 255\nthe same for x 0 to 65535, y 0 to 65535\n";
    let refused = "read refused 1 at 0: the length of the file is no multiple of 16, or it has over 4,096 records\n";
    for (bytes, expected) in [
        (longest.clone(), nothing),
        (Vec::new(), nothing),
        ([longest.clone(), vec![0; 16]].concat(), refused),
        ([longest.clone(), vec![0; 1]].concat(), refused),
        (longest.repeat(3), refused),
        (vec![0; 15], refused),
    ] {
        fs::write(&file, &bytes).expect("a file is written");
        let (printed, _, status) = run(&program, &file, "1", "1");
        assert_eq!(
            (printed.as_str(), status),
            (expected, Some(i32::from(expected == refused)))
        );
    }
    // A file that is not there, and a folder.
    for path in [file.with_extension("not"), top()] {
        let (printed, error, status) = run(&program, &path, "1", "1");
        assert_eq!((printed.as_str(), status), ("", Some(2)));
        assert!(
            error.starts_with(&format!("{}: ", path.display())),
            "{error}"
        );
    }
}

#[test]
fn calls_whose_instructions_are_counted() {
    let tmp = Path::new(env!("CARGO_TARGET_TMPDIR"));
    let program = compiled(&[&top().join("tools/instructions.c")], tmp);
    let run = |job: &str| {
        let mut command = Command::new(&program);
        command.arg(sample("pit.zones")).arg(job);
        command.status().expect("the program runs").success()
    };
    for job in ["none", "read", "grow", "position", "log", "row"] {
        assert!(run(job), "{job}");
    }
    let program = compiled(&[&top().join("tools/readings.c")], tmp);
    for areas in ["8", "32", "64"] {
        for (threshold, job) in [("2", "truck"), ("0", "truck"), ("2", "row"), ("0", "about")] {
            let output = Command::new(&program)
                .args([areas, threshold, job])
                .output()
                .expect("the program runs");
            assert!(output.status.success(), "{areas} {threshold} {job}");
        }
    }
}
