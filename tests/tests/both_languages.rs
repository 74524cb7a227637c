//! The header and the Rust package have the same numbers and the same texts: a C program prints the header's.

use std::fs;
use std::path::Path;
use std::process::Command;

use zones::Refusal;
use zones_tests::c_program::compiled;
use zones_tests::pages;

/// Each constant of the package by its name, which the header has with ZONES_ before it.
macro_rules! constants {
    ($($name:ident)*) => {
        [$((stringify!($name), u64::from(zones::$name as u32))),*]
    };
}

/// What the constants of rust/src/limits.rs are called.
fn names_in_the_package() -> Vec<String> {
    let path = pages::top().join("rust/src/limits.rs");
    let text = fs::read_to_string(path).expect("the constants of the package");
    let name = |line: &str| {
        Some(
            line.strip_prefix("pub const ")?
                .split_once(':')?
                .0
                .to_string(),
        )
    };
    text.lines().filter_map(name).collect()
}

/// A program that prints each constant, and then the text of each refusal and of the numbers around them.
fn program(names: &[&str]) -> String {
    let print =
        |name: &&str| format!("    printf(\"%llu\\n\", (unsigned long long)ZONES_{name});\n");
    let prints: String = names.iter().map(print).collect();
    format!(
        "#include \"zones.h\"\n#include <stdio.h>\n\nint main(void) {{\n{prints}    \
         for (uint32_t n = 0; n <= 14; n++) printf(\"%s\\n\", zones_refusal_text(n));\n    \
         return 0;\n}}\n"
    )
}

#[test]
fn numbers_and_texts() {
    let constants = constants!(
        RECORD_BYTES MOST_RECORDS MOST_AREAS MOST_CORNERS MOST_GROUPS MOST_COORDINATE MOST_POSITION MOST_CURVE_SPAN
        PLAN_COUNTS AREA_WORDS HEAD_WORDS CELL_WORDS ENTRY_WORDS MOST_CELLS MOST_ENTRIES MOST_DEPTH ADVISED_THRESHOLD ADVISED_DEPTH
        LEAF_WORDS POSITION_WORDS PIXEL_BYTES PIXEL_UNITS PIXELS
        FILE_BYTES PLAN_LENGTH AREAS_LENGTH CORNERS_LENGTH CELLS_LENGTH ENTRIES_LENGTH
        FULL
    );
    let names = constants.map(|(name, _)| name);
    let listed = &names[..names.len() - 1];
    assert_eq!(
        names_in_the_package(),
        listed,
        "the constants that are compared here"
    );

    let tmp = Path::new(env!("CARGO_TARGET_TMPDIR"));
    let source = tmp.join("both_languages.c");
    fs::write(&source, program(&names)).expect("the program is written");
    let output = Command::new(compiled(&[&source], tmp))
        .output()
        .expect("the program runs");
    let printed = String::from_utf8(output.stdout).expect("text");
    let mut lines = printed.lines();
    for (name, value) in constants {
        assert_eq!(lines.next(), Some(value.to_string().as_str()), "{name}");
    }
    let texts: Vec<&str> = lines.collect();
    let [accepted, of_refusals @ .., unknown] = &texts[..] else {
        panic!("{printed}");
    };
    assert!(
        of_refusals
            .iter()
            .copied()
            .eq(Refusal::ALL.map(Refusal::text)),
        "{printed}"
    );
    assert_eq!(
        (*accepted, *unknown),
        ("accepted", "no refusal has this number")
    );
}
