//! No line of src/, specs/ and proofs/ is longer than 160 characters.

use std::fs;

use zones_tests::pages;

/// Characters, not bytes.
const LONGEST: usize = 160;

#[test]
fn no_line_is_too_long() {
    let top = pages::top();
    let mut found = Vec::new();
    for path in pages::files_below(&top.join("crates")) {
        let source = path.extension().is_some_and(|e| e == "rt" || e == "antt");
        let text = fs::read_to_string(&path).unwrap_or_default();
        let file = path.strip_prefix(&top).unwrap_or(&path).display();
        for (line, number) in text.lines().zip(1..) {
            if source && line.chars().count() > LONGEST {
                found.push(format!("{file}:{number}"));
            }
        }
    }
    assert!(
        found.is_empty(),
        "longer than {LONGEST} characters:\n{}",
        found.join("\n")
    );
}
