//! Empty slices from C that are null pointers: nulls.c makes every call with them, and each answer is
//! the documented one.

use std::path::Path;
use std::process::Command;

use zones_tests::c_program::compiled;

/// What is called, the refusal's number, the low half of the answer, the words lent to be written.
const EXPECTED: &str = "\
read nothing to nothing: 11 0
read nothing, unequal tables: 7 0; 5
read a byte to nothing: 1 0
read nothing, two words: 11 0; 77 77 77
read nothing, three words: 0 0; 0 0 0
write no table: 12 0
write the empty drawing: 0 0
open over no table: 12 0
open in no table: 11 0
open with no cell: 11 0; 77 77
open with no entry: 0 0; 1 0
split no tree: 8 0
split over no drawing: 12 0; 1 0
split with no entry: 0 1; 5 0
split again: 9 0; 5 0
grow no tree: 12 0
grow no tree, a limit of 17: 7 0
grow with no entry: 0 0; 5 0
find in no tree: 12 0
find, no word: 11 0
find: 0 4; 4 32768 32768 32768 1 0 0 1
position in no tree: 12 0
position, no word: 11 0
position: 0 0; 0 0 0 255 255 255 1 32768 32768 32768
no pixel of no tree: 0 0
no pixel of row 4096: 7 0
a pixel of no tree: 12 0
no pixel: 0 0
a pixel: 0 0; 255 255 255
no position of no tree: 0 0
a run of unequal length: 7 0
a run in no tree: 12 0
no position: 0 0
a run, no word: 11 0
a run: 0 1; 0
";

#[test]
fn null_pointers_of_length_0() {
    let source = Path::new(env!("CARGO_MANIFEST_DIR")).join("tests/nulls.c");
    let program = compiled(&[&source], Path::new(env!("CARGO_TARGET_TMPDIR")));
    let output = Command::new(program).output().expect("the program runs");
    assert!(output.status.success(), "{}", output.status);
    let printed = String::from_utf8(output.stdout).expect("text");
    for (line, expected) in printed.lines().zip(EXPECTED.lines()) {
        assert_eq!(line, expected);
    }
    assert_eq!(printed, EXPECTED);
}
