//! Puts the files of specs/ that the contracts of the exported calls and the statements of demand 3 reach, in reading order, into the
//! table of docs/PROMISES.md, and prints them.

use std::fs;
use std::path::Path;
use zones_tests::reach::{page, reached, STATEMENTS};

fn main() {
    let top = Path::new(env!("CARGO_MANIFEST_DIR")).join("..");
    let promises = top.join("docs/PROMISES.md");
    let list = reached(&top, &STATEMENTS);
    for file in &list {
        println!("{:5}  crates/{}.antt", file.lines, file.path);
    }
    let old = fs::read_to_string(&promises).expect("docs/PROMISES.md");
    fs::write(&promises, page(&old, &list)).expect("docs/PROMISES.md can be written");
}
