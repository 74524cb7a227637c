//! docs/PROMISES.md lists the files and definitions that the exported contracts and the statements of demand 3 reach.

use std::fs;
use std::path::Path;
use zones_tests::reach::{page, reached, STATEMENTS};

#[test]
fn promises_have_the_reading_list() {
    let top = Path::new(env!("CARGO_MANIFEST_DIR")).join("..");
    let list = reached(&top, &STATEMENTS);
    let promises = fs::read_to_string(top.join("docs/PROMISES.md")).expect("docs/PROMISES.md");
    assert!(
        !list.is_empty() && promises.contains(&list[0].path),
        "no reading list"
    );
    let is = page(&promises, &list) == promises;
    assert!(
        is,
        "docs/PROMISES.md has another reading list: tools/reading-list puts it right"
    );
}
