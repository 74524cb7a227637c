//! The pages name what is there: must-fail edits, files, functions, definitions and theorems.

use std::collections::BTreeSet;
use std::fs;
use std::path::{Path, PathBuf};

use zones_tests::pages;

/// A name between backticks, its place, and the file that stands before it: `file`: `name`, `name`.
struct Named {
    place: String,
    name: String,
    file: Option<String>,
}

/// What a page names.
fn named_in(page: &str) -> Vec<Named> {
    let text = fs::read_to_string(pages::top().join(page)).expect("a page");
    let mut found: Vec<Named> = Vec::new();
    for (index, line) in text.lines().enumerate() {
        let parts: Vec<&str> = line.split('`').collect();
        let mut file = None;
        for at in (1..parts.len()).step_by(2) {
            file = match parts[at - 1] {
                ": " if at > 1 => Some(parts[at - 2].to_string()),
                ", " => file,
                _ => None,
            };
            found.push(Named {
                place: format!("{page}:{}", index + 1),
                name: parts[at].to_string(),
                file: file.clone(),
            });
        }
    }
    found
}

/// Every must-fail edit, as crate/name.
fn edits() -> BTreeSet<String> {
    let crates = pages::top().join("crates");
    let mut found = BTreeSet::new();
    for path in pages::files_below(&crates) {
        if path.extension().is_some_and(|ending| ending == "edit") {
            let below = path.strip_prefix(&crates).expect("a file of a crate");
            let name = below.with_extension("").display().to_string();
            found.insert(name.replace("/must-fail/", "/"));
        }
    }
    found
}

/// Whether this is written as an edit is: a crate, and a name that is none of its folders.
fn is_edit(name: &str) -> bool {
    let crates = pages::top().join("crates");
    name.split_once('/').is_some_and(|(part, rest)| {
        let folder = crates.join(part);
        folder.is_dir() && !rest.contains('/') && !folder.join(rest).is_dir()
    })
}

#[test]
fn each_edit_is_named_and_is_there() {
    let there = edits();
    let named = named_in("docs/PROMISES.md");
    let mut faults = Vec::new();
    for Named { place, name, .. } in &named {
        if is_edit(name) && !there.contains(name) {
            faults.push(format!("{place}: no edit {name}"));
        }
    }
    for edit in &there {
        if !named.iter().any(|other| other.name == *edit) {
            faults.push(format!("docs/PROMISES.md: {edit} is not named"));
        }
    }
    assert!(faults.is_empty(), "\n{}", faults.join("\n"));
}

/// The sources, each with its path from the top on and its words, among them the parts of the path.
fn sources() -> Vec<(PathBuf, BTreeSet<String>)> {
    let top = pages::top();
    let folders = [
        "crates",
        "include",
        "rust/src",
        "tools",
        "tests/src",
        "tests/tests",
    ];
    let files = folders
        .iter()
        .flat_map(|folder| pages::files_below(&top.join(folder)));
    files
        .map(|path| {
            let below = path.strip_prefix(&top).expect("below the top");
            let text = fs::read_to_string(&path).unwrap_or_default();
            let part = |letter: char| letter.is_alphanumeric() || "-_·'".contains(letter);
            let mut words: BTreeSet<String> = text
                .split(|letter| !part(letter))
                .map(str::to_string)
                .collect();
            let names = below.with_extension("");
            words.extend(names.iter().map(|name| name.to_string_lossy().to_string()));
            (below.to_path_buf(), words)
        })
        .collect()
}

/// Whether a file may be named so: by its path or the end of it, with its ending or without.
fn is_named(path: &Path, name: &str) -> bool {
    path.ends_with(name) || path.with_extension("").ends_with(name)
}

#[test]
fn each_name_is_there() {
    let sources = sources();
    let edits = edits();
    let top = pages::top();
    let mut faults = Vec::new();
    for page in ["docs/PROMISES.md", "docs/DECISIONS.md"] {
        for Named { place, name, file } in named_in(page) {
            let plain = |letter: char| letter.is_alphanumeric() || "-_·/:.".contains(letter);
            let whole = name.starts_with(char::is_alphabetic) && !name.contains("...");
            if !whole || !name.chars().all(plain) {
                continue;
            }
            // A folder, a file or an edit; else words of one source, or of a named one.
            let path = edits.contains(&name)
                || top.join(&name).exists()
                || top.join("crates").join(&name).exists()
                || top.join(format!("{name}.zones")).exists()
                || sources.iter().any(|(path, _)| is_named(path, &name));
            let owner = file.filter(|file| sources.iter().any(|(path, _)| is_named(path, file)));
            let has = |part: &str| {
                sources.iter().any(|(path, words)| {
                    words.contains(part) && owner.as_ref().is_none_or(|file| is_named(path, file))
                })
            };
            if !path && !name.split("::").all(has) {
                let of = owner.map_or(String::new(), |file| format!(" of {file}"));
                faults.push(format!("{place}: {name}{of}"));
            }
        }
    }
    assert!(faults.is_empty(), "\n{}", faults.join("\n"));
}
