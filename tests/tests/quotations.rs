//! Every quotation in the comments of the sources, in the header and in the pages has the words of
//! the document that it quotes, and the pages quote every sentence of document 01 and of the
//! requests of document 02 that are met.

use std::env;
use std::path::{Path, PathBuf};

use zones_tests::pages;
use zones_tests::quotations::{self, Document};

/// The documents, from ZONES_DOCUMENTS or from the folder `shared` beside the repository, if they
/// are there, and the customer's demands.
fn documents() -> Option<Vec<Document>> {
    let chosen = env::var_os("ZONES_DOCUMENTS").unwrap_or("../shared/documents".into());
    let folder = pages::top().join(chosen);
    if !folder.is_dir() {
        println!("no documents at {}: nothing compared", folder.display());
        return None;
    }
    let demands = include_str!("../data/demands.txt");
    Some(quotations::documents(&folder, demands))
}

/// Whether a file of a crate holds definitions, code or proofs.
fn is_source(path: &Path) -> bool {
    path.iter()
        .any(|name| ["specs", "src", "proofs"].iter().any(|part| name == *part))
}

#[test]
fn each_has_the_words_of_its_document() {
    let Some(documents) = documents() else { return };
    let top = pages::top();
    let mut files: Vec<PathBuf> = vec![top.join("README.md"), top.join("include/zones.h")];
    let in_docs = pages::files_below(&top.join("docs"));
    let is_picture = |path: &PathBuf| path.extension().is_some_and(|ending| ending == "png");
    files.extend(in_docs.into_iter().filter(|path| !is_picture(path)));
    let sources = pages::files_below(&top.join("crates"));
    files.extend(sources.into_iter().filter(|path| is_source(path)));

    let mut count = 0;
    let mut faults = Vec::new();
    for passage in files.iter().flat_map(|file| pages::passages(file)) {
        let (here, wrong) = quotations::compared(&passage, &documents);
        count += here;
        faults.extend(wrong);
    }
    println!("{count} quotations, {} wrong", faults.len());
    assert!(count > 0, "no quotation was found");
    assert!(faults.is_empty(), "\n{}", faults.join("\n"));
}

/// The requests of document 02 that are met.
const MET: [&str; 5] = ["Item 1. ", "Item 2. ", "Item 3. ", "Item 4. ", "Item 5. "];

/// The sentences of a document's paragraphs that begin so, which the pages do not quote.
fn unquoted(name: &str, begins: &str) -> Vec<String> {
    let Some(documents) = documents() else {
        return Vec::new();
    };
    let docs = pages::top().join("docs");
    let mut passages = pages::passages(&docs.join("PROMISES.md"));
    passages.extend(pages::passages(&docs.join("DECISIONS.md")));
    quotations::unquoted(&passages, &documents, name, begins)
}

#[test]
fn each_sentence_of_document_01_is_quoted() {
    let left = unquoted("document 01", "");
    assert!(left.is_empty(), "not quoted:\n{}", left.join("\n"));
}

#[test]
fn each_sentence_of_the_requests_that_are_met_is_quoted() {
    for item in MET {
        let left = unquoted("document 02", item);
        assert!(left.is_empty(), "{item}not quoted:\n{}", left.join("\n"));
    }
}
