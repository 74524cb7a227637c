//! Quotations, and the documents that they are compared with.
//!
//! A quotation stands between straight double marks. A mark opens where a space, a bracket or an
//! opening mark stands before it, or nothing does; any other mark closes the last that is open, and
//! marks inside a quotation are the document's own. `...` stands for words that are left out: the
//! pieces around it stand in this order in one paragraph, or one cell of a table, of one document.
//! Marks, asterisks and backticks are left out on both sides, and white space is one space.
//!
//! Document 01 may be quoted anywhere. Another document, or a demand of the customer, is named
//! beside the quotation, outside its marks: document 000, demand 3. What follows the words
//! document 01 and a comma is the title of one of its sections.

use std::fs;
use std::ops::Range;
use std::path::Path;

use crate::pages::{self, Passage};

/// The document that is quoted where none is named.
const UNNAMED: &str = "document 01";

/// A document or a demand, by the name that a quotation of it stands beside.
pub struct Document {
    name: String,
    paragraphs: Vec<String>,
    headings: Vec<String>,
}

impl Document {
    fn new(name: String, text: &str) -> Document {
        let mut document = Document {
            name,
            paragraphs: Vec::new(),
            headings: Vec::new(),
        };
        let mut paragraph = String::new();
        for line in text.lines().chain([""]) {
            let line = line.trim();
            let row = line.starts_with('|');
            let heading = line.starts_with('#');
            if line.is_empty() || row || heading {
                document.paragraphs.push(normal(&paragraph));
                paragraph.clear();
            }
            if row {
                let cells = pages::cells(line);
                document
                    .paragraphs
                    .extend(cells.iter().map(|cell| normal(cell)));
            } else if heading {
                let title = normal(line.trim_start_matches('#'));
                document.headings.push(title.clone());
                document.paragraphs.push(title);
            } else {
                paragraph.push_str(line.strip_prefix("- ").unwrap_or(line));
                paragraph.push(' ');
            }
        }
        document
    }

    /// Whether the pieces stand in one paragraph, in this order.
    fn has(&self, pieces: &[String]) -> bool {
        let here = |paragraph: &String| span(paragraph, pieces).is_some();
        self.paragraphs.iter().any(here)
    }

    /// The longest run of the words that stands in the document: its length, and the text there.
    fn nearest(&self, words: &[&str]) -> (usize, String) {
        let mut length = 0;
        let mut text = String::new();
        for from in 0..words.len() {
            for until in from + length + 1..=words.len() {
                let run = words[from..until].join(" ");
                let here = |paragraph: &String| {
                    find(paragraph, &run, 0).map(|at| paragraph[at..].to_string())
                };
                match self.paragraphs.iter().find_map(here) {
                    Some(rest) => (length, text) = (until - from, rest),
                    None => break,
                }
            }
        }
        let shown: Vec<&str> = text.split(' ').take(length + 6).collect();
        (length, format!("{} has: {}", self.name, shown.join(" ")))
    }
}

/// The documents of a folder, each with the number that its file's name begins with, and the
/// numbered demands.
pub fn documents(folder: &Path, demands: &str) -> Vec<Document> {
    let mut found = Vec::new();
    for path in pages::files_below(folder) {
        let file = path.file_name().expect("a name").to_string_lossy();
        let number: String = file.chars().take_while(char::is_ascii_digit).collect();
        let text = fs::read_to_string(&path).expect("a document of text");
        found.push(Document::new(format!("document {number}"), &text));
    }
    for demand in demands.split("\n\n") {
        let (number, text) = demand.trim().split_once(". ").expect("a numbered demand");
        found.push(Document::new(format!("demand {number}"), text));
    }
    found
}

/// A text with no marks, asterisks, backticks and signs of formulas, whose white space is one space,
/// and none before a comma or a full stop.
fn normal(text: &str) -> String {
    let plain = text.replace(['"', '*', '`', '$'], "");
    let spaced = plain.split_whitespace().collect::<Vec<_>>().join(" ");
    spaced.replace(" ,", ",").replace(" .", ".")
}

/// Where the piece stands in the text, from a place on, as whole words and numbers.
fn find(text: &str, piece: &str, from: usize) -> Option<usize> {
    let part_of_a_word = |letter: Option<char>| letter.is_some_and(char::is_alphanumeric);
    let begins = part_of_a_word(piece.chars().next());
    let ends = part_of_a_word(piece.chars().next_back());
    let mut places = text[from..].match_indices(piece).map(|(at, _)| from + at);
    places.find(|at| {
        let before = text[..*at].chars().next_back();
        let behind = text[at + piece.len()..].chars().next();
        !(begins && part_of_a_word(before) || ends && part_of_a_word(behind))
    })
}

/// From where to where the pieces stand in the text, in this order.
fn span(text: &str, pieces: &[String]) -> Option<Range<usize>> {
    let mut begin = text.len();
    let mut end = 0;
    for piece in pieces {
        let at = find(text, piece, end)?;
        begin = begin.min(at);
        end = at + piece.len();
    }
    Some(begin..end)
}

/// What stands between two marks, the line it begins on, and what stands before it, from the
/// quotation before on.
struct Quotation {
    line: usize,
    words: String,
    before: String,
}

/// What stands around the words that are left out.
fn pieces(words: &str) -> Vec<String> {
    let parts = words.split("...").map(normal);
    parts.filter(|piece| !piece.is_empty()).collect()
}

/// The quotations of a passage, or the line of a mark that has no partner. Marks in a program's
/// text, between backticks, are passed over.
fn quotations(passage: &Passage) -> Result<Vec<Quotation>, usize> {
    let text = &passage.text;
    let mut found = Vec::new();
    let mut open = Vec::new();
    let mut begin = 0;
    let mut at = 0;
    while at < text.len() {
        let program = open.is_empty() && text[at] == '`';
        let end = text[at + 1..].iter().position(|letter| *letter == '`');
        if let (true, Some(end)) = (program, end) {
            at += end + 1;
        } else if text[at] == '"' {
            let before = if at == 0 { ' ' } else { text[at - 1] };
            let opens = [' ', '(', '['].contains(&before) || open.last() == Some(&(at - 1));
            if opens {
                open.push(at);
            } else {
                let first = open.pop().ok_or(passage.line(at))?;
                if open.is_empty() {
                    found.push(Quotation {
                        line: passage.line(first),
                        words: text[first + 1..at].iter().collect(),
                        before: text[begin..first].iter().collect(),
                    });
                    begin = at + 1;
                }
            }
        }
        at += 1;
    }
    match open.first() {
        Some(first) => Err(passage.line(*first)),
        None => Ok(found),
    }
}

/// How many quotations a passage has, and what is wrong with them.
pub fn compared(passage: &Passage, documents: &[Document]) -> (usize, Vec<String>) {
    let found = match quotations(passage) {
        Ok(found) => found,
        Err(line) => return (0, vec![format!("{}:{line}: an open mark", passage.file)]),
    };
    // What is named inside marks is not named beside them.
    let outside: String = passage.around.split('"').step_by(2).collect();
    let beside: Vec<&Document> = documents
        .iter()
        .filter(|document| {
            document.name == UNNAMED || find(&outside.to_lowercase(), &document.name, 0).is_some()
        })
        .collect();
    let mut faults = Vec::new();
    let mut title = false;
    for Quotation {
        line,
        words,
        before,
    } in &found
    {
        let place = format!("{}:{line}", passage.file);
        let another = title && [", ", " and "].contains(&before.as_str());
        title = another || before.to_lowercase().ends_with("document 01, ");
        if title {
            let is = |document: &&Document| document.headings.contains(&normal(words));
            if !beside.iter().any(is) {
                faults.push(format!("{place}: no section \"{words}\""));
            }
            continue;
        }
        let pieces = pieces(words);
        if beside.iter().any(|document| document.has(&pieces)) {
            continue;
        }
        let nearest = beside
            .iter()
            .map(|document| {
                let lacks = |piece: &&String| !document.has(&[piece.to_string()]);
                let piece = pieces.iter().find(lacks).unwrap_or(&pieces[0]);
                document.nearest(&piece.split(' ').collect::<Vec<_>>())
            })
            .max_by_key(|(length, _)| *length);
        let (_, text) = nearest.unwrap_or_default();
        faults.push(format!("{place}: \"{words}\"\n    {text}"));
    }
    (found.len(), faults)
}

/// The sentences of which the passages quote less than a half, of the paragraphs of a document that
/// begin so. Titles, single words and numbers of tables, and lines that are printed are no sentences.
pub fn unquoted(
    passages: &[Passage],
    documents: &[Document],
    name: &str,
    begins: &str,
) -> Vec<String> {
    let found = passages
        .iter()
        .flat_map(|passage| quotations(passage).unwrap_or_default());
    let quoted: Vec<Vec<String>> = found.map(|quotation| pieces(&quotation.words)).collect();
    let mut left = Vec::new();
    let mut count = 0;
    let named = documents.iter().filter(|document| document.name == name);
    for document in named {
        let here = document.paragraphs.iter();
        for paragraph in here.filter(|paragraph| paragraph.starts_with(begins)) {
            count += 1;
            let spans: Vec<Range<usize>> = quoted
                .iter()
                .filter_map(|pieces| span(paragraph, pieces))
                .collect();
            let mut begin = 0;
            for sentence in paragraph.split_inclusive(". ") {
                let end = begin + sentence.len();
                let inside = |at: &usize| spans.iter().any(|span| span.contains(at));
                let quoted = (begin..end).filter(inside).count();
                begin = end;
                let words = sentence
                    .split(' ')
                    .filter(|word| word.contains(char::is_alphabetic));
                let says = words.count() > 1 && !document.headings.contains(paragraph);
                if says && 2 * quoted < sentence.len() {
                    left.push(sentence.trim().to_string());
                }
            }
        }
    }
    assert!(
        count > 0,
        "{name} has no paragraph that begins with {begins:?}"
    );
    left
}
