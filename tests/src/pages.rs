//! The comments of the sources and the pages as passages: texts whose lines are joined.

use std::fs;
use std::path::{Path, PathBuf};

/// A comment, a paragraph of a page, or a cell of a table.
pub struct Passage {
    pub file: String,
    pub text: Vec<char>,
    /// What it stands in: of a cell of a table its row, else the passage itself.
    pub around: String,
    /// The line of each character.
    lines: Vec<usize>,
}

impl Passage {
    /// Lines with their numbers, joined with a space.
    fn joined(file: &str, parts: &[(usize, String)]) -> Passage {
        let mut passage = Passage {
            file: file.to_string(),
            text: Vec::new(),
            around: String::new(),
            lines: Vec::new(),
        };
        for (line, part) in parts {
            for letter in part.trim().chars().chain([' ']) {
                passage.text.push(letter);
                passage.around.push(letter);
                passage.lines.push(*line);
            }
        }
        passage
    }

    /// The line on which a character stands.
    pub fn line(&self, index: usize) -> usize {
        self.lines[index]
    }
}

/// The top of the repository.
pub fn top() -> PathBuf {
    let tests = Path::new(env!("CARGO_MANIFEST_DIR"));
    tests.parent().expect("a folder around").to_path_buf()
}

/// A file of samples/.
pub fn sample(file: &str) -> PathBuf {
    top().join("samples").join(file)
}

/// Every file below a folder, in the order of the names, but for what rt makes of a crate, in a folder `out`.
pub fn files_below(folder: &Path) -> Vec<PathBuf> {
    let entries = fs::read_dir(folder).expect("a folder");
    let mut paths: Vec<PathBuf> = entries.flatten().map(|entry| entry.path()).collect();
    paths.retain(|path| !path.ends_with("out"));
    paths.sort();
    let below = |path: PathBuf| {
        if path.is_dir() {
            files_below(&path)
        } else {
            vec![path]
        }
    };
    paths.into_iter().flat_map(below).collect()
}

/// The passages of a source, of the header or of a page.
pub fn passages(path: &Path) -> Vec<Passage> {
    let text = fs::read_to_string(path).expect("a file of text");
    let file = path.strip_prefix(top()).unwrap_or(path).display();
    let file = file.to_string();
    match path.extension().and_then(|ending| ending.to_str()) {
        Some("antt") => blocks(&file, &theory_comments(&text)),
        Some("rt" | "h") => blocks(&file, &code_comments(&text)),
        Some("md") => paragraphs(&file, &text),
        _ => Vec::new(),
    }
}

/// A line of a comment: its number, its words, and whether code stands before it.
type Comment = (usize, String, bool);

/// Comments that begin with two hyphens.
fn theory_comments(text: &str) -> Vec<Comment> {
    let mut comments = Vec::new();
    for (index, line) in text.lines().enumerate() {
        let starts = |(at, _): &(usize, &str)| line[..*at].chars().all(char::is_whitespace);
        let behind_code = |(at, _): &(usize, &str)| line[..*at].ends_with(char::is_whitespace);
        let mut places = line.match_indices("--");
        if let Some((at, _)) = places.find(|place| starts(place) || behind_code(place)) {
            let words = line[at..].trim_start_matches('-').to_string();
            comments.push((index + 1, words, !line[..at].trim().is_empty()));
        }
    }
    comments
}

/// Comments of code, after `//` or between `/*` and `*/`.
fn code_comments(text: &str) -> Vec<Comment> {
    let mut comments = Vec::new();
    let mut inside = false;
    for (index, line) in text.lines().enumerate() {
        let code = !inside && !line.trim_start().starts_with('/');
        let letters: Vec<char> = line.chars().collect();
        let mut words = String::new();
        let mut at = 0;
        while at < letters.len() {
            match (inside, &letters[at..]) {
                (true, ['*', '/', ..]) => (inside, at) = (false, at + 2),
                (true, rest) => {
                    words.push(rest[0]);
                    at += 1;
                }
                (false, ['/', '*', ..]) => (inside, at) = (true, at + 2),
                (false, ['/', '/', rest @ ..]) => {
                    words.extend(rest);
                    at = letters.len();
                }
                (false, rest) => at += literal(rest),
            }
        }
        let words = words.trim_start_matches(['/', '!', '*', ' ']).to_string();
        if !words.is_empty() {
            comments.push((index + 1, words, code));
        }
    }
    comments
}

/// How many characters the string or the letter between quotes has that begins here; else 1.
fn literal(rest: &[char]) -> usize {
    let until = |mark: char| {
        let mut at = 1;
        while at < rest.len() && rest[at] != mark {
            at += if rest[at] == '\\' { 2 } else { 1 };
        }
        at + 1
    };
    match rest {
        ['"', ..] => until('"'),
        ['\'', '\\', ..] | ['\'', _, '\'', ..] => until('\''),
        _ => 1,
    }
}

/// Comments on lines that follow one another are one passage, but for a comment behind code.
fn blocks(file: &str, comments: &[Comment]) -> Vec<Passage> {
    let mut found = Vec::new();
    let mut block: Vec<(usize, String)> = Vec::new();
    for (line, words, behind_code) in comments {
        let follows = block.last().is_some_and(|(last, _)| last + 1 == *line);
        if *behind_code || !follows {
            found.push(Passage::joined(file, &block));
            block.clear();
        }
        block.push((*line, words.clone()));
        if *behind_code {
            found.push(Passage::joined(file, &block));
            block.clear();
        }
    }
    found.push(Passage::joined(file, &block));
    found
}

/// The paragraphs, the points of lists and the cells of tables of a page. What is set as a program,
/// between lines of three backticks or four spaces to the right, is left out.
fn paragraphs(file: &str, text: &str) -> Vec<Passage> {
    let mut found = Vec::new();
    let mut paragraph: Vec<(usize, String)> = Vec::new();
    let mut program = false;
    for (index, line) in text.lines().enumerate() {
        let fence = line.starts_with("```");
        let row = line.starts_with('|');
        let shifted = line.starts_with("    ");
        program = program != fence;
        if program || fence || row || shifted || line.is_empty() || line.starts_with(['#', '-']) {
            found.push(Passage::joined(file, &paragraph));
            paragraph.clear();
        }
        if row && !program {
            for cell in cells(line) {
                let mut passage = Passage::joined(file, &[(index + 1, cell)]);
                passage.around = line.to_string();
                found.push(passage);
            }
        } else if !(program || fence || shifted) {
            paragraph.push((index + 1, line.to_string()));
        }
    }
    found.push(Passage::joined(file, &paragraph));
    found
}

/// The cells of a table's row. A bar that is no border has a backslash before it.
pub fn cells(row: &str) -> Vec<String> {
    let inner = row.trim().trim_matches('|').replace("\\|", "\0");
    inner
        .split('|')
        .map(|cell| cell.replace('\0', "|"))
        .collect()
}
