//! Which definitions of `specs/` a statement reaches: those that it names, those that they name, and so on.

use std::collections::{BTreeMap, BTreeSet, HashMap};
use std::fs;
use std::path::{Path, PathBuf};

/// The statements of demand 3: of the tables that are opened, of a file, and of the answers to its readings.
pub const STATEMENTS: [(&str, &str, &str); 3] = [
    ("demand", "Demand", "Demand3"),
    ("demand", "Files", "FileDemand3"),
    ("demand", "Files", "FromFile"),
];

/// A definition by its crate, its file in specs/ and its name.
type Name = (String, String, String);

/// What a file of specs/ or of src/ brings in from files of specs/, under the names that it uses.
#[derive(Default)]
struct Scope {
    names: HashMap<String, Name>,
    files: HashMap<String, (String, String)>,
}

struct File {
    lines: usize,
    scope: Scope,
    /// Each definition with the text that it stands in, in their order.
    definitions: Vec<(String, String)>,
    /// Constructors, and whose they are.
    parts: HashMap<String, String>,
}

/// A file of specs/ that is reached: its path below crates/ without its ending, its lines, and the definitions that are.
pub struct Reached {
    pub path: String,
    pub lines: usize,
    pub names: Vec<String>,
}

/// What the contracts of the exported calls and these definitions reach, in reading order: the layers of crates.txt, lowest first, and
/// the files of each as its Lib.antt lists them.
pub fn reached(top: &Path, roots: &[(&str, &str, &str)]) -> Vec<Reached> {
    let crates = layers(&fs::read_to_string(top.join("crates.txt")).expect("crates.txt"));
    let mut files = BTreeMap::new();
    let mut order = Vec::new();
    for name in &crates {
        let specs = top.join("crates").join(name).join("specs");
        let Ok(root) = fs::read_to_string(specs.join("Lib.antt")) else {
            continue;
        };
        for module in root.lines().filter_map(|l| l.strip_prefix("pub mod ")) {
            let text = fs::read_to_string(specs.join(format!("{module}.antt"))).expect(module);
            files.insert((name.clone(), module.to_string()), parsed(&text));
            order.push((name.clone(), module.to_string()));
        }
    }
    let mut todo: Vec<Name> = roots
        .iter()
        .map(|&(c, m, n)| (c.into(), m.into(), n.into()))
        .collect();
    for source in sources(&top.join("crates/zones/src")) {
        let text = fs::read_to_string(&source).expect("a source of zones");
        let scope = scope_of(&text);
        // a clause goes on to the line that ends with its bracket
        let mut inside = false;
        for line in text.lines().map(str::trim) {
            inside = inside || line.starts_with("ensures");
            if inside {
                todo.extend(words(line).filter_map(|w| scope.find(w)));
                inside = !line.ends_with('}');
            }
        }
    }
    let mut seen: BTreeSet<Name> = BTreeSet::new();
    while let Some(name) = todo.pop() {
        let Some(file) = files.get(&(name.0.clone(), name.1.clone())) else {
            continue;
        };
        let whole = file.parts.get(&name.2).unwrap_or(&name.2).clone();
        let Some((_, text)) = file.definitions.iter().find(|d| d.0 == whole) else {
            continue;
        };
        if !seen.insert((name.0.clone(), name.1.clone(), whole)) {
            continue;
        }
        for word in words(text) {
            if file.parts.contains_key(word) || file.definitions.iter().any(|d| d.0 == word) {
                todo.push((name.0.clone(), name.1.clone(), word.into()));
            } else if let Some(other) = file.scope.find(word) {
                todo.push(other);
            }
        }
    }
    let told = |(name, module): (String, String)| {
        let file = &files[&(name.clone(), module.clone())];
        let is_seen =
            |d: &&(String, String)| seen.contains(&(name.clone(), module.clone(), d.0.clone()));
        let names: Vec<String> = file
            .definitions
            .iter()
            .filter(is_seen)
            .map(|d| d.0.clone())
            .collect();
        let path = format!("{name}/specs/{module}");
        (!names.is_empty()).then_some(Reached {
            path,
            lines: file.lines,
            names,
        })
    };
    order.into_iter().filter_map(told).collect()
}

/// The page of promises with this reading list: its table, and how many files and lines it has.
pub fn page(promises: &str, reached: &[Reached]) -> String {
    let files = reached.len();
    let lines: usize = reached.iter().map(|r| r.lines).sum();
    let mut rest = promises.split('\n').peekable();
    let mut page = Vec::new();
    while let Some(line) = rest.next() {
        match line.split_once("; ") {
            Some((before, sum)) if sum.contains(" files, ") && sum.contains(" lines, ") => {
                let behind = sum.split_once(" lines, ").expect("a sum of lines").1;
                page.push(format!("{before}; {files} files, {lines} lines, {behind}"));
            }
            _ => page.push(line.to_string()),
        }
        if line == HEAD {
            page.extend(rest.next().map(String::from));
            while rest.peek().is_some_and(|row| row.starts_with('|')) {
                rest.next();
            }
            page.extend(reached.iter().map(row));
        }
    }
    page.join("\n")
}

/// The first line of the table.
const HEAD: &str = "| file | lines | definitions reached |";

fn row(file: &Reached) -> String {
    let names: Vec<String> = file.names.iter().map(|n| format!("`{n}`")).collect();
    format!(
        "| `{}` | {} | {} |",
        file.path,
        file.lines,
        names.join(", ")
    )
}

/// The crates, each after those that it depends on, else in the order of the file.
fn layers(text: &str) -> Vec<String> {
    let mut left: Vec<(String, Vec<String>)> = Vec::new();
    for line in text.lines().filter(|l| !l.starts_with('#')) {
        if let Some((name, deps)) = line.split_once(':') {
            left.push((
                name.split(' ').next().unwrap_or(name).into(),
                deps.split_whitespace().map(String::from).collect(),
            ));
        }
    }
    let mut done: Vec<String> = Vec::new();
    while !left.is_empty() {
        let open: BTreeSet<String> = left.iter().map(|c| c.0.clone()).collect();
        let next = left
            .iter()
            .position(|c| c.1.iter().all(|d| !open.contains(d)));
        done.push(
            left.remove(next.expect("crates that depend on each other"))
                .0,
        );
    }
    done
}

fn sources(folder: &Path) -> Vec<PathBuf> {
    let entries = fs::read_dir(folder).expect("the sources of zones");
    let mut all: Vec<PathBuf> = entries.map(|e| e.expect("an entry").path()).collect();
    all.sort();
    all
}

/// Names and `File.name`s of a text; `.field` is none.
fn words(text: &str) -> impl Iterator<Item = &str> {
    text.split(|c: char| c.is_whitespace() || "(){};,λ".contains(c))
        .filter(|w| !w.starts_with('.'))
        .map(|w| w.trim_end_matches('.'))
        .filter(|w| !w.is_empty())
}

impl Scope {
    fn find(&self, word: &str) -> Option<Name> {
        if let Some((file, name)) = word.split_once('.') {
            let (c, m) = self.files.get(file)?;
            return Some((c.clone(), m.clone(), name.into()));
        }
        self.names.get(word).cloned()
    }
}

/// `use Rattle.CRATE.specs.FILE.{..}` and `use Rattle.CRATE.specs.FILE as NAME`.
fn scope_of(text: &str) -> Scope {
    let mut scope = Scope::default();
    for line in text.lines() {
        let line = line
            .strip_prefix("ghost ")
            .unwrap_or(line)
            .trim_end_matches(';');
        let Some(path) = line.strip_prefix("use Rattle.") else {
            continue;
        };
        let Some((owner, rest)) = path.split_once(".specs.") else {
            continue;
        };
        let owner = owner.to_string();
        if let Some((file, names)) = rest.split_once(".{") {
            for name in names.trim_end_matches('}').split(',').map(str::trim) {
                scope
                    .names
                    .insert(name.into(), (owner.clone(), file.into(), name.into()));
            }
        } else if let Some((file, name)) = rest.split_once(" as ") {
            scope.files.insert(name.trim().into(), (owner, file.into()));
        }
    }
    scope
}

/// The name that a line defines, if it begins a definition: `abbrev pub f : ..`, `pub record R (..) : ..`, `pub f : ..`.
fn begins(line: &str) -> Option<&str> {
    let mut rest = line.trim_start();
    let mut keyword = false;
    while let Some((word, more)) = rest.split_once(' ') {
        match word {
            "abbrev" | "unfoldable" | "pub" | "record" | "data" => {
                keyword = keyword || word != "pub";
                rest = more;
            }
            _ => break,
        }
    }
    let name = rest.split_whitespace().next()?;
    keyword.then_some(name)
}

fn parsed(text: &str) -> File {
    let mut file = File {
        lines: text.lines().count(),
        scope: scope_of(text),
        definitions: Vec::new(),
        parts: HashMap::new(),
    };
    // the heads of the modules around a line, which are a part of every definition in them
    let mut around: Vec<(usize, String)> = Vec::new();
    let mut depth = 0;
    let mut is_data = false;
    for line in text.lines() {
        let code = line.trim_start();
        if code.is_empty() || code.starts_with("--") || code.starts_with("use ") {
            continue;
        }
        let indent = line.len() - code.len();
        around.retain(|m| m.0 < indent);
        if code.starts_with("module ") {
            around.push((indent, code.into()));
        } else if let Some(name) = begins(line) {
            let heads: Vec<&str> = around.iter().map(|m| m.1.as_str()).collect();
            file.definitions
                .push((name.into(), format!("{} {code}\n", heads.join(" "))));
            depth = indent;
            is_data = code.contains("data ");
        } else if let Some(last) = file.definitions.last_mut() {
            last.1.push_str(code);
            last.1.push('\n');
            if is_data && indent > depth {
                if let Some((names, _)) = code.split_once(" : ") {
                    for part in names.split_whitespace().filter(|p| *p != "pub") {
                        file.parts.insert(part.into(), last.0.clone());
                    }
                }
            }
        }
    }
    file
}
