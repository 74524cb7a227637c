//! The page of web/: one file with all in it, and, in headless Chromium where that is installed, what it
//! says of clicks, lines and files, against the second implementation.

use std::env;
use std::fs;
use std::io::Write;
use std::path::{Path, PathBuf};
use std::process::{Command, Stdio};

use zones::{ADVISED_DEPTH, ADVISED_THRESHOLD};
use zones_tests::meaning::{Drawing, Scene};
use zones_tests::pages::{sample, top};
use zones_tests::samples::{self, Tables};
use zones_tests::tree::{self, TreeTables, MOST_CELLS, MOST_ENTRIES};
use zones_tools::words;

fn module() -> PathBuf {
    top().join("target/port/wasm32/zones.wasm")
}

/// The page, made by tools/page; None where there is no module yet.
fn page(name: &str) -> Option<PathBuf> {
    if !module().exists() {
        eprintln!("skipped: there is no WebAssembly module; run tools/port wasm32 first");
        return None;
    }
    let page = Path::new(env!("CARGO_TARGET_TMPDIR")).join(name);
    let mut command = Command::new(top().join("tools/page"));
    let made = command.arg(&page).env("ZONES_WASM", module()).output();
    let made = made.expect("tools/page runs");
    assert!(made.status.success(), "{made:?}");
    Some(page)
}

fn base64(bytes: &[u8]) -> String {
    const LETTERS: &[u8; 64] = b"ABCDEFGHIJKLMNOPQRSTUVWXYZabcdefghijklmnopqrstuvwxyz0123456789+/";
    let mut text = String::new();
    for three in bytes.chunks(3) {
        let byte = |i: usize| u32::from(three.get(i).copied().unwrap_or(0));
        let all = byte(0) << 16 | byte(1) << 8 | byte(2);
        for i in 0..4 {
            let letter = LETTERS[(all >> (18 - 6 * i) & 63) as usize];
            text.push(if i <= three.len() {
                letter as char
            } else {
                '='
            });
        }
    }
    text
}

#[test]
fn the_page_is_one_file() {
    let Some(page) = page("one_file.html") else {
        return;
    };
    let text = fs::read_to_string(page).expect("the page");
    for other in ["http://", "https://", "src=", "url(", "@import", "<!-- "] {
        assert!(!text.contains(other), "{other}");
    }
    assert!(text.contains(&base64(&fs::read(module()).expect("the module"))));
    let mut samples = 0;
    for file in fs::read_dir(top().join("samples")).expect("the samples") {
        let path = file.expect("a sample").path();
        if path.extension().is_some_and(|kind| kind == "zones") {
            assert!(text.contains(&base64(&fs::read(&path).expect("a sample"))));
            samples += 1;
        }
    }
    assert!(samples >= 5);
}

/// The letters of a text without what C puts between the parts of a string.
fn bare(text: &str) -> String {
    let left_out = |letter: char| letter.is_whitespace() || letter == '"';
    text.chars().filter(|letter| !left_out(*letter)).collect()
}

#[test]
fn refusals_have_the_texts_of_the_header() {
    let read = |name: &str| fs::read_to_string(top().join(name)).expect("a file");
    let (header, script) = (bare(&read("include/zones.h")), read("web/zones.js"));
    let (_, list) = script.split_once("const REFUSALS = [").expect("the list");
    let (list, _) = list.split_once("];").expect("its end");
    let texts: Vec<&str> = list
        .lines()
        .map(str::trim)
        .filter(|l| l.len() > 3)
        .collect();
    assert_eq!(texts.len(), 13);
    for text in texts {
        let text = bare(text.trim_end_matches(','));
        assert!(header.contains(&text), "{text}");
    }
}

#[test]
fn numbers_are_those_of_the_header() {
    let script = fs::read_to_string(top().join("web/zones.js")).expect("the script");
    for (name, number) in [
        ("    fileBytes: ", zones::FILE_BYTES),
        ("    plan: ", zones::PLAN_LENGTH),
        ("    areas: ", zones::AREAS_LENGTH),
        ("    corners: ", zones::CORNERS_LENGTH),
        ("    cells: ", zones::CELLS_LENGTH),
        ("    entries: ", zones::ENTRIES_LENGTH),
        ("    pixels: ", zones::PIXELS as usize),
        ("const AREA_WORDS = ", zones::AREA_WORDS),
        ("const CELL_WORDS = ", zones::CELL_WORDS),
        ("const POSITION_WORDS = ", zones::POSITION_WORDS),
        ("const LEAF_WORDS = ", zones::LEAF_WORDS),
    ] {
        let mut said = script.lines().filter_map(|line| line.strip_prefix(name));
        let said = said.next().map(|rest| rest.trim_end_matches([',', ';']));
        assert_eq!(said, Some(number.to_string().as_str()), "{name}");
    }
}

/// A browser to drive, from PATH.
fn chromium() -> Option<PathBuf> {
    let path = env::var_os("PATH")?;
    let names = ["chromium", "chromium-browser", "google-chrome"];
    let mut files = env::split_paths(&path).flat_map(|folder| names.map(|name| folder.join(name)));
    files.find(|file| file.is_file())
}

/// The lines that the steps print.
fn driven(page: &Path, browser: &Path, steps: &str) -> Vec<String> {
    let mut node = Command::new("node")
        .arg(top().join("web/drive.mjs"))
        .args([browser, page])
        .stdin(Stdio::piped())
        .stdout(Stdio::piped())
        .spawn()
        .expect("node runs");
    let mut input = node.stdin.take().expect("its input");
    input.write_all(steps.as_bytes()).expect("steps are read");
    drop(input);
    let output = node.wait_with_output().expect("node ends");
    assert!(output.status.success(), "{:?}", output.status);
    let text = String::from_utf8(output.stdout).expect("text");
    text.lines().map(str::to_string).collect()
}

/// The numbers of a text, however grouped.
fn numbers(text: &str) -> Vec<u32> {
    let parts = text.split(|letter: char| !letter.is_ascii_digit());
    parts.filter_map(|part| part.parse().ok()).collect()
}

/// A sample by the second implementation.
struct Sample {
    tables: Tables,
    tree: TreeTables,
}

impl Sample {
    fn new(name: &str) -> Sample {
        let text = fs::read_to_string(sample(&format!("{name}.txt")));
        let records = words::records(&text.expect("the sample")).expect("a drawing");
        let tables = samples::tables(&records);
        let mut tree = TreeTables::new(MOST_CELLS, MOST_ENTRIES);
        let drawing = Drawing::of(&tables);
        tree::open(drawing, &mut tree.lend()).expect("it opens");
        tree::grow(drawing, &mut tree.lend(), ADVISED_THRESHOLD, ADVISED_DEPTH).expect("it grows");
        Sample { tables, tree }
    }

    /// What the page says of a position.
    fn position(&self, x: u32, y: u32) -> String {
        let drawing = Drawing::of(&self.tables);
        let reading = Scene::of(drawing).position(x, y);
        let [red, green, blue] = reading.colour;
        let mut text = format!(
            "At {x}, {y}: material {}, colour {red} {green} {blue} ",
            reading.material
        );
        if reading.shown == 0 {
            text += "No area shows here: white ground.";
        } else {
            text += "Areas that show, front first: area material alpha colour";
        }
        for area in (0..64).filter(|area| reading.shown >> area & 1 == 1) {
            let [_, _, alpha, red, green, blue, material, _] =
                self.tables.areas.as_chunks().0[area];
            text += &format!(" {area} {material} {alpha} {red} {green} {blue}");
        }
        let leaf = tree::find_leaf(drawing, self.tree.view(), x, y).expect("a leaf");
        let (square, entries, lines) = (leaf.square, leaf.entries(), leaf.lines());
        let reach = match leaf.uniform() {
            true => "Each position of it shows the same.",
            false => "Its stream has a line, a curve or a shortcut.",
        };
        format!(
            "{text} The leaf around it, cell {}: side {} at {}, {}; depth {}, entries {entries}, lines {lines}. {reach}",
            leaf.cell, square.side, square.x, square.y, leaf.steps
        )
    }

    /// What the page says of a line: a position for each unit of the longer way.
    fn log(&self, from: (u32, u32), to: (u32, u32)) -> String {
        let steps = from.0.abs_diff(to.0).max(from.1.abs_diff(to.1));
        let at = |from: u32, to: u32, i: u32| {
            let way = f64::from(to) - f64::from(from);
            (f64::from(from) + way * (f64::from(i) / f64::from(steps))).round() as u32
        };
        let px: Vec<u32> = (0..=steps).map(|i| at(from.0, to.0, i)).collect();
        let py: Vec<u32> = (0..=steps).map(|i| at(from.1, to.1, i)).collect();
        let scene = Scene::of(Drawing::of(&self.tables));
        let mut text = String::from("index position material");
        for index in scene.zone_log(&px, &py) {
            let (x, y) = (px[index as usize], py[index as usize]);
            let material = scene.position(x, y).material;
            text += &format!(" {index} {x}, {y} {material}");
        }
        text
    }
}

#[test]
fn answers_in_a_browser() {
    let Some(page) = page("browser.html") else {
        return;
    };
    let Some(browser) = chromium() else {
        eprintln!("skipped: there is no chromium on the PATH (Debian: apt-get install chromium)");
        return;
    };
    let refused = sample("refused.zones");
    let steps = format!(
        "size 1280 900\nopen #click=40000,30000\ntext position\ntext state\n\
         click 300 300\ntext position\nwheel 300 300 -900\nwheel 300 300 -900\nwheel 300 300 -900\nwheel 300 300 -900\ntext state\ncolour 20 30\ncolour 600 50\ncolour 300 500\nclick 410 222\ntext position\n\
         drag 200 200 400 260 shift\nkey +\nkey ArrowLeft\nclick 333 111\ntext position\n\
         press whole\ndrag 150 150 600 500\ntext log\n\
         set at x 65535\nset at y 0\nsubmit at\ntext position\n\
         set line x0 60000\nset line y0 1234\nset line x1 100\nset line y1 44000\nsubmit line\ntext log\n\
         open #sample=berms&click=21000,30500&line=5000,5000,60000,60000\ntext position\ntext log\ntext grown\n\
         file {}\ntext refused\nsize 375 812 phone\nopen #sample=pit\npinch 170 170 60 240\ntap 200 150\ntext position\n",
        refused.display()
    );
    let said = driven(&page, &browser, &steps);
    let mut lines = said.iter().map(String::as_str);
    let mut next = || lines.next().expect("a line for each text");
    let pit = Sample::new("pit");
    let berms = Sample::new("berms");
    let at_clicks = |text: &str| {
        let [x, y, ..] = numbers(text)[..] else {
            panic!("a position: {text}");
        };
        assert_eq!(text, pit.position(x, y));
        (x, y)
    };

    let at_line = |text: &str| {
        let [x0, y0, x1, y1, ..] = numbers(text)[..] else {
            panic!("a line: {text}");
        };
        let expected = pit.log((x0, y0), (x1, y1));
        assert!(text.ends_with(&expected), "{text}\n{expected}");
        assert!(numbers(&expected).len() >= 4 * 4, "{text}");
    };

    let first = next();
    assert_eq!(first, pit.position(40_000, 30_000));
    assert!(first.contains("material 42, colour 206 196 180"), "{first}");
    assert!(next().contains("from the library's pixel rows"));
    at_clicks(next());
    assert!(next().contains("position by position"));
    for _ in 0..3 {
        let dot = numbers(next());
        let reading = Scene::of(Drawing::of(&pit.tables)).position(dot[0], dot[1]);
        assert_eq!(dot[2..], reading.colour);
    }
    let (x, y) = at_clicks(next());
    let moved = at_clicks(next());
    assert_ne!((x, y), moved);

    at_line(next());
    assert_eq!(next(), pit.position(65_535, 0));
    let logged = next();
    let expected = pit.log((60_000, 1_234), (100, 44_000));
    let ends = "From 60000, 1234 to 100, 44000: 59,901 positions, ";
    assert!(logged.starts_with(ends), "{logged}");
    assert!(logged.ends_with(&expected), "{logged}\n{expected}");

    assert_eq!(next(), berms.position(21_000, 30_500));
    let logged = next();
    let expected = berms.log((5_000, 5_000), (60_000, 60_000));
    assert!(logged.ends_with(&expected), "{logged}\n{expected}");
    let cells = berms.tree.head[0];
    assert!(next().contains(&format!("done: {cells} cells")));
    assert_eq!(
        next(),
        "Drawing refused 5 at 7: a contour of under 3 corners."
    );
    at_clicks(next());
    assert_eq!(lines.next(), None);
}
