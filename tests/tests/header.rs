//! include/zones.h: its constants against what the library does, its figures against what is measured, its struct, and the
//! files that tools/install makes of it.

use std::collections::{BTreeMap, BTreeSet};
use std::fs;
use std::path::{Path, PathBuf};
use std::process::{Command, Output};

use zones_tests::c_program::{archive, checked, compiled, ends_well, has, include, Compiler};
use zones_tests::pages::{sample, top};

/// A folder for one test.
fn folder(name: &str) -> PathBuf {
    let folder = Path::new(env!("CARGO_TARGET_TMPDIR")).join(name);
    fs::create_dir_all(&folder).expect("a folder for the test");
    folder
}

fn source(name: &str) -> PathBuf {
    top().join("tests/c").join(name)
}

fn header() -> String {
    fs::read_to_string(include().join("zones.h")).expect("the header")
}

fn text(bytes: Vec<u8>) -> String {
    String::from_utf8(bytes).expect("text")
}

/// What a program prints; it says itself whether all is right.
fn printed(command: &mut Command) -> String {
    let output = command.output().expect("the program runs");
    let said = text(output.stdout);
    assert!(output.status.success(), "{said}{}", text(output.stderr));
    said
}

fn drawing(name: &str) -> PathBuf {
    sample(&format!("{name}.zones"))
}

/// The names of the header's macros and of its enumerators.
fn names() -> BTreeSet<String> {
    let header = header();
    let word = |line: &str| line.split([' ', '(', ',']).next().unwrap_or("").to_string();
    let defined = header.lines().filter_map(|l| l.strip_prefix("#define "));
    let enumerated = header.lines().map(str::trim_start);
    let enumerated = enumerated.filter(|l| l.starts_with("ZONES_") && l.contains(" = "));
    let names: BTreeSet<String> = defined.chain(enumerated).map(word).collect();
    assert!(names.iter().all(|name| name.starts_with("ZONES_")));
    names
}

/// What constants.c does not try: the guard, the version, the arguments of the declarations, and the advice. The version is
/// compared below and the advice by the figures; the declarations are those of every program here.
const ELSEWHERE: [&str; 10] = [
    "ZONES_H",
    "ZONES_VERSION",
    "ZONES_VERSION_MAJOR",
    "ZONES_VERSION_MINOR",
    "ZONES_VERSION_PATCH",
    "ZONES_DRAWING",
    "ZONES_TREE",
    "ZONES_CONST_TREE",
    "ZONES_ADVISED_THRESHOLD",
    "ZONES_ADVISED_DEPTH",
];

#[test]
fn every_constant_is_what_the_library_does() {
    let program = compiled(&[&source("constants.c")], &folder("constants"));
    let output = Command::new(program).output().expect("the program runs");
    let printed = text(output.stdout);
    let wrong: Vec<&str> = printed.lines().filter(|l| !l.contains(" ok ")).collect();
    assert!(output.status.success() && wrong.is_empty(), "{wrong:#?}");
    let first = |line: &str| line.split(' ').next().unwrap_or("").to_string();
    let tried: BTreeSet<String> = printed.lines().map(first).collect();
    let elsewhere = BTreeSet::from(ELSEWHERE.map(String::from));
    let differ = &(&tried | &elsewhere) ^ &names();
    assert!(differ.is_empty(), "not in both: {differ:?}");
    println!(
        "{} constants, {} checks",
        tried.len(),
        printed.lines().count()
    );
}

/// Takes a minute: each constant and each refusal one higher and one lower in a header of its own, and constants.c finds it.
#[test]
#[ignore]
fn a_constant_that_is_wrong_is_found() {
    let folder = folder("changed");
    let header = header();
    let tried = |text: &str| {
        fs::write(folder.join("zones.h"), text).expect("a header");
        ends_well(&source("constants.c"), &folder)
    };
    assert!(tried(&header), "the header itself");
    let mut changed = 0;
    let mut missed = Vec::new();
    for line in header.lines() {
        let words: Vec<&str> = line.split([' ', ',']).filter(|w| !w.is_empty()).collect();
        let (name, value) = match words[..] {
            ["#define", name, value, ..] => (name, value),
            [name, "=", value, ..] if name.starts_with("ZONES_") => (name, value),
            _ => continue,
        };
        let Ok(value) = value.parse::<u32>() else {
            continue;
        };
        if ELSEWHERE.contains(&name) {
            continue;
        }
        for other in [Some(value + 1), value.checked_sub(1)]
            .into_iter()
            .flatten()
        {
            let new = line.replacen(&format!(" {value}"), &format!(" {other}"), 1);
            changed += 1;
            if tried(&header.replace(line, &new)) {
                missed.push(new);
            }
        }
    }
    println!("{changed} wrong headers");
    assert!(changed > 200 && missed.is_empty(), "{missed:#?}");
}

#[test]
fn no_compiler_warns() {
    const TAKEN: [Compiler; 10] = [
        ("cc", "c", "c99"),
        ("cc", "c", "c11"),
        ("cc", "c", "c17"),
        ("c++", "c++", "c++11"),
        ("c++", "c++", "c++17"),
        ("c++", "c++", "c++20"),
        ("clang", "c", "c99"),
        ("clang", "c", "c11"),
        ("clang++", "c++", "c++11"),
        ("clang++", "c++", "c++17"),
    ];
    for compiler in TAKEN {
        if !has(compiler.0) {
            println!("no {} on this machine: not tried", compiler.0);
            continue;
        }
        for name in ["nothing.c", "exchanged.c"] {
            let output = checked(compiler, &source(name), "-Wconversion");
            let said = text(output.stderr);
            assert!(output.status.success(), "{compiler:?} {name}: {said}");
        }
    }
}

#[test]
fn exchanged_tables_do_not_compile() {
    const CHANGES: usize = 12;
    let text_of_it = fs::read_to_string(source("exchanged.c")).expect("the source");
    assert_eq!(text_of_it.matches("#if IS(").count(), CHANGES);
    for compiler in [("cc", "c", "c99"), ("c++", "c++", "c++11")] {
        if !has(compiler.0) {
            println!("no {} on this machine: not tried", compiler.0);
            continue;
        }
        for change in 0..=CHANGES {
            let output = checked(
                compiler,
                &source("exchanged.c"),
                &format!("-DCHANGE={change}"),
            );
            assert_eq!(
                output.status.success(),
                change == 0,
                "{compiler:?} {change}"
            );
        }
    }
}

#[test]
fn the_wrappers_answer_as_the_calls() {
    let sources = [source("wrappers.c"), source("nothing.c")];
    let program = compiled(&[&sources[0], &sources[1]], &folder("wrappers"));
    for name in ["pit", "berms"] {
        let said = printed(Command::new(&program).arg(drawing(name)));
        assert!(said.ends_with(" refused\n"), "{said}");
        print!("{name}: {said}");
    }
}

/// The refusals that the header lists for a call, in its order.
fn listed(call: &str) -> Vec<u32> {
    let header = header();
    let begin = header.find(&format!("/* {call}: ")).expect("a comment");
    let end = header[begin..].find("*/").expect("its end");
    let comment = header[begin..begin + end].lines();
    let numbered = comment.filter_map(|l| l.strip_prefix(" * ")?.trim_start().split_once("  "));
    numbered.filter_map(|(word, _)| word.parse().ok()).collect()
}

#[test]
fn refusals_in_the_order_of_the_header() {
    let program = compiled(&[&source("orders.c")], &folder("orders"));
    let said = printed(&mut Command::new(program));
    let mut tried: BTreeMap<&str, BTreeSet<u32>> = BTreeMap::new();
    for line in said.lines() {
        let words: Vec<&str> = line.split(' ').collect();
        let [first, other] = [1, 2].map(|at| words[at].parse().expect("a number"));
        let listed = listed(words[0]);
        let before = listed.iter().position(|number| *number == first);
        let behind = listed.iter().rposition(|number| *number == other);
        assert!(before.is_some() && before < behind, "{line}: {listed:?}");
        tried.entry(words[0]).or_default().extend([first, other]);
    }
    assert_eq!(tried.len(), 9);
    for (call, numbers) in tried {
        assert_eq!(BTreeSet::from_iter(listed(call)), numbers, "{call}");
    }
}

#[test]
fn a_program_from_the_header_alone() {
    let program = compiled(&[&source("stranger.c")], &folder("stranger"));
    let lines = fs::read_to_string(source("stranger.c")).expect("the source");
    assert!(lines.lines().count() <= 30);
    let said = printed(
        Command::new(&program)
            .arg(drawing("pit"))
            .args(["40000", "30000"]),
    );
    assert_eq!(said, "material 42, colour 206 196 180\n");
}

/// What nm says of the archive: a letter and a name each.
fn symbols(option: &str) -> Vec<(String, String)> {
    let said = printed(Command::new("nm").arg(option).arg(archive()));
    let pair = |line: &str| {
        let words: Vec<&str> = line.split_whitespace().collect();
        let [.., kind, name] = words[..] else {
            return None;
        };
        (kind.len() == 1).then(|| (kind.to_string(), name.to_string()))
    };
    said.lines().filter_map(pair).collect()
}

#[test]
fn what_the_archive_needs_and_has() {
    let header = header();
    let needs = header
        .lines()
        .find_map(|l| l.strip_prefix(" *     needs: "));
    let needs: BTreeSet<&str> = needs.expect("what it needs").split(' ').collect();
    let undefined = symbols("-u");
    let undefined: BTreeSet<&str> = undefined.iter().map(|(_, name)| name.as_str()).collect();
    assert_eq!(undefined, needs);

    // Code and constants, no variable; of the code, the calls that the header declares are seen from outside.
    let defined = symbols("--defined-only");
    assert!(defined
        .iter()
        .all(|(kind, _)| ["T", "t", "r"].contains(&kind.as_str())));
    let calls = header
        .lines()
        .filter_map(|l| l.strip_prefix("uint64_t zones_"));
    let calls: BTreeSet<String> = calls
        .filter_map(|l| l.split('(').next())
        .map(|name| format!("zones_{name}"))
        .collect();
    let seen = defined.iter().filter(|(kind, _)| kind == "T");
    assert_eq!(
        seen.map(|(_, name)| name.clone()).collect::<BTreeSet<_>>(),
        calls
    );
    assert_eq!(calls.len(), 9);
}

/// The numbers that stand behind a name in the header's tables, commas left out.
fn numbers_behind(name: &str) -> Vec<u64> {
    let header = header();
    let lines = header.lines().filter_map(|l| l.strip_prefix(" *     "));
    for line in lines {
        let words: Vec<&str> = line.split_whitespace().collect();
        if let Some(at) = words.iter().position(|word| *word == name) {
            let numbers = words[at + 1..].iter().map_while(|w| w.parse().ok());
            let numbers: Vec<u64> = numbers.collect();
            if !numbers.is_empty() {
                return numbers;
            }
        }
    }
    panic!("no numbers of {name} in the header");
}

#[test]
fn the_memory_of_the_samples() {
    let program = compiled(&[&source("figures.c")], &folder("figures"));
    let mut command = Command::new(program);
    for name in DRAWINGS {
        if drawing(name).exists() {
            command.arg(name).arg(drawing(name));
        }
    }
    for line in printed(&mut command).lines() {
        let words: Vec<&str> = line.split(' ').collect();
        let numbers = words[1..].iter().map_while(|w| w.parse().ok());
        let numbers: Vec<u64> = numbers.collect();
        if words[0] == "limits" {
            let with_commas = format!(
                "{},{:03},{:03}",
                numbers[0] / 1_000_000,
                numbers[0] / 1_000 % 1_000,
                numbers[0] % 1_000
            );
            assert_eq!(header().matches(&with_commas).count(), 2, "{with_commas}");
        } else {
            assert_eq!(
                numbers_behind(words[0]),
                numbers,
                "the header's row of {}",
                words[0]
            );
        }
    }
}

/// A row of the header's tables of trees: threshold and depth limit, then each drawing's cells, with an f where growing ended on full, and entries.
type Row = ((u32, u32), Vec<[String; 2]>);

/// The rows of both: over thresholds with depth limit 8, then over depth limits with threshold 2.
fn trees() -> Vec<Row> {
    let mut rows = Vec::new();
    let mut second = false;
    for line in header().lines() {
        second |= line.contains("Then over depth limits, with threshold 2:");
        let columns: Vec<&str> = line.trim_start_matches(" *").split('|').collect();
        let [label, drawings @ ..] = &columns[..] else {
            continue;
        };
        let key = match (label.trim(), label.trim().parse(), second) {
            ("none", ..) => (0, 0),
            (_, Ok(threshold), false) => (threshold, 8),
            (_, Ok(limit), true) => (2, limit),
            _ => continue,
        };
        let pair = |column: &&str| {
            let mut words = column.split_whitespace().map(String::from);
            [words.next(), words.next()].map(|word| word.expect("a number"))
        };
        if drawings.len() == DRAWINGS.len() {
            rows.push((key, drawings.iter().map(pair).collect()));
        }
    }
    rows
}

/// The drawings of the header's figures, in the order of its columns.
const DRAWINGS: [&str; 4] = ["pit", "berms", "full", "mine"];

#[test]
fn cells_and_entries_over_thresholds() {
    let program = compiled(&[&top().join("tools/thresholds.c")], &folder("thresholds"));
    let rows = trees();
    assert_eq!(rows.len(), 7 + 6);
    for (column, name) in DRAWINGS
        .iter()
        .enumerate()
        .filter(|(_, name)| drawing(name).exists())
    {
        let said = printed(Command::new(&program).arg(drawing(name)));
        let lines: Vec<Vec<&str>> = said.lines().map(|l| l.split(' ').collect()).collect();
        for ((threshold, limit), drawings) in &rows {
            let begin = [threshold.to_string(), limit.to_string()];
            let line = lines.iter().find(|line| line[..2] == begin);
            let line = line.expect("the program tries them");
            let full = if line[4] == "full" { "f" } else { "" };
            let found = [format!("{}{full}", line[2]), line[3].to_string()];
            assert_eq!(
                drawings[column], found,
                "{name}, threshold {threshold}, limit {limit}"
            );
        }
    }
}

/// The percentages of the grid in uniform leaves, of each drawing with thresholds 2, 1 and 0: in the header, and in docs/HOW.md.
#[test]
fn how_far_answers_reach_in_the_samples() {
    let program = compiled(&[&source("reach.c")], &folder("reach"));
    let mut command = Command::new(program);
    for name in DRAWINGS {
        command.arg(name).arg(drawing(name));
    }
    let said = printed(&mut command);
    let columns: Vec<Vec<&str>> = said.lines().map(|l| l.split(' ').collect()).collect();
    assert!(columns.iter().map(|column| column[0]).eq(DRAWINGS));
    let how = fs::read_to_string(top().join("docs/HOW.md")).expect("the page");
    for (row, threshold) in [(1, "2"), (2, "1"), (3, "0")] {
        let numbers: Vec<&str> = columns.iter().map(|column| column[row]).collect();
        let in_header = header().lines().any(|line| {
            let words: Vec<&str> = line.split_whitespace().collect();
            words.len() == 6 && words[1] == threshold && words[2..] == numbers
        });
        assert!(in_header, "the header, threshold {threshold}: {numbers:?}");
        let in_page = how.lines().any(|line| {
            let cells: Vec<&str> = line.split('|').map(str::trim).collect();
            cells.len() == 7 && cells[1].starts_with(threshold) && cells[2..6] == numbers
        });
        assert!(in_page, "docs/HOW.md, threshold {threshold}: {numbers:?}");
    }
}

/// Another compiler lays the wrapper's frame out otherwise, so a tenth more passes.
#[test]
fn the_stack_of_the_calls() {
    let program = compiled(&[&top().join("tools/stack.c")], &folder("stack"));
    let said = printed(Command::new(program).arg(drawing("berms")).arg("limits"));
    let rows: Vec<Vec<&str>> = said
        .lines()
        .map(|l| l.split_whitespace().collect())
        .collect();
    let calls = [
        "read",
        "write",
        "open",
        "split",
        "grow",
        "find_leaf",
        "position",
        "pixel_row",
        "zone_log",
    ];
    for row in &rows[1..] {
        for (call, measured) in calls.iter().zip(&row[1..]) {
            let stated = numbers_behind(&format!("zones_{call}"))[0];
            let measured: u64 = measured.parse().expect("a number");
            assert!(
                measured * 10 <= stated * 11,
                "{call}: {measured}, in the header {stated}"
            );
            assert!(
                measured * 2 >= stated,
                "{call}: {measured}, in the header {stated}"
            );
        }
    }
}

/// The number or the text behind a macro.
fn number(name: &str) -> String {
    let header = header();
    let begin = format!("#define {name} ");
    let value = header.lines().find_map(|l| l.strip_prefix(&begin));
    let value = value.and_then(|rest| rest.split(' ').next());
    value.expect("the macro").to_string()
}

fn version() -> String {
    let part = |name: &str| number(&format!("ZONES_VERSION_{name}"));
    format!("{}.{}.{}", part("MAJOR"), part("MINOR"), part("PATCH"))
}

#[test]
fn one_version() {
    assert_eq!(number("ZONES_VERSION"), format!("\"{}\"", version()));
    let first = format!("/* zones.h, version {}: ", version());
    assert!(header().starts_with(&first));
}

/// Runs tools/install to a folder, which is then moved.
fn installed(name: &str) -> PathBuf {
    let folder = folder(name);
    let (first, moved) = (folder.join("first"), folder.join("moved here"));
    for old in [&first, &moved] {
        let _ = fs::remove_dir_all(old);
    }
    let mut install = Command::new(top().join("tools/install"));
    let said = printed(install.arg(&first).env("ZONES_ARCHIVE", archive()));
    for file in said.lines().filter(|file| !file.ends_with(".a")) {
        let text = fs::read_to_string(file).expect("a file that was installed");
        assert!(
            !text.contains('@') && !text.contains(env!("CARGO_TARGET_TMPDIR")),
            "{file}"
        );
    }
    assert_eq!(said.lines().count(), 5);
    fs::rename(&first, &moved).expect("the folder is moved");
    moved
}

fn built(output: &Output) -> bool {
    println!("{}", String::from_utf8_lossy(&output.stderr));
    output.status.success()
}

/// The pit floor, from a program of samples/where.c.
fn tells_the_pit_floor(program: &Path) {
    let said = printed(
        Command::new(program)
            .arg(drawing("pit"))
            .args(["40000", "30000"]),
    );
    assert_eq!(said, "material 42, colour 206 196 180\n");
}

#[test]
fn through_pkg_config() {
    if !has("pkg-config") {
        println!("no pkg-config on this machine: not tried");
        return;
    }
    let moved = installed("pkg-config");
    let ask = |arguments: &[&str]| {
        let mut command = Command::new("pkg-config");
        command.env("PKG_CONFIG_PATH", moved.join("lib/pkgconfig"));
        printed(command.args(arguments))
    };
    assert_eq!(ask(&["--modversion", "zones"]).trim(), version());
    let flags = ask(&["--cflags", "--libs", "zones"]);
    let program = folder("pkg-config").join("where");
    // As in a Makefile: the shell takes the flags apart.
    let line = format!("cc -O2 -Wall -Wextra -Werror \"$0\" -o \"$1\" {flags}");
    let mut shell = Command::new("sh");
    let shell = shell
        .args(["-c", &line])
        .arg(sample("where.c"))
        .arg(&program);
    assert!(built(&shell.output().expect("a shell")));
    tells_the_pit_floor(&program);
}

const CMAKE_LISTS: &str = "\
cmake_minimum_required(VERSION 3.13)
project(where C)
find_package(zones ${ASKED} REQUIRED)
add_executable(where ${SOURCE})
target_link_libraries(where PRIVATE zones::zones)
";

#[test]
fn through_cmake() {
    if !has("cmake") {
        println!("no cmake on this machine: not tried");
        return;
    }
    let moved = installed("cmake");
    let folder = folder("cmake");
    fs::write(folder.join("CMakeLists.txt"), CMAKE_LISTS).expect("the lists");
    let configured = |version: &str| {
        let build = folder.join("build");
        let _ = fs::remove_dir_all(&build);
        let mut command = Command::new("cmake");
        command.arg("-S").arg(&folder).arg("-B").arg(&build);
        command.arg(format!("-DCMAKE_PREFIX_PATH={}", moved.display()));
        command.arg(format!("-DSOURCE={}", sample("where.c").display()));
        let output = command.arg(format!("-DASKED={version}")).output();
        (output.expect("cmake runs").status.success(), build)
    };
    let (major, minor) = (number("ZONES_VERSION_MAJOR"), number("ZONES_VERSION_MINOR"));
    let later: u32 = minor.parse::<u32>().expect("a number") + 1;
    assert!(
        !configured(&format!("{major}.{later}")).0,
        "a later version was found"
    );
    let (found, build) = configured(&format!("{major}.{minor}"));
    assert!(found, "the package was not found");
    let mut make = Command::new("cmake");
    assert!(built(
        &make
            .arg("--build")
            .arg(&build)
            .output()
            .expect("cmake builds")
    ));
    tells_the_pit_floor(&build.join("where"));
}
