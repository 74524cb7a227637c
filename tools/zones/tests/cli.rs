//! The command `zones`: what each subcommand prints, and each kind of error with its message and exit status.

mod common;

use std::fs;
use std::process::Stdio;

use common::{command, done, fed, python, run, sample, scratch, top, Ran, SAMPLES};

const DONE: i32 = 0;
const REFUSED: i32 = 1;
const UNUSABLE: i32 = 2;

#[track_caller]
fn ends(ran: &Ran, status: i32, said: &str) {
    assert_eq!((ran.said.as_str(), ran.status), (said, status));
    if status != DONE {
        assert_eq!(ran.text(), "", "nothing is printed");
    }
}

/// What is said of a drawing in words on standard input.
#[track_caller]
fn words_refused(words: &str, said: &[&str]) {
    let lines: Vec<String> = said
        .iter()
        .map(|line| format!("standard input:{line}\n"))
        .collect();
    for command in [&["check", "-"][..], &["records", "-"], &["words", "-"]] {
        ends(&fed(command, words.as_bytes()), REFUSED, &lines.concat());
    }
}

fn temporary(name: &str, bytes: &[u8]) -> String {
    let file = scratch(name);
    fs::write(&file, bytes).expect("a file");
    file
}

// ---- words and records ----

#[test]
fn the_samples_there_and_back() {
    for name in SAMPLES {
        let (text, records) = (
            format!("samples/{name}.txt"),
            format!("samples/{name}.zones"),
        );
        let more: &[&str] = match name {
            "refused" => &["--unchecked"],
            _ => &[],
        };
        let made = done(&[&["records", &text], more].concat());
        assert!(made == sample(&format!("{name}.zones")), "{name}");
        assert!(done(&[&["records", &records], more].concat()) == made);
        let words = done(&[&["words", &records], more].concat());
        // The words of the sample but for its comments.
        let sample = String::from_utf8(sample(&format!("{name}.txt"))).expect("text");
        let lines = sample.lines().filter(|line| !line.starts_with('#'));
        let expected: String = lines.map(|line| format!("{line}\n")).collect();
        assert_eq!(String::from_utf8(words.clone()), Ok(expected));
        assert!(done(&[&["words", &text], more].concat()) == words);
        let again = fed(&[&["records", "-"], more].concat(), &words);
        ends(&again, DONE, "");
        assert!(again.out == made, "{name}");
    }
}

#[test]
fn written_to_a_file() {
    let file = scratch("written.zones");
    for option in [&["-o", &file][..], &["--output", &file]] {
        _ = fs::remove_file(&file);
        assert_eq!(
            done(&[&["records", "samples/pit.txt"], option].concat()),
            b""
        );
        assert_eq!(fs::read(&file).expect("a file"), sample("pit.zones"));
    }
    let text = scratch("written.txt");
    assert_eq!(done(&["words", &file, &format!("-o{text}")]), b"");
    assert_eq!(done(&["records", "--", &text]), sample("pit.zones"));
    assert_eq!(done(&["records", &text, "-o", "-"]), sample("pit.zones"));
    // A refused drawing leaves the file as it was.
    let refused = run(&["records", "samples/refused.txt", "-o", &file]);
    assert_eq!(refused.status, REFUSED);
    assert_eq!(fs::read(&file).expect("a file"), sample("pit.zones"));
}

#[test]
fn forms_of_text() {
    let pit = String::from_utf8(sample("quarter.txt")).expect("text");
    let records = sample("quarter.zones");
    for text in [
        format!("\u{FEFF}{pit}"),
        pit.replace('\n', "\r\n"),
        pit.replace(' ', " \t "),
        pit.replace('\n', "# é\n\n"),
        pit.trim_end().to_string(),
    ] {
        assert_eq!(
            fed(&["records", "-"], text.as_bytes()).out,
            records,
            "{text}"
        );
    }
    // No words and no records are the empty drawing.
    assert_eq!(fed(&["records", "-"], b"# nothing").out, b"");
    assert_eq!(fed(&["words", "-"], b"").out, b"");
}

#[test]
fn words_that_are_none() {
    let paint = "paint RULE ALPHA RED GREEN BLUE MATERIAL";
    let line = "a line begins with paint, clip, contour, (, | or )";
    let end = "the end of the line is expected";
    let own = "(, | and ) have each a line of their own: the end of it is expected";
    let corner = "a corner X,Y with no space in it is expected";
    for (words, said) in [
        ("group", format!("1:1: {line}, not group")),
        ("\n\n  pant", format!("3:3: {line}, not pant")),
        ("((", format!("1:1: {line}, not ((")),
        ("paint", format!("1:6: RULE is missing: {paint}")),
        (
            "paint non-zero 1 2 3  # red",
            format!("1:21: BLUE is missing: {paint}"),
        ),
        ("clip", "1:5: RULE is missing: clip RULE".to_string()),
        (
            "clip nonzero",
            "1:6: non-zero or even-odd is expected, not nonzero".to_string(),
        ),
        (
            "paint non-zero 256 2 3 4 5",
            "1:16: ALPHA: a number from 0 to 255 is expected, not 256".to_string(),
        ),
        (
            "paint non-zero 1 2 3 +4 5",
            "1:22: BLUE: a number from 0 to 255 is expected, not +4".to_string(),
        ),
        (
            "paint non-zero 1 2 3 4 0",
            "1:24: MATERIAL: a number from 1 to 65,535 is expected, not 0".to_string(),
        ),
        ("paint non-zero 1 2 3 4 5 6", format!("1:26: {end}, not 6")),
        ("clip even-odd 1", format!("1:15: {end}, not 1")),
        ("( clip non-zero", format!("1:3: {own}, not clip")),
        (
            "contour",
            "1:8: X,Y is missing: contour X,Y X,Y X,Y ...".to_string(),
        ),
        (
            "contour 1,2 control",
            "1:20: X,Y is missing: control X,Y X,Y".to_string(),
        ),
        (
            "contour 1,2 control control 3,4",
            format!("1:21: {corner}, not control"),
        ),
        ("contour 1", format!("1:9: {corner}, not 1")),
        ("contour 1, 2", format!("1:9: {corner}, not 1,")),
        ("contour ,2", format!("1:9: {corner}, not ,2")),
        (
            "contour 1,2 3,70000x",
            "1:15: a number from 0 to 65,536 is expected, not 70000x".to_string(),
        ),
        (
            "contour 1,2\t65537,1",
            "1:13: a number from 0 to 65,536 is expected, not 65537".to_string(),
        ),
        (
            "contour 1,2,3",
            "1:11: a number from 0 to 65,536 is expected, not 2,3".to_string(),
        ),
        (
            "contour 99999999999999999999,1",
            "1:9: a number from 0 to 65,536 is expected, not 99999999999999999999".to_string(),
        ),
        // Columns count characters, not bytes.
        (
            "clip é\n",
            "1:6: non-zero or even-odd is expected, not é".to_string(),
        ),
        ("é é", format!("1:1: {line}, not é")),
        (
            "contour é,1",
            "1:9: a number from 0 to 65,536 is expected, not é".to_string(),
        ),
        ("clip non-zero é x", format!("1:15: {end}, not é")),
        (
            "clip \u{1b}[2J",
            "1:6: non-zero or even-odd is expected, not \\u{1b}[2J".to_string(),
        ),
    ] {
        words_refused(words, &[&said]);
    }
    let long = "y".repeat(100);
    words_refused(&long, &[&format!("1:1: {line}, not {}...", "y".repeat(40))]);
}

#[test]
fn refusals_are_turned_back_into_lines() {
    let unfit = "the record does not fit where it stands, or a group is open at the end";
    let short = "a contour of under 3 corners";
    let curve = "a curve's x or y are not in order, or it spans over 4,096 units";
    let curve_note = "a curve goes from the corner before its control corner to the one behind it; draw a longer or turning one as several";
    let control = "a control corner is followed by the corner that ends its curve";
    let paint = "# a comment\npaint non-zero 1 2 3 4 5\n";
    words_refused(
        "(\n|\n",
        &[
            &format!("3:1: refused 4 at the end: {unfit}"),
            "1:1: this group is not closed",
        ],
    );
    words_refused(
        "(\n|\n(\n|\n)",
        &[
            &format!("6:1: refused 4 at the end: {unfit}"),
            "1:1: this group is not closed",
        ],
    );
    words_refused(
        " |",
        &[
            &format!("1:2: refused 4 at record 0: {unfit}"),
            "1:2: each group has one |, and no group whose | is missing is open here",
        ],
    );
    words_refused(
        "(\n)",
        &[
            &format!("2:1: refused 4 at record 1: {unfit}"),
            "2:1: a ) stands behind the | of its group",
        ],
    );
    words_refused("\n clip non-zero", &[
        &format!("2:2: refused 4 at record 0: {unfit}"),
        "2:2: a clip area stands left of a |, or on either side in a group that stands left of one; elsewhere areas are paint",
    ]);
    words_refused(&format!("(\n{paint}|\n)"), &[
        &format!("3:1: refused 4 at record 1: {unfit}"),
        "3:1: a paint area stands outside all groups, or right of the | of a group that stands where a paint area may",
    ]);
    words_refused(
        "contour 1,2 3,4 5,6",
        &[
            &format!("1:9: refused 4 at record 0: {unfit}"),
            "1:9: a contour stands straight behind its area or behind another contour of it",
        ],
    );
    words_refused(
        &format!("{paint}contour 1,2 3,4\n"),
        &[
            &format!("4:1: refused 5 at the end: {short}"),
            "3:9: the contour begins here",
        ],
    );
    words_refused(
        &format!("{paint}contour 1,2 3,4\ncontour 5,6"),
        &[
            &format!("4:9: refused 5 at record 3: {short}"),
            "3:9: the contour begins here",
        ],
    );
    words_refused(
        &format!("{paint}contour 1,2 control 3,1 6,7 9,9"),
        &[
            &format!("3:25: refused 13 at record 3: {curve}"),
            &format!("3:25: {curve_note}"),
        ],
    );
    words_refused(
        &format!("{paint}contour 1,2 9,9 control 3,4"),
        &[
            &format!("4:1: refused 4 at the end: {unfit}"),
            &format!("3:25: {control}"),
        ],
    );
    words_refused(
        &format!("{paint}contour 1,2 control 3,4 control 5,6 7,8"),
        &[
            &format!("3:33: refused 4 at record 3: {unfit}"),
            &format!("3:33: {control}"),
        ],
    );
    words_refused(
        &format!("{paint}contour control 3,4 6,7 9,9"),
        &[
            &format!("3:17: refused 4 at record 1: {unfit}"),
            "3:17: a control corner stands between two corners of its contour",
        ],
    );
    words_refused(
        &"(\n".repeat(9),
        &["9:1: refused 6 at record 8: the 65th area, the 2,049th corner or the 9th open group"],
    );
    let long = "(\n|\n)\n".repeat(1_366);
    words_refused(&long, &["4097:1: refused 1: the length of the file is no multiple of 16, or it has over 4,096 records; it has 4,098 records"]);
    let file = run(&["check", "samples/refused.txt"]);
    ends(&file, REFUSED, "samples/refused.txt:6:1: refused 5 at record 7: a contour of under 3 corners\nsamples/refused.txt:5:9: the contour begins here\n");
}

#[test]
fn refusals_of_records() {
    let refused = |bytes: &[u8], said: &[&str]| {
        let lines: Vec<String> = said
            .iter()
            .map(|line| format!("standard input: {line}\n"))
            .collect();
        ends(&fed(&["check", "-"], bytes), REFUSED, &lines.concat());
    };
    let length =
        "refused 1: the length of the file is no multiple of 16, or it has over 4,096 records";
    let taken = "it was taken as records, not as words, because a byte of it is zero";
    refused(&[0; 17], &[&format!("{length}; it has 17 bytes"), taken]);
    refused(&[0], &[&format!("{length}; it has 1 byte"), taken]);
    refused(
        &[0; 65_552],
        &[&format!("{length}; it has 4,097 records"), taken],
    );
    refused(
        &[0; 16],
        &[
            "refused 2 at record 0: unknown kind of record",
            "bytes 0 to 15 are: 00 00 00 00 00 00 00 00 00 00 00 00 00 00 00 00",
            taken,
        ],
    );
    let mut field = [0; 32];
    (field[0], field[16], field[31]) = (4, 5, 0xAB);
    refused(
        &field,
        &[
            "refused 3 at record 1: a field is out of range, or an unnamed byte is not zero",
            "bytes 16 to 31 are: 05 00 00 00 00 00 00 00 00 00 00 00 00 00 00 ab",
        ],
    );
    let mut open = [0; 16];
    open[0] = 4;
    refused(&open, &[
        "refused 4 at the end: the record does not fit where it stands, or a group is open at the end",
        "this group is not closed: record 0",
    ]);
    refused(
        &sample("refused.zones"),
        &[
            "refused 5 at record 7: a contour of under 3 corners",
            "bytes 112 to 127 are: paint non-zero 255 0 0 0 3",
            "the contour begins here: record 5",
        ],
    );
    refused(
        "clip non-zero\n"
            .encode_utf16()
            .flat_map(u16::to_le_bytes)
            .collect::<Vec<u8>>()
            .as_slice(),
        &[&format!("{length}; it has 28 bytes"), taken],
    );
    refused(
        b"\xFF\xFE(\0",
        &["this is text of 16 bits a letter; save it as UTF-8"],
    );
    refused(
        b"clip \xE9",
        &["neither records, as no byte is zero, nor words in UTF-8: see byte 5"],
    );
}

#[test]
fn unchecked() {
    let words = "paint even-odd 0 0 0 0 0\ncontour 70000,4294967295\n)\ncontour control 1,2 3,4\n";
    let records = fed(&["records", "-", "--unchecked"], words.as_bytes());
    ends(&records, DONE, "");
    let again = fed(&["words", "-", "--unchecked"], &records.out);
    assert_eq!((again.status, again.text()), (DONE, words));
    ends(
        &fed(&["records", "-", "--unchecked"], b"contour 4294967296,1"),
        REFUSED,
        "standard input:1:9: a number from 0 to 4,294,967,295 is expected, not 4294967296\n",
    );
    // A corner without a first one, an unknown kind, a clip area with a colour, half a record.
    let mut corner = [0; 16];
    corner[0] = 3;
    let mut clip = [0; 16];
    (clip[0], clip[1], clip[4]) = (1, 1, 9);
    for (bytes, record) in [
        (&corner[..], 0),
        (&[0; 16], 0),
        (&clip, 0),
        (&sample("pit.zones")[..24], 1),
    ] {
        let said = format!("standard input: words cannot say record {record}\n");
        ends(&fed(&["words", "-", "--unchecked"], bytes), REFUSED, &said);
    }
}

// ---- where, log, check ----

#[test]
fn positions() {
    let at = |file: &str, x: &str, y: &str| {
        let out = done(&["where", file, x, y]);
        String::from_utf8(out).expect("text")
    };
    let expected = "position  45000,31000\nmaterial  41\ncolour    126 149 175\n\
        area      7: paint non-zero 140 60 110 170 41AT\n\
        area      8: paint non-zero 255 206 196 180 42OVER\n";
    let words = expected
        .replace("AT", "  (samples/pit.txt:27:1)")
        .replace("OVER", "  (samples/pit.txt:30:1)");
    let text = at("samples/pit.txt", "45000", "31000");
    assert_eq!(
        text.lines().take(5).collect::<Vec<_>>().join("\n") + "\n",
        words
    );
    let rest: Vec<&str> = text.lines().skip(5).collect();
    let [leaf, parents, reach] = rest[..] else {
        panic!("three lines more: {text}");
    };
    assert!(leaf.starts_with("leaf      cell "), "{leaf}");
    let depth = format!("; depth {}, ", parents.split(", ").count());
    assert!(leaf.contains(&depth), "{leaf}\n{parents}");
    assert!(parents.starts_with("parents   cells ") && parents.ends_with(", 0"));
    assert!(reach.starts_with("reach     "), "{reach}");
    let records = at("samples/pit.zones", "45000", "31000");
    let said = expected.replace("AT", "").replace("OVER", "");
    assert_eq!(records, format!("{said}{leaf}\n{parents}\n{reach}\n"));
    assert_eq!(
        at("samples/quarter.zones", "65535", "65535"),
        "position  65535,65535\nmaterial  0\ncolour    255 255 255\nareas     none, the white ground\n\
         leaf      cell 0: x 0 to 65535, y 0 to 65535; depth 0, entries 2, lines 1\n\
         parents   none, the leaf is the whole grid\n\
         reach     this position: the leaf's stream has a line, a curve or a shortcut\n"
    );
    let split = done(&[
        "where",
        "samples/quarter.zones",
        "32767",
        "0",
        "--threshold=0",
        "--limit",
        "16",
    ]);
    let split = String::from_utf8(split).expect("text");
    assert!(
        split.ends_with(
            "leaf      cell 1: x 0 to 32767, y 0 to 32767; depth 1, entries 1, lines 0\n\
             parents   cell 0\n\
             reach     the same for x 0 to 32767, y 0 to 32767\n"
        ),
        "{split}"
    );
}

/// The table of docs/HOW.md: the leaf of the pit floor and the cells around it.
#[test]
fn upward_as_the_page_has_it() {
    let page = fs::read_to_string(top().join("docs/HOW.md")).expect("the page");
    let rows = page
        .lines()
        .skip_while(|line| *line != "## Walking upward from a leaf");
    let rows = rows.skip_while(|line| !line.starts_with("| depth |"));
    let rows = rows.skip(2).take_while(|line| line.starts_with('|'));
    let said: Vec<Vec<u32>> = rows.map(numbers).collect();

    let records = sample("pit.zones");
    let map = zones::Map::grown(&records, zones::ADVISED_THRESHOLD, zones::ADVISED_DEPTH);
    let map = map.expect("it is read, opened and grown");
    let leaf = map.find_leaf(40_000, 30_000).expect("a leaf");
    let cells = map.upward(leaf.cell).zip((0..=leaf.steps).rev());
    let found = cells
        .map(|((number, cell), depth)| vec![depth, number, cell.x, cell.y, cell.side, cell.lines]);
    assert_eq!(found.collect::<Vec<_>>(), said);

    let printed = done(&["where", "samples/pit.zones", "40000", "30000"]);
    let printed = String::from_utf8(printed).expect("text");
    let mut parents = printed
        .lines()
        .filter_map(|line| line.strip_prefix("parents "));
    let around: Vec<u32> = said[1..].iter().map(|row| row[1]).collect();
    assert_eq!(parents.next().map(numbers), Some(around));
}

/// The numbers of a text, whatever stands between them.
fn numbers(text: &str) -> Vec<u32> {
    let words = text.split(|letter: char| !letter.is_ascii_digit());
    words.filter_map(|word| word.parse().ok()).collect()
}

#[test]
fn positions_that_are_refused() {
    for (x, y) in [("65536", "0"), ("0", "65536"), ("4294967295", "7")] {
        let text = zones::Refusal::Argument.text();
        let said = format!(
            "zones where: position {x},{y} refused 7: {text}\nPositions are 0 to 65,535 either way.\n"
        );
        ends(&run(&["where", "samples/pit.zones", x, y]), REFUSED, &said);
    }
}

#[test]
fn zone_logs() {
    let expected = "index,x,y,material\n0,20000,20000,21\n2,40000,30000,42\n4,0,0,0\n";
    let lines = [
        "20000,20000",
        "20001,20000",
        "40000,30000",
        "40001,30001",
        "0,0",
    ];
    for run_ in [
        lines.join("\n"),
        lines.join("\r\n") + "\r\n",
        "x,y\n".to_string() + &lines.join("\n"),
        "\u{FEFF}Easting, Northing\n\n".to_string() + &lines.join("\n\n") + "\n\n",
        lines.join("\n").replace(',', " , "),
    ] {
        let ran = fed(&["log", "samples/pit.txt", "-"], run_.as_bytes());
        assert_eq!((ran.text(), ran.status), (expected, DONE), "{run_}");
        let file = temporary("run.csv", run_.as_bytes());
        assert_eq!(
            done(&["log", "samples/pit.zones", &file]),
            expected.as_bytes()
        );
        let drawing = fed(&["log", "-", &file], &sample("pit.zones"));
        assert_eq!(drawing.text(), expected);
    }
    for none in ["", "x,y\n", "\n"] {
        let ran = fed(&["log", "samples/pit.txt", "-"], none.as_bytes());
        assert_eq!((ran.text(), ran.status), ("index,x,y,material\n", DONE));
    }
}

#[test]
fn runs_that_are_none() {
    for (text, said) in [
        (
            "x,y\n1,2\n3,4x\n",
            "3:3: a number from 0 to 65,535 is expected, not 4x",
        ),
        (
            "1,2\n 3 ,  65536\n",
            "2:7: a number from 0 to 65,535 is expected, not 65536",
        ),
        (
            "1,2\n-3,4\n",
            "2:1: a number from 0 to 65,535 is expected, not -3",
        ),
        (
            "1.5,2\n",
            "1:1: a number from 0 to 65,535 is expected, not 1.5",
        ),
        (
            "1,2\n1,2,3\n",
            "2:5: two numbers X,Y are expected, not a third",
        ),
        ("1,2\n12\n", "2:1: a line X,Y is expected, not 12"),
        (
            "1,2\n ,5\n",
            "2:2: a number from 0 to 65,535 is expected, not nothing",
        ),
        (
            "1,2\nx,y\n",
            "2:1: a number from 0 to 65,535 is expected, not x",
        ),
        ("x,5\n", "1:1: a number from 0 to 65,535 is expected, not x"),
        ("x;y\n1;2\n", "2:1: a line X,Y is expected, not 1;2"),
    ] {
        let said = format!("standard input:{said}\n");
        ends(
            &fed(&["log", "samples/pit.zones", "-"], text.as_bytes()),
            REFUSED,
            &said,
        );
    }
    ends(
        &fed(&["log", "samples/pit.zones", "-"], b"1,\xFF\0"),
        REFUSED,
        "standard input:1:3: a number from 0 to 65,535 is expected, not \u{FFFD}\\u{0}\n",
    );
}

#[test]
fn checks() {
    let text = |words: &[&str]| String::from_utf8(done(words)).expect("text");
    assert_eq!(
        text(&[
            "check",
            "samples/berms.txt",
            "--threshold",
            "0",
            "--limit",
            "4"
        ]),
        "samples/berms.txt: accepted\n\
         records   220 of 4,096\n\
         areas     12 of 64: 11 paint, 1 clip\n\
         corners   205 of 2,048, in 14 contours, with 85 curves\n\
         groups    1, at most 1 of 8 open at once\n\
         material  colour       alpha  areas\n       \
         1  176 164 140    255  2\n      \
         13  170 84 60      230  10\n      \
         14  196 120 70     230  9\n      \
         21  214 176 60     200  3\n      \
         22  190 190 120    200  4\n      \
         31  120 112 104    220  5\n      \
         41  60 110 170     140  6\n      \
         42  206 196 180    255  7\n      \
         51  110 86 60      255  1\n      \
         52  110 86 60      255  8\n      \
         90  150 168 120    255  11\n\
         tree      threshold 0, limit 4: done\n\
         cells     285 of 4,096; leaves 214, the smallest of side 4,096\n\
         entries   3,895 of 65,536\n\
         memory    74,364 bytes: drawing 2,916, tree 71,448\n"
    );
    let full = text(&[
        "check",
        "samples/full.zones",
        "--threshold",
        "0",
        "--limit",
        "16",
    ]);
    assert!(
        full.contains("tree      threshold 0, limit 16: full: no room for the next split\n"),
        "{full}"
    );
    let empty = fed(&["check", "-"], b"");
    assert_eq!(
        empty.text(),
        "standard input: accepted\nrecords   0 of 4,096\nareas     0 of 64: 0 paint, 0 clip\n\
         corners   0 of 2,048, in 0 contours, with 0 curves\ngroups    0, at most 0 of 8 open at once\n\
         material  none\ntree      threshold 2, limit 8: done\n\
         cells     1 of 4,096; leaves 1, the smallest of side 65,536\nentries   0 of 65,536\n\
         memory    52 bytes: drawing 12, tree 40\n"
    );
    // Areas of one material stand in one line.
    let same = fed(
        &["check", "-"],
        b"paint non-zero 1 2 3 4 65535\npaint non-zero 5 6 7 8 65535\n",
    );
    assert!(
        same.text()
            .contains("\n   65535  2 3 4            1  0 1\n"),
        "{}",
        same.text()
    );
}

// ---- the command line ----

const NAMES: [&str; 6] = ["check", "where", "log", "draw", "records", "words"];

#[test]
fn help() {
    let whole = String::from_utf8(done(&["--help"])).expect("text");
    for name in NAMES {
        assert!(whole.contains(&format!("\n  zones {name} ")), "{name}");
        let help = done(&[name, "--help"]);
        let text = String::from_utf8(help.clone()).expect("text");
        assert!(
            text.starts_with(&format!("usage: zones {name} FILE")),
            "{text}"
        );
        assert!(text.ends_with(
            "Exit status: 0 done, 1 refused, 2 wrong usage or a file that cannot be used.\n"
        ));
        let wide = text.lines().find(|line| line.len() > 82);
        assert_eq!(wide, None);
        for words in [
            &["help", name][..],
            &["--help", name],
            &[name, "-h"],
            &[name, "a", "--help", "--no"],
        ] {
            assert_eq!(done(words), help);
        }
    }
    assert!(whole.contains("Exit status: 0 done; 1 refused"));
    assert!(whole.lines().all(|line| line.len() <= 80));
    assert_eq!(done(&["help"]), whole.as_bytes());
    assert_eq!(done(&["--version"]), b"zones 0.6.0\n");
    assert_eq!(done(&["-V"]), b"zones 0.6.0\n");
}

#[test]
fn wrong_usage() {
    ends(
        &run(&[]),
        UNUSABLE,
        "usage: zones check FILE | where FILE X Y | log FILE RUN.csv\n       zones draw FILE OUT.png | records FILE | words FILE\nTry zones --help.\n",
    );
    let no_command = |word: &str, hint: &str| {
        let said = format!("zones: there is no command {word}{hint}\nTry zones --help.\n");
        ends(&run(&[word]), UNUSABLE, &said);
    };
    no_command("chek", "; did you mean zones check?");
    no_command("wrods", "; did you mean zones words?");
    no_command("frobnicate", "");
    no_command("--hlep", "");
    let usage = |name: &str| {
        let help = String::from_utf8(done(&[name, "--help"])).expect("text");
        help.split("\n\n").next().expect("lines").to_string()
    };
    let wrong = |words: &[&str], said: &str| {
        let name = words[0];
        let said = format!(
            "zones {name}: {said}\n{}\nTry zones {name} --help.\n",
            usage(name)
        );
        ends(&run(words), UNUSABLE, &said);
    };
    wrong(&["draw"], "FILE is missing");
    wrong(&["draw", "a"], "OUT.png is missing");
    wrong(&["where", "a", "1"], "Y is missing");
    wrong(&["check", "a", "b"], "b is one word too many");
    wrong(
        &["draw", "a", "b", "--sise", "5"],
        "there is no option --sise; did you mean --size?",
    );
    wrong(
        &["check", "a", "--treshold=5"],
        "there is no option --treshold; did you mean --threshold?",
    );
    wrong(&["check", "a", "-o", "b"], "there is no option -o");
    wrong(
        &["check", "a", "--frobnicate"],
        "there is no option --frobnicate",
    );
    wrong(
        &["draw", "a", "b", "--size"],
        "--size needs a value: --size W or WxH",
    );
    wrong(&["records", "a", "-o"], "-o needs a value: -o OUT");
    wrong(&["draw", "a", "b", "--cells=1"], "--cells takes no value");
    wrong(
        &["draw", "a", "b", "--cells", "--cells"],
        "--cells is given twice",
    );
    wrong(
        &["records", "a", "-o", "b", "--output=c"],
        "--output is given twice",
    );
    wrong(
        &["where", "a", "-5", "3"],
        "X: a number from 0 to 65,535 is expected, not -5",
    );
    wrong(
        &["where", "a", "3", "4294967296"],
        "Y: a number from 0 to 65,535 is expected, not 4294967296",
    );
    wrong(
        &["where", "a", "3", ""],
        "Y: a number from 0 to 65,535 is expected, not nothing",
    );
    wrong(
        &["check", "a", "--limit", "17"],
        "--limit: a number from 0 to 16 is expected, not 17",
    );
    wrong(
        &["check", "a", "--threshold", "-1"],
        "--threshold: a number from 0 to 4,294,967,295 is expected, not -1",
    );
    let size = "--size: W or WxH, each a number from 1 to 65,536, is expected";
    for value in ["0", "10x", "x10", "65537", "10x10x10", "1e3"] {
        wrong(
            &["draw", "a", "b", "--size", value],
            &format!("{size}, not {value}"),
        );
    }
    wrong(
        &["draw", "a", "b", "--part", "1,2,3"],
        "--part: X,Y,WIDTH,HEIGHT in units is expected, not 1,2,3",
    );
    wrong(
        &["draw", "a", "b", "--part", "65536,2,3,4"],
        "--part: X: a number from 0 to 65,535 is expected, not 65536",
    );
    wrong(
        &["draw", "a", "b", "--part", "1,2,0,4"],
        "--part: WIDTH from 1 on: a number from 1 to 65,535 is expected, not 0",
    );
    wrong(
        &["draw", "a", "b", "--part", "1,65535,1,2"],
        "--part: HEIGHT from 65535 on: a number from 1 to 1 is expected, not 2",
    );
    wrong(
        &["log", "-", "-"],
        "standard input is one file: FILE and RUN.csv cannot both be -",
    );
    let quarter = temporary("read_and_written.zones", &sample("quarter.zones"));
    let same = format!("{quarter} is read; give another file to write");
    wrong(&["words", &quarter, "-o", &quarter], &same);
    wrong(&["draw", &quarter, &quarter, "--size", "1"], &same);
    assert_eq!(fs::read(&quarter).expect("a file"), sample("quarter.zones"));
}

#[test]
fn files_that_cannot_be_read_or_written() {
    for words in [
        &["check", "no/such"][..],
        &["where", "no/such", "1", "2"],
        &["log", "no/such", "-"],
        &["words", "no/such"],
    ] {
        ends(&run(words), UNUSABLE, "zones: there is no file no/such\n");
    }
    ends(
        &run(&["log", "samples/pit.zones", "no/such"]),
        UNUSABLE,
        "zones: there is no file no/such\n",
    );
    ends(
        &run(&["check", "samples"]),
        UNUSABLE,
        "zones: samples: Is a directory\n",
    );
    let unwritten = "zones: no/such cannot be written: No such file or directory\n";
    ends(
        &run(&["records", "samples/pit.txt", "-o", "no/such"]),
        UNUSABLE,
        unwritten,
    );
    ends(
        &run(&["draw", "samples/pit.txt", "no/such", "--size", "1"]),
        UNUSABLE,
        unwritten,
    );
    ends(
        &run(&["check", "/dev/zero"]),
        UNUSABLE,
        "zones: /dev/zero has over 16 MB, which this command does not take\n",
    );
    // A drawing that is refused: no picture is begun.
    let picture = scratch("none.png");
    _ = fs::remove_file(&picture);
    assert_eq!(
        run(&["draw", "samples/refused.zones", &picture]).status,
        REFUSED
    );
    assert!(fs::metadata(&picture).is_err());
    for full in [
        &["words", "samples/pit.zones"][..],
        &["draw", "samples/pit.zones", "-", "--part", "0,0,9,9"],
    ] {
        let file = fs::File::options()
            .write(true)
            .open("/dev/full")
            .expect("/dev/full");
        let ran = command(full).stdout(file).output().expect("it runs");
        assert_eq!(ran.status.code(), Some(UNUSABLE));
        assert_eq!(
            ran.stderr,
            b"zones: standard output: No space left on device\n"
        );
    }
}

/// The reader has closed the pipe before the command writes: no message, no panic.
#[test]
fn closed_pipes() {
    for words in [
        &["words", "-"][..],
        &["records", "-"],
        &["check", "-"],
        &["where", "-", "1", "2"],
        &["log", "-", "README.md"],
        &["draw", "-", "-", "--part", "0,0,100,100"],
    ] {
        let run = temporary("closed.csv", b"1,2\n");
        let words: Vec<&str> = words
            .iter()
            .map(|word| if *word == "README.md" { &run } else { *word })
            .collect();
        let mut child = command(&words);
        child
            .stdin(Stdio::piped())
            .stdout(Stdio::piped())
            .stderr(Stdio::piped());
        let mut child = child.spawn().expect("it runs");
        drop(child.stdout.take());
        std::io::Write::write_all(
            &mut child.stdin.take().expect("a pipe"),
            &sample("pit.zones"),
        )
        .expect("it is read");
        let output = child.wait_with_output().expect("it ends");
        assert_eq!(
            (output.status.code(), output.stderr),
            (Some(DONE), vec![]),
            "{words:?}"
        );
    }
}

#[test]
fn no_bytes_to_a_terminal() {
    for (words, what) in [
        (&["records", "samples/pit.txt"][..], "records are not written to a terminal: give -o FILE, or send them to a file or a program"),
        (&["draw", "samples/pit.txt", "-"], "pictures are not written to a terminal: name a file, or send them to a file or a program"),
    ] {
        let ran = python("terminal.py", &[&[common::ZONES], words].concat());
        assert_eq!((ran.text(), ran.status), (format!("zones: {what}\r\n").as_str(), UNUSABLE));
    }
    let words = python(
        "terminal.py",
        &[common::ZONES, "words", "samples/quarter.zones"],
    );
    assert_eq!((words.status, words.text().lines().count()), (DONE, 2));
}

/// Bytes and words that are mixed up: always one of the three exit statuses, and never a panic.
#[test]
fn any_input() {
    let mut state: u64 = 77;
    let mut below = |end: usize| {
        state = state
            .wrapping_mul(6_364_136_223_846_793_005)
            .wrapping_add(1_442_695_040_888_963_407);
        (state >> 33) as usize % end
    };
    let texts = SAMPLES.map(|name| {
        [
            sample(&format!("{name}.txt")),
            sample(&format!("{name}.zones")),
        ]
        .concat()
    });
    for round in 0..120 {
        let source = &texts[below(texts.len())];
        let from = below(source.len());
        let mut input = source[from..(from + below(3_000)).min(source.len())].to_vec();
        for _ in 0..below(6) {
            let at = below(input.len() + 1);
            let byte = [b'\n', b' ', b',', b'#', 0, 255, 0xC3, b'9', b'('][below(9)];
            input.insert(at, byte);
        }
        let words: &[&str] = match round % 6 {
            0 => &["check", "-"],
            1 => &["words", "-"],
            2 => &["records", "-", "--unchecked"],
            3 => &["words", "-", "--unchecked"],
            4 => &["log", "samples/quarter.zones", "-"],
            _ => &["where", "-", "7", "7"],
        };
        let ran = fed(words, &input);
        assert!(
            [DONE, REFUSED].contains(&ran.status),
            "{words:?} {}",
            ran.said
        );
        assert_eq!(ran.status == DONE, ran.said.is_empty(), "{words:?}");
        assert!(!ran.said.contains("panicked"), "{}", ran.said);
    }
}
