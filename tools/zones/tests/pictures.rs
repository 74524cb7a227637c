//! Pictures, decoded by python3's zlib and compared with what the library gives.

mod common;

use std::fs;

use common::{done, python, run, sample, scratch};
use zones::{Map, PIXEL_BYTES, PIXEL_UNITS};
use zones_tools::png::{self, Dot};

/// A picture as the decoder gives it, its rows from the top on.
#[derive(PartialEq, Eq, Debug)]
struct Picture {
    width: usize,
    dots: Vec<Dot>,
}

impl Picture {
    fn height(&self) -> usize {
        self.dots.len() / self.width
    }

    /// A dot, counted from the lowest row.
    fn dot(&self, x: usize, y: usize) -> Dot {
        self.dots[(self.height() - 1 - y) * self.width + x]
    }
}

fn decoded(files: &[String]) -> Vec<Picture> {
    let files: Vec<&str> = files.iter().map(String::as_str).collect();
    let ran = python("decode.py", &files);
    assert_eq!((ran.status, ran.said.as_str()), (0, ""));
    let mut rest = &ran.out[..];
    let mut pictures = Vec::new();
    while !rest.is_empty() {
        let line = rest.iter().position(|byte| *byte == b'\n').expect("a line");
        let sizes = str::from_utf8(&rest[..line]).expect("text");
        let sizes: Vec<usize> = sizes.split(' ').map(|n| n.parse().expect("size")).collect();
        let (bytes, after) = rest[line + 1..].split_at(3 * sizes[0] * sizes[1]);
        pictures.push(Picture {
            width: sizes[0],
            dots: bytes.as_chunks().0.to_vec(),
        });
        rest = after;
    }
    assert_eq!(pictures.len(), files.len());
    pictures
}

/// Numbers that look random.
fn noise(state: &mut u64) -> u8 {
    *state = state
        .wrapping_mul(6_364_136_223_846_793_005)
        .wrapping_add(1_442_695_040_888_963_407);
    (*state >> 56) as u8
}

fn noisy(width: usize, height: usize, values: u8) -> Picture {
    let mut state = (width * 70_000 + height) as u64;
    let mut dot = || [(); 3].map(|()| noise(&mut state) % values * (255 / values.max(1)));
    Picture {
        width,
        dots: (0..width * height).map(|_| dot()).collect(),
    }
}

/// Each dot another colour, all 65,536 of them.
fn all_different() -> Picture {
    let dot = |n: u32| [(n >> 8) as u8, n as u8, (n >> 4) as u8];
    Picture {
        width: 256,
        dots: (0..65_536).map(dot).collect(),
    }
}

/// Runs of each length: rows of one colour that differ from the one above in a few dots.
fn runs(width: usize, height: usize) -> Picture {
    let dot = |n: usize| match n % width == n / width || n.is_multiple_of(97) {
        true => [200, 100, n as u8],
        false => [10, 10, (n / width / 7) as u8],
    };
    Picture {
        width,
        dots: (0..width * height).map(dot).collect(),
    }
}

#[test]
fn pictures_of_all_sizes_are_decoded() {
    let mut pictures = vec![all_different(), runs(301, 201), noisy(700, 700, 255)];
    for (width, height) in [(1, 1), (1, 9), (9, 1), (3, 5), (7, 3), (85, 4), (86, 4)] {
        for values in [1, 2, 255] {
            pictures.push(noisy(width, height, values));
        }
    }
    // On both sides of the farthest distance at which a row above can be repeated.
    for width in [10_921, 10_922, 10_923, 12_000] {
        pictures.push(runs(width, 3));
        pictures.push(noisy(width, 2, 1));
    }
    let mut files = Vec::new();
    for (picture, number) in pictures.iter().zip(0..) {
        let file = scratch(&format!("size_{number}.png"));
        let bytes = png::encode(picture.width, &picture.dots);
        fs::write(&file, bytes).expect("a file");
        files.push(file);
    }
    for (found, (made, file)) in decoded(&files).iter().zip(pictures.iter().zip(&files)) {
        assert!(found == made, "{file}");
    }
}

#[test]
fn a_long_picture_is_several_chunks() {
    let picture = noisy(900, 700, 255);
    let bytes = png::encode(picture.width, &picture.dots);
    let chunks = bytes.windows(4).filter(|name| name == b"IDAT").count();
    assert!(chunks > 1, "{chunks}");
    let file = scratch("chunks.png");
    fs::write(&file, bytes).expect("a file");
    assert!(decoded(&[file]) == [picture]);
}

/// A part of a map drawn with so many dots.
struct View {
    part: [u32; 4],
    size: [u32; 2],
}

impl View {
    /// The command's picture is written to a file.
    fn draw(&self, drawing: &str, file: &str, more: &[&str]) {
        let part = self.part.map(|number| number.to_string()).join(",");
        let size = self.size.map(|number| number.to_string()).join("x");
        let words = ["draw", drawing, file, "--part", &part, "--size", &size];
        let out = done(&[&words[..], more].concat());
        assert_eq!(out, b"");
    }

    /// What a dot must be, dot by dot: no sums are kept from one to the next.
    fn dot(&self, map: &Map, x: u32, y: u32) -> Dot {
        let [first_x, first_y, width, height] = self.part;
        let [wide, high] = self.size;
        if width < PIXEL_UNITS * wide && height < PIXEL_UNITS * high {
            let middle = |first: u32, dot: u32, units: u32, dots: u32| {
                (f64::from(first) + (f64::from(dot) + 0.5) * f64::from(units) / f64::from(dots))
                    as u32
            };
            let at = (
                middle(first_x, x, width, wide),
                middle(first_y, y, height, high),
            );
            return map.position(at.0, at.1).expect("a position").colour;
        }
        let mut sums = [0; PIXEL_BYTES];
        for (row, high) in covers(first_y, y, height, high) {
            for (pixel, wide) in covers(first_x, x, width, wide) {
                let mut out = [0; PIXEL_BYTES];
                map.pixel_row(row, pixel, &mut out).expect("a pixel");
                for (sum, channel) in sums.iter_mut().zip(out) {
                    *sum += high * wide * u64::from(channel);
                }
            }
        }
        let all = u64::from(width) * u64::from(height);
        sums.map(|sum| ((sum + all / 2) / all) as u8)
    }
}

/// The pixels that a dot covers, and how much of each, in parts of a unit as small as there are dots.
fn covers(first: u32, dot: u32, units: u32, dots: u32) -> Vec<(u32, u64)> {
    let [first, dot, units, dots] = [first, dot, units, dots].map(u64::from);
    let (begin, end) = (first * dots + dot * units, first * dots + (dot + 1) * units);
    let side = u64::from(PIXEL_UNITS) * dots;
    let part = |pixel: u64| {
        end.min((pixel + 1) * side)
            .saturating_sub(begin.max(pixel * side))
    };
    let pixels = (first / 16..4_096).map(|pixel| (pixel as u32, part(pixel)));
    pixels
        .skip_while(|(_, part)| *part == 0)
        .take_while(|(_, part)| *part > 0)
        .collect()
}

#[test]
fn dots_are_what_the_library_gives() {
    let views = [
        // A dot is a pixel.
        ("pit", [40_000, 28_000, 1_600, 1_200], [100, 75]),
        // Two by three pixels.
        ("berms", [23_008, 24_000, 3_200, 2_400], [100, 50]),
        // Dots that cover pixels in part.
        ("berms", [43_003, 36_001, 1_601, 1_203], [37, 28]),
        ("pit", [43_003, 29_001, 1_601, 1_203], [99, 75]),
        // One dot, of many pixels, of one position.
        ("full", [1_000, 1_000, 3_001, 2_999], [1, 1]),
        ("pit", [44_000, 30_100, 1, 1], [1, 1]),
        // Dots smaller than a pixel, than a unit.
        ("pit", [43_900, 30_000, 200, 90], [81, 77]),
        ("berms", [25_000, 25_000, 10, 6], [53, 7]),
        // Wide dots of little height: pixels again.
        ("pit", [43_000, 30_000, 3_200, 100], [50, 20]),
        // The far corner of the grid.
        ("quarter", [65_000, 65_000, 536, 536], [31, 31]),
        ("pit", [65_535, 65_535, 1, 1], [5, 3]),
        ("quarter", [32_700, 32_700, 133, 133], [133, 7]),
    ];
    let mut files = Vec::new();
    for (number, (name, part, size)) in views.into_iter().enumerate() {
        let file = scratch(&format!("view_{number}.png"));
        View { part, size }.draw(&format!("samples/{name}.txt"), &file, &[]);
        files.push(file);
    }
    for ((name, part, size), picture) in views.into_iter().zip(decoded(&files)) {
        let view = View { part, size };
        let map = Map::grown(&sample(&format!("{name}.zones")), 1, 9).expect("a drawing");
        assert_eq!([picture.width, picture.height()], size.map(|n| n as usize));
        for y in 0..size[1] {
            for x in 0..size[0] {
                let dot = picture.dot(x as usize, y as usize);
                assert_eq!(
                    dot,
                    view.dot(&map, x, y),
                    "{name} {part:?} {size:?}: {x}, {y}"
                );
            }
        }
    }
}

/// docs/berms.png has 128 units to a dot, and so has this part of it.
#[test]
fn the_picture_of_the_berms() {
    let view = View {
        part: [32_768, 32_768, 8_192, 8_192],
        size: [64, 64],
    };
    let file = scratch("berms_part.png");
    view.draw("samples/berms.zones", &file, &[]);
    let whole = common::top().join("docs/berms.png");
    let whole = whole.to_str().expect("a path in UTF-8").to_string();
    let pictures = decoded(&[file, whole]);
    assert_eq!(pictures[1].width, 512);
    for y in 0..64 {
        for x in 0..64 {
            assert_eq!(pictures[0].dot(x, y), pictures[1].dot(256 + x, 256 + y));
        }
    }
}

/// How far the colour of a line is from what it is drawn over, at least.
const CONTRAST: u8 = 40;

#[test]
fn lines_of_cells() {
    let part = [38_000, 22_000, 16_000, 12_000];
    let view = View {
        part,
        size: [160, 120],
    };
    let files = ["plain.png", "lined.png"].map(scratch);
    let tree = ["--threshold", "1", "--limit", "6"];
    view.draw("samples/pit.zones", &files[0], &tree);
    view.draw(
        "samples/pit.zones",
        &files[1],
        &[&tree[..], &["--cells"]].concat(),
    );
    let pictures = decoded(&files);
    let map = Map::grown(&sample("pit.zones"), 1, 6).expect("a drawing");
    // A dot of 100 units has a line where the squares of its low corner's unit and of the unit before are two leaves.
    let leaf = |x: u32, y: u32| map.find_leaf(x, y).expect("a leaf").cell;
    let mut lined = 0;
    for (x, y) in (0..160).flat_map(|x| (0..120).map(move |y| (x, y))) {
        let [left, low] = [part[0] + 100 * x, part[1] + 100 * y];
        let [right, high] = [left + 99, low + 99];
        let corners = [
            leaf(left, low),
            leaf(right, low),
            leaf(left, high),
            leaf(right, high),
        ];
        let begins =
            leaf(left - 1, low) != leaf(left, low) || leaf(left, low - 1) != leaf(left, low);
        let several = corners.iter().any(|cell| *cell != corners[0]);
        let [plain, over] = [0, 1].map(|n: usize| pictures[n].dot(x as usize, y as usize));
        if several {
            lined += 1;
            let far = plain
                .iter()
                .zip(over)
                .map(|(one, other)| one.abs_diff(other));
            assert!(far.max() >= Some(CONTRAST), "{x}, {y}: {plain:?} {over:?}");
        } else if !begins {
            assert_eq!(plain, over, "{x}, {y}");
        }
    }
    assert!(lined > 500, "{lined}");
}

/// The one cell of an empty drawing: its four sides, at the edge of the picture.
#[test]
fn the_edge_of_the_grid() {
    let empty = scratch("empty.txt");
    fs::write(&empty, "# nothing\n").expect("a file");
    let file = scratch("edge.png");
    let corner = View {
        part: [65_436, 65_436, 100, 100],
        size: [10, 10],
    };
    corner.draw(&empty, &file, &["--cells"]);
    let pictures = decoded(&[file]);
    for (x, y) in (0..10).flat_map(|x| (0..10).map(move |y| (x, y))) {
        let white = pictures[0].dot(x, y) == [255; 3];
        assert_eq!(white, x < 9 && y < 9, "{x}, {y}");
    }
}

#[test]
fn sizes() {
    let draw = |more: &[&str]| {
        let file = scratch("sized.png");
        let words = ["draw", "samples/quarter.zones", &file, "--part"];
        done(&[&words[..], more].concat());
        let picture = &decoded(&[file])[0];
        (picture.width, picture.height())
    };
    assert_eq!(draw(&["0,0,2048,1024"]), (512, 256));
    assert_eq!(draw(&["0,0,1000,1", "--size", "20"]), (20, 1));
    assert_eq!(draw(&["0,0,30,20", "--size=10"]), (10, 7));
    assert_eq!(draw(&["0,0,30,20", "--size=10x3"]), (10, 3));
}

/// A picture on standard output is the one that is written to a file; nothing else is written where no terminal is.
#[test]
fn a_picture_on_standard_output() {
    let file = scratch("same.png");
    let part = ["--part", "20000,20000,8192,8192", "--size", "64"];
    done(&[&["draw", "samples/pit.zones", &file], &part[..]].concat());
    let out = done(&[&["draw", "samples/pit.zones", "-"], &part[..]].concat());
    assert!(out == fs::read(&file).expect("the picture"));
}

#[test]
fn a_bar_on_a_terminal() {
    let file = scratch("bar.png");
    let words = ["draw", "samples/pit.zones", &file, "--part", "0,0,512,512"];
    let on_terminal = python("terminal.py", &[&[common::ZONES], &words[..]].concat());
    assert_eq!(on_terminal.status, 0);
    let text = on_terminal.text();
    assert!(
        text.starts_with("\r[-----") && text.contains("]   0%"),
        "{text}"
    );
    assert!(text.ends_with("\r\u{1b}[K"), "{text}");
    let elsewhere = run(&words);
    assert_eq!((elsewhere.status, elsewhere.said.as_str()), (0, ""));
}
