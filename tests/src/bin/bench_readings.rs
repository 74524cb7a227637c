//! Times positions, pixel rows and zone logs of the library on drawings of 64 areas and 2,048 corners, each with a
//! tree grown until it is full, against three plain readings in Rust: with no tree, with the same
//! tree and nothing checked, and with the same tree and all checked that 12 asks for.

use std::hint::black_box;
use std::time::{Duration, Instant};

use zones_tests::class::WHOLE_SIDE;
use zones_tests::drawing::{
    AREA, AREA_WORDS, BAR, CLIP, CLOSE, FIRST, MOST_AREAS, MOST_CORNERS, MOST_GROUPS, MOST_RECORDS,
    NEXT, OPEN, PAINT,
};
use zones_tests::meaning::{fill_passes, pixel, rounded, samples, Drawing, MOST_POSITION, OPAQUE};
use zones_tests::query::CHANNELS;
use zones_tests::random::Random;
use zones_tests::readings::{SHOWN_WORDS, SPOT_WORDS};
use zones_tests::record::{area, clip, corner, delimiter, Record};
use zones_tests::samples::{self, Tables};
use zones_tests::scenes;
use zones_tests::stream::{ENTRY_WORDS, MOST_START};
use zones_tests::tree::{Tree, TreeTables, CELL_WORDS, MOST_CELLS, MOST_DEPTH, MOST_ENTRIES};
use zones_tests::zones::{self, Answer};

// ---- the drawing ----

/// Where 64 areas lie: the grid in equal places, so many to a row, and about how far the corners of an
/// area are from the middle of its place.
struct Layout {
    columns: u32,
    rows: u32,
    wide: f64,
    high: f64,
}

impl Layout {
    /// A contour of 32 corners around the middle of a place.
    fn contour(&self, random: &mut Random, place: u32, records: &mut Vec<Record>) {
        let middle = |n: u32, of: u32| (f64::from(n) + 0.5) * 65_536.0 / f64::from(of);
        let x = middle(place % self.columns, self.columns);
        let y = middle(place / self.columns % self.rows, self.rows);
        for i in 0..32 {
            let angle = f64::from(i) / 32.0 * std::f64::consts::TAU;
            let far = random.within(85..=115) as f64 / 100.0;
            let at = |middle: f64, far: f64| (middle + far).clamp(0.0, 65_536.0) as u32;
            let x = at(x, self.wide * far * angle.cos());
            let y = at(y, self.high * far * angle.sin());
            let kind = if i == 0 { FIRST } else { NEXT };
            records.push(corner(kind, x, y));
        }
    }

    /// 64 areas: three at the top level, then a group of a clip area and a paint area, and so on.
    fn drawing(&self, random: &mut Random) -> Vec<Record> {
        let mut records = Vec::new();
        let paint = |random: &mut Random, records: &mut Vec<Record>, n: u32| {
            let alpha = random.pick(&[255, 255, 200, 128]);
            let colour = [random.byte(), random.byte(), random.byte()];
            records.push(area(PAINT, (n % 2) as u8, alpha, colour, n as u16 + 1));
            self.contour(random, n, records);
        };
        for n in 0..64 {
            match n % 8 {
                6 => {
                    records.push(delimiter(OPEN));
                    records.push(clip());
                    self.contour(random, n, &mut records);
                    records.push(delimiter(BAR));
                }
                7 => {
                    paint(random, &mut records, n);
                    records.push(delimiter(CLOSE));
                }
                _ => paint(random, &mut records, n),
            }
        }
        records
    }
}

// ---- what both plain readings share ----

/// Document 000's flat clipping: P, S and SA.
#[derive(Clone, Copy, PartialEq, Eq)]
enum State {
    P,
    S,
    SA,
}

struct Machine {
    state: State,
    depth: u32,
    stop: u32,
    set: u64,
}

impl Machine {
    fn new() -> Machine {
        Machine {
            state: State::P,
            depth: 0,
            stop: 0,
            set: 0,
        }
    }

    fn open(&mut self) {
        self.depth += 1;
    }

    fn bar(&mut self) {
        match self.state {
            State::P => (self.state, self.stop) = (State::SA, self.depth),
            State::S if self.depth <= self.stop => self.state = State::P,
            _ => {}
        }
    }

    fn close(&mut self) {
        match self.state {
            State::S if self.depth <= self.stop => self.stop = self.depth - 1,
            State::SA if self.depth <= self.stop => self.state = State::P,
            _ => {}
        }
        self.depth -= 1;
    }

    fn clip_passes(&mut self) {
        (self.state, self.stop) = (State::S, self.depth);
    }

    /// An area that passes; whether it is the last that shows.
    fn passes(&mut self, row: &[u32; AREA_WORDS], number: u32) -> bool {
        if row[0] == CLIP {
            self.clip_passes();
            return false;
        }
        self.set |= 1 << number;
        row[2] == OPAQUE
    }
}

/// The words of a reading: the set, its material and its colour.
fn words(areas: &[[u32; AREA_WORDS]], set: u64) -> [u32; SHOWN_WORDS] {
    let [red, green, blue] = rounded(channel_sums(areas, set));
    let (low, high) = (set as u32, (set >> 32) as u32);
    [low, high, material(areas, set), red, green, blue]
}

fn material(areas: &[[u32; AREA_WORDS]], set: u64) -> u32 {
    match set {
        0 => 0,
        _ => areas[set.trailing_zeros() as usize][6],
    }
}

/// The channels before their rounding.
fn channel_sums(areas: &[[u32; AREA_WORDS]], set: u64) -> [u32; CHANNELS] {
    let (mut left, mut sums, mut rest) = (255, [0; CHANNELS], set);
    while rest != 0 {
        let [_, _, alpha, red, green, blue, ..] = areas[rest.trailing_zeros() as usize];
        rest &= rest - 1;
        let weight = (left * alpha + 127) / 255;
        left -= weight;
        for (sum, channel) in sums.iter_mut().zip([red, green, blue]) {
            *sum += weight * channel;
        }
    }
    sums.map(|sum| sum + left * 255)
}

/// An edge from its lower end on.
#[derive(Clone, Copy)]
struct Edge {
    x: i32,
    low: i32,
    high: i32,
    wide: i32,
    sign: i32,
}

impl Edge {
    fn new(from: (u32, u32), to: (u32, u32)) -> Edge {
        let sign = if from.1 < to.1 { 1 } else { -1 };
        let ((a, b), (c, d)) = if from.1 < to.1 {
            (from, to)
        } else {
            (to, from)
        };
        Edge {
            x: a as i32,
            low: b as i32,
            high: d as i32,
            wide: c as i32 - a as i32,
            sign,
        }
    }

    fn adds(&self, x: i32, y: i32) -> i32 {
        if y < self.low || y >= self.high {
            return 0;
        }
        let across = i64::from(self.x - x) * i64::from(self.high - self.low);
        let along = i64::from(y - self.low) * i64::from(self.wide);
        i32::from(across + along > 0) * self.sign
    }
}

// ---- with no tree ----

/// An area with the box around its edges. At a position outside it the sum is 0.
struct Outline {
    x: (i32, i32),
    y: (i32, i32),
    edges: Vec<Edge>,
}

impl Outline {
    fn winding(&self, x: i32, y: i32) -> i32 {
        if y < self.y.0 || y >= self.y.1 || x < self.x.0 || x >= self.x.1 {
            return 0;
        }
        self.edges.iter().map(|edge| edge.adds(x, y)).sum()
    }
}

enum Token {
    Open,
    Bar,
    Close,
    Area(u32),
}

/// The drawing made ready for a scan: no part of what is timed.
struct Scan<'a> {
    tokens: Vec<Token>,
    areas: &'a [[u32; AREA_WORDS]],
    outlines: Vec<Outline>,
}

impl Scan<'_> {
    fn new(tables: &Tables) -> Scan<'_> {
        let mut contours: Vec<Vec<Vec<(u32, u32)>>> = Vec::new();
        let mut tokens = Vec::new();
        let mut corners = tables.xs.iter().copied().zip(tables.ys.iter().copied());
        for kind in Drawing::of(tables).kinds() {
            match kind {
                AREA => {
                    tokens.push(Token::Area(contours.len() as u32));
                    contours.push(Vec::new());
                }
                OPEN => tokens.push(Token::Open),
                BAR => tokens.push(Token::Bar),
                CLOSE => tokens.push(Token::Close),
                _ => {
                    let of_area = contours.last_mut().expect("a corner has an area");
                    if kind == FIRST {
                        of_area.push(Vec::new());
                    }
                    let contour = of_area.last_mut().expect("a contour begins");
                    contour.push(corners.next().expect("as many corners as kinds"));
                }
            }
        }
        Scan {
            tokens,
            areas: tables.areas.as_chunks().0,
            outlines: contours.iter().map(|area| outline(area)).collect(),
        }
    }

    fn shown(&self, x: u32, y: u32) -> u64 {
        let mut machine = Machine::new();
        for token in &self.tokens {
            match token {
                Token::Open => machine.open(),
                Token::Bar => machine.bar(),
                Token::Close => machine.close(),
                Token::Area(n) if machine.state == State::P => {
                    let row = &self.areas[*n as usize];
                    let winding = self.outlines[*n as usize].winding(x as i32, y as i32);
                    if fill_passes(row[1], winding) && machine.passes(row, *n) {
                        break;
                    }
                }
                Token::Area(_) => {}
            }
        }
        machine.set
    }
}

fn outline(contours: &[Vec<(u32, u32)>]) -> Outline {
    let corners = contours.iter().flatten();
    let range = |of: fn(&(u32, u32)) -> u32| {
        let least = corners.clone().map(of).min().unwrap_or(0);
        let most = corners.clone().map(of).max().unwrap_or(0);
        (least as i32, most as i32)
    };
    let edges = contours.iter().flat_map(|contour| {
        let next = contour.iter().cycle().skip(1);
        contour
            .iter()
            .zip(next)
            .map(|(from, to)| Edge::new(*from, *to))
    });
    Outline {
        x: range(|corner| corner.0),
        y: range(|corner| corner.1),
        edges: edges.filter(|edge| edge.low < edge.high).collect(),
    }
}

// ---- with the tree, nothing checked ----

struct Plain<'a> {
    drawing: Drawing<'a>,
    areas: &'a [[u32; AREA_WORDS]],
    cells: &'a [[u32; CELL_WORDS]],
    entries: &'a [[u32; ENTRY_WORDS]],
}

impl<'a> Plain<'a> {
    fn new(tables: &'a Tables, tree: Tree<'a>) -> Plain<'a> {
        Plain {
            drawing: Drawing::of(tables),
            areas: tables.areas.as_chunks().0,
            cells: tree.cells.as_chunks().0,
            entries: tree.entries.as_chunks().0,
        }
    }

    fn leaf(&self, x: u32, y: u32) -> &'a [u32; CELL_WORDS] {
        let mut cell = &self.cells[0];
        loop {
            let [low_x, low_y, side, child, ..] = *cell;
            if child == 0 {
                return cell;
            }
            let half = side / 2;
            let quarter = u32::from(x >= low_x + half) + 2 * u32::from(y >= low_y + half);
            cell = &self.cells[(child + quarter) as usize];
        }
    }

    fn edge(&self, from: u32, to: u32) -> Edge {
        let corner = |n: u32| (self.drawing.xs[n as usize], self.drawing.ys[n as usize]);
        Edge::new(corner(from), corner(to))
    }

    fn shown_in(&self, leaf: &[u32; CELL_WORDS], x: u32, y: u32) -> u64 {
        let stream = &self.entries[leaf[4] as usize..][..leaf[5] as usize];
        let mut machine = Machine::new();
        let mut at = 0;
        while at < stream.len() {
            let [kind, p, q, _] = stream[at];
            at += 1;
            match kind {
                1 => machine.open(),
                2 => machine.bar(),
                3 => machine.close(),
                4 if machine.state == State::P => {
                    let mut winding = q as i32;
                    while at < stream.len() {
                        let [kind, p, q, r] = stream[at];
                        winding += match kind {
                            5 => self.edge(p, q).adds(x as i32, y as i32),
                            6 => i32::from(q <= y && y < r) * p as i32,
                            _ => break,
                        };
                        at += 1;
                    }
                    let row = &self.areas[p as usize];
                    if fill_passes(row[1], winding) && machine.passes(row, p) {
                        break;
                    }
                }
                7 if machine.state == State::P => machine.clip_passes(),
                _ => {}
            }
        }
        machine.set
    }
}

// ---- with the tree, all checked that is met ----

impl<'a> Plain<'a> {
    /// The leaf at a position, if the numbers in use, the path down and the whole leaf pass 12.
    fn checked_leaf(&self, head: &[u32], x: u32, y: u32) -> Option<&'a [u32; CELL_WORDS]> {
        let [_, areas, corners, ..] = *self.drawing.plan else {
            return None;
        };
        let [cells, entries, ..] = *head else {
            return None;
        };
        let in_use = (1..=self.cells.len().min(MOST_CELLS)).contains(&(cells as usize))
            && entries as usize <= self.entries.len().min(MOST_ENTRIES)
            && areas as usize <= self.areas.len().min(MOST_AREAS)
            && corners as usize <= self.drawing.xs.len().min(MOST_CORNERS);
        if !in_use {
            return None;
        }
        let (mut number, mut from, mut square) = (0, 0, (0, 0, WHOLE_SIDE));
        loop {
            let cell = &self.cells[number as usize];
            let [low_x, low_y, side, child, first, count, _, parent] = *cell;
            let last = u64::from(child) + 3;
            // The cell that the path comes from holds it; another may too.
            let held = parent == from || number > 0 && self.holds(cells, parent, number, square);
            if (low_x, low_y, side) != square
                || u64::from(first) + u64::from(count) > u64::from(entries)
                || !held
            {
                return None;
            }
            if child == 0 {
                return self.stream_passes(cell).then_some(cell);
            }
            if side == 1 || last >= u64::from(cells) {
                return None;
            }
            let half = side / 2;
            let (right, upper) = (u32::from(x >= low_x + half), u32::from(y >= low_y + half));
            (number, from) = (child + right + 2 * upper, number);
            square = (low_x + half * right, low_y + half * upper, half);
        }
    }

    /// Whether a cell is split, with its four in use, and holds another on its square.
    fn holds(&self, cells: u32, parent: u32, number: u32, (x, y, side): (u32, u32, u32)) -> bool {
        if parent >= cells {
            return false;
        }
        let [around_x, around_y, around_side, child, ..] = self.cells[parent as usize];
        let which = number.wrapping_sub(child);
        let low = |at: u32, high: u32| at.checked_sub(side * high);
        child != 0
            && which < 4
            && u64::from(child) + 3 < u64::from(cells)
            && around_side == 2 * side
            && low(x, which & 1) == Some(around_x)
            && low(y, which >> 1) == Some(around_y)
    }

    fn stream_passes(&self, leaf: &[u32; CELL_WORDS]) -> bool {
        let [_, low, side, _, first, count, lines, _] = *leaf;
        let stream = &self.entries[first as usize..][..count as usize];
        let [areas_used, corners_used] = [self.drawing.plan[1], self.drawing.plan[2]];
        // Two bits for each open group, the innermost lowest: the role of the side that it stands
        // on, and whether its bar was met.
        let (mut groups, mut depth, mut areas, mut segments) = (0_u32, 0, 0, 0);
        let mut lines_met = 0;
        let mut after_area = false;
        let corner = |n: u32| {
            n < corners_used
                && self.drawing.xs[n as usize] <= WHOLE_SIDE
                && self.drawing.ys[n as usize] <= WHOLE_SIDE
        };
        for [kind, p, q, r] in stream.iter().copied() {
            let role = match (depth, groups & 3) {
                (0, _) | (_, 1) => PAINT,
                _ => CLIP,
            };
            let fits = match kind {
                1 => {
                    groups = groups << 2 | role << 1;
                    depth += 1;
                    depth <= MOST_GROUPS
                }
                2 => {
                    let on_left = depth > 0 && groups & 1 == 0;
                    groups |= 1;
                    on_left
                }
                3 => {
                    let on_right = depth > 0 && groups & 1 == 1;
                    groups >>= 2;
                    depth = depth.saturating_sub(1);
                    on_right
                }
                4 => {
                    areas += 1;
                    areas <= MOST_AREAS
                        && p < areas_used
                        && area_passes(&self.areas[p as usize], role)
                        && (-MOST_START..=MOST_START).contains(&(q as i32))
                }
                5 => {
                    segments += 1;
                    lines_met += 1;
                    after_area && segments <= MOST_CORNERS && corner(p) && corner(q)
                }
                6 => {
                    segments += 1;
                    after_area
                        && segments <= MOST_CORNERS
                        && (p == 1 || p == u32::MAX)
                        && low <= q
                        && q < r
                        && r <= low + side
                }
                7 => role == CLIP,
                _ => false,
            };
            if !fits {
                return false;
            }
            after_area = (4..=6).contains(&kind);
        }
        depth == 0 && stream.len() <= MOST_RECORDS && lines_met == lines
    }
}

fn area_passes(row: &[u32; AREA_WORDS], side: u32) -> bool {
    let [role, rule, alpha, red, green, blue, material, unnamed] = *row;
    let fits = match role {
        PAINT => [alpha, red, green, blue].iter().all(|byte| *byte <= 255) && material != 0,
        _ => [alpha, red, green, blue, material] == [0; 5],
    };
    role == side && rule <= 1 && unnamed == 0 && material <= 65_535 && fits
}

/// The pixels of a row; `shown` gives the set at a position.
fn fill_row(
    areas: &[[u32; AREA_WORDS]],
    (row, first): (u32, u32),
    out: &mut [u8],
    mut shown: impl FnMut(u32, u32) -> u64,
) {
    let pixels = out.as_chunks_mut::<CHANNELS>().0;
    for (out, number) in pixels.iter_mut().zip(first..) {
        *out = pixel(samples(row, number).map(|(x, y)| channel_sums(areas, shown(x, y))));
    }
}

/// Positions one after the other: their x and their y.
type Run = (Vec<u32>, Vec<u32>);

/// The indices of a run where the material changes, in one pass; `shown` gives the set at a position.
fn log_of(
    areas: &[[u32; AREA_WORDS]],
    (px, py): &Run,
    mut shown: impl FnMut(u32, u32) -> u64,
) -> Vec<u32> {
    let (mut indices, mut before) = (Vec::with_capacity(px.len()), None);
    for ((x, y), index) in px.iter().zip(py).zip(0..) {
        let here = Some(material(areas, shown(*x, *y)));
        if here != before {
            indices.push(index);
        }
        before = here;
    }
    indices
}

// ---- timing ----

/// Pixels drawn by one call.
const ROW_PIXELS: usize = 256;
const ROW_BYTES: usize = CHANNELS * ROW_PIXELS;

/// Each reading runs about so long.
const LEAST: Duration = Duration::from_millis(700);

/// Runs all by turns, beginning with another each time, and prints the shortest time of each for one
/// item, and how long it is where the library's is 1.
fn compare(name: &str, items: usize, readings: [(&str, &mut dyn FnMut()); 4]) {
    let mut times = [f64::INFINITY; 4];
    let begin = Instant::now();
    let mut turn = 0;
    while begin.elapsed() < 4 * LEAST || turn < 8 {
        for i in 0..4 {
            let which = (turn + i) % 4;
            let start = Instant::now();
            readings[which].1();
            let time = start.elapsed().as_secs_f64() * 1e9 / items as f64;
            times[which] = times[which].min(time);
        }
        turn += 1;
    }
    let texts: Vec<String> = readings
        .iter()
        .zip(times)
        .map(|((reading, _), time)| format!("{reading} {time:.0} ({:.2})", time / times[0]))
        .collect();
    println!("  {name}: {}", texts.join(", "));
}

const LIBRARY: &str = "library";
const NO_TREE: &str = "no tree";
const UNCHECKED: &str = "tree unchecked";
const CHECKED: &str = "tree checked";

fn time_positions(name: &str, tables: &Tables, tree: Tree, positions: &[(u32, u32)]) {
    let drawing = Drawing::of(tables);
    let (scan, plain) = (Scan::new(tables), Plain::new(tables, tree));
    let by_library = |x, y| {
        let mut out = [0; SPOT_WORDS];
        let answer = zones::position(black_box(drawing), black_box(tree), x, y, &mut out);
        assert!(matches!(answer, Answer::Accepted(_)));
        *out.first_chunk::<SHOWN_WORDS>()
            .expect("they are the first")
    };
    let by_scan = |x, y| {
        let scan = black_box(&scan);
        words(scan.areas, scan.shown(x, y))
    };
    let unchecked = |x, y| {
        let plain = black_box(&plain);
        words(plain.areas, plain.shown_in(plain.leaf(x, y), x, y))
    };
    let checked = |x, y| {
        let plain = black_box(&plain);
        let leaf = plain.checked_leaf(black_box(tree.head), x, y);
        let leaf = leaf.expect("the tables pass");
        words(plain.areas, plain.shown_in(leaf, x, y))
    };
    for (x, y) in positions.iter().copied() {
        let expected = by_library(x, y);
        assert_eq!(expected, by_scan(x, y), "at {x}, {y}");
        assert_eq!(expected, unchecked(x, y), "at {x}, {y}");
        assert_eq!(expected, checked(x, y), "at {x}, {y}");
    }
    let all = |reading: &dyn Fn(u32, u32) -> [u32; SHOWN_WORDS]| {
        for (x, y) in positions.iter().copied() {
            black_box(reading(x, y));
        }
    };
    let readings: [(&str, &mut dyn FnMut()); 4] = [
        (LIBRARY, &mut || all(&by_library)),
        (NO_TREE, &mut || all(&by_scan)),
        (UNCHECKED, &mut || all(&unchecked)),
        (CHECKED, &mut || all(&checked)),
    ];
    compare(name, positions.len(), readings);
}

/// The set at a position of a run, where the leaf of the position before serves those in its square.
fn shown_in_run<'a>(
    plain: &Plain<'a>,
    last: &mut Option<&'a [u32; CELL_WORDS]>,
    (x, y): (u32, u32),
    find: impl Fn(u32, u32) -> &'a [u32; CELL_WORDS],
) -> u64 {
    let leaf = match *last {
        Some(leaf) if x.wrapping_sub(leaf[0]) < leaf[2] && y.wrapping_sub(leaf[1]) < leaf[2] => {
            leaf
        }
        _ => find(x, y),
    };
    *last = Some(leaf);
    plain.shown_in(leaf, x, y)
}

/// Draws pixels from a first one of a row on.
type DrawRow<'a> = dyn Fn((u32, u32), &mut [u8]) + 'a;

fn time_rows(name: &str, tables: &Tables, tree: Tree, rows: &[(u32, u32)]) {
    let drawing = Drawing::of(tables);
    let (scan, plain) = (Scan::new(tables), Plain::new(tables, tree));
    let by_library = |row: (u32, u32), out: &mut [u8]| {
        let answer = zones::pixel_row(black_box(drawing), black_box(tree), row.0, row.1, out);
        assert_eq!(answer, Answer::Accepted(0));
    };
    let by_scan = |row: (u32, u32), out: &mut [u8]| {
        let scan = black_box(&scan);
        fill_row(scan.areas, row, out, |x, y| scan.shown(x, y));
    };
    let unchecked = |row: (u32, u32), out: &mut [u8]| {
        let (plain, mut last) = (black_box(&plain), None);
        fill_row(plain.areas, row, out, |x, y| {
            shown_in_run(plain, &mut last, (x, y), |x, y| plain.leaf(x, y))
        });
    };
    let checked = |row: (u32, u32), out: &mut [u8]| {
        let (plain, mut last) = (black_box(&plain), None);
        fill_row(plain.areas, row, out, |x, y| {
            shown_in_run(plain, &mut last, (x, y), |x, y| {
                let leaf = plain.checked_leaf(black_box(tree.head), x, y);
                leaf.expect("the tables pass")
            })
        });
    };
    let drawn = |reading: &DrawRow| {
        let mut out = vec![0; rows.len() * ROW_BYTES];
        for (row, out) in rows.iter().zip(out.chunks_mut(ROW_BYTES)) {
            reading(*row, out);
        }
        black_box(out)
    };
    let expected = drawn(&by_library);
    assert!(expected == drawn(&by_scan));
    assert!(expected == drawn(&unchecked));
    assert!(expected == drawn(&checked));
    let readings: [(&str, &mut dyn FnMut()); 4] = [
        (LIBRARY, &mut || _ = drawn(&by_library)),
        (NO_TREE, &mut || _ = drawn(&by_scan)),
        (UNCHECKED, &mut || _ = drawn(&unchecked)),
        (CHECKED, &mut || _ = drawn(&checked)),
    ];
    compare(name, rows.len() * ROW_PIXELS, readings);
}

/// Positions of a run.
const RUN: usize = 1_024;
/// Units of one step of a truck, and how far it goes to either side.
const STEP: f64 = 30.0;
const ASIDE: f64 = 90.0;

/// A truck's path: in small steps from corner to corner, along the lines and to and fro across them.
fn path(tables: &Tables) -> Run {
    let at = |n: usize| (f64::from(tables.xs[n]), f64::from(tables.ys[n]));
    let lines = (1..tables.xs.len()).map(|n| (at(n - 1), at(n)));
    let along = lines.flat_map(|((a, b), (c, d))| {
        let steps = ((c - a).hypot(d - b) / STEP).ceil() as u32;
        (0..steps).map(move |i| {
            let part = f64::from(i) / f64::from(steps);
            (a + (c - a) * part, b + (d - b) * part)
        })
    });
    let on_grid = |at: f64| at.clamp(0.0, f64::from(MOST_POSITION)) as u32;
    let path = along.zip(0..).map(|((x, y), i)| {
        let turn = f64::from(i) / 8.0;
        let (x, y) = (x + ASIDE * turn.sin(), y + ASIDE * turn.cos());
        (on_grid(x), on_grid(y))
    });
    path.take(RUN).unzip()
}

fn time_logs(name: &str, tables: &Tables, tree: Tree, run: &Run) {
    let drawing = Drawing::of(tables);
    let (scan, plain) = (Scan::new(tables), Plain::new(tables, tree));
    let by_library = || {
        let (px, py) = black_box(run);
        let mut out = vec![0; px.len()];
        let answer = zones::zone_log(black_box(drawing), black_box(tree), px, py, &mut out);
        let Answer::Accepted(indices) = answer else {
            panic!("{answer:?}");
        };
        out.truncate(indices as usize);
        black_box(out)
    };
    let by_scan = || {
        let scan = black_box(&scan);
        black_box(log_of(scan.areas, black_box(run), |x, y| scan.shown(x, y)))
    };
    let unchecked = || {
        let (plain, mut last) = (black_box(&plain), None);
        black_box(log_of(plain.areas, black_box(run), |x, y| {
            shown_in_run(plain, &mut last, (x, y), |x, y| plain.leaf(x, y))
        }))
    };
    let checked = || {
        let (plain, mut last) = (black_box(&plain), None);
        black_box(log_of(plain.areas, black_box(run), |x, y| {
            shown_in_run(plain, &mut last, (x, y), |x, y| {
                let leaf = plain.checked_leaf(black_box(tree.head), x, y);
                leaf.expect("the tables pass")
            })
        }))
    };
    let expected = by_library();
    assert_eq!(expected, by_scan());
    assert_eq!(expected, unchecked());
    assert_eq!(expected, checked());
    let readings: [(&str, &mut dyn FnMut()); 4] = [
        (LIBRARY, &mut || _ = by_library()),
        (NO_TREE, &mut || _ = by_scan()),
        (UNCHECKED, &mut || _ = unchecked()),
        (CHECKED, &mut || _ = checked()),
    ];
    let name = format!("{name} ({} indices)", expected.len());
    compare(&name, run.0.len(), readings);
}

fn time_drawing(name: &str, random: &mut Random, records: &[Record]) {
    let tables = samples::tables(records);
    let mut tree = TreeTables::new(MOST_CELLS, MOST_ENTRIES);
    let opened = zones::open(Drawing::of(&tables), &mut tree.lend());
    assert!(matches!(opened, Answer::Accepted(_)), "{opened:?}");
    let grown = zones::grow(Drawing::of(&tables), &mut tree.lend(), 0, MOST_DEPTH);
    assert!(matches!(grown, Answer::Accepted(_)), "{grown:?}");
    let [areas, corners] = [1, 2].map(|i| tables.plan[i]);
    let [cells, entries] = [0, 1].map(|i| tree.head[i]);
    println!("areas {name}: {areas} areas, {corners} corners; {cells} cells, {entries} entries");

    let mut any = || random.below(65_536) as u32;
    let anywhere: Vec<(u32, u32)> = (0..4_000).map(|_| (any(), any())).collect();
    let beside = (0..4_000).map(|_| scenes::position_on_edge(random, &tables));
    let beside: Vec<(u32, u32)> = beside.collect();
    let view = tree.view();
    time_positions("ns a position, anywhere", &tables, view, &anywhere);
    time_positions("ns a position, beside lines", &tables, view, &beside);
    // A row and its first pixel.
    let rows = [(300, 0), (1_500, 1_900), (2_048, 3_000)];
    time_rows("ns a pixel of rows", &tables, view, &rows);
    let jumps: Run = anywhere.into_iter().take(RUN).unzip();
    let truck = path(&tables);
    assert_eq!(truck.0.len(), RUN);
    time_logs("ns a position of logs, a path", &tables, view, &truck);
    time_logs("ns a position of logs, anywhere", &tables, view, &jumps);
}

fn main() {
    println!("In brackets: times the library's.");
    let random = &mut Random::new(1);
    let zigzags = scenes::zigzags(random);
    time_drawing("of zigzags", random, &zigzags);
    let layouts = [
        ("one above the other", 1, 64, 3_000.0, 430.0),
        ("in eight rows of eight", 8, 8, 4_000.0, 4_000.0),
        ("over one another", 1, 1, 28_000.0, 28_000.0),
    ];
    for (name, columns, rows, wide, high) in layouts {
        let layout = Layout {
            columns,
            rows,
            wide,
            high,
        };
        let records = layout.drawing(random);
        time_drawing(name, random, &records);
    }
}
