//! What a drawing says at a position, with no tree: document 01, "Winding and meaning", word for
//! word, with the rule for pixels of document 02, Item 1, and the curves of its Item 2. The sides and
//! groups of this page serve the streams of leaves too.

use std::ops::Range;

use crate::curve::{Curve, Segment};
use crate::drawing::{Area, AREA, AREA_WORDS, BAR, CLOSE, CONTROL, FIRST, NEXT, OPEN, PLAN_COUNTS};
use crate::samples::Tables;

/// "Positions are whole x, y from 0 to 65,535."
pub const MOST_POSITION: u32 = 65_535;
/// "the first with alpha 255"
pub const OPAQUE: u32 = 255;
/// "A pixel is 16 by 16 units."
pub const PIXEL: u32 = 16;
/// "The sixteen row offsets, for column offsets 0 to 15".
pub const ROW_OFFSETS: [u32; 16] = [3, 8, 13, 2, 7, 12, 1, 6, 11, 0, 5, 10, 15, 4, 9, 14];

// ---- the lent drawing ----

/// A lent drawing: its four tables.
#[derive(Clone, Copy, Debug)]
pub struct Drawing<'a> {
    pub plan: &'a [u32],
    pub areas: &'a [u32],
    pub xs: &'a [u32],
    pub ys: &'a [u32],
}

impl<'a> Drawing<'a> {
    pub fn of(tables: &'a Tables) -> Drawing<'a> {
        Drawing {
            plan: &tables.plan,
            areas: &tables.areas,
            xs: &tables.xs,
            ys: &tables.ys,
        }
    }

    /// The eight words of an area that is in use.
    pub fn row(&self, area: u32) -> &'a [u32] {
        &self.areas[AREA_WORDS * area as usize..][..AREA_WORDS]
    }

    pub fn area(&self, area: u32) -> Area {
        Area::of_words(self.row(area))
    }

    /// A corner that is in use.
    pub fn corner(&self, number: u32) -> (u32, u32) {
        (self.xs[number as usize], self.ys[number as usize])
    }

    /// The edge drawn from one corner to another.
    pub fn edge(&self, from: u32, to: u32) -> Segment {
        let [from, to] = [from, to].map(|number| {
            let (x, y) = self.corner(number);
            (x.into(), y.into())
        });
        Segment::Edge(Edge { from, to })
    }

    /// The three corners of a curve: its first end, its control corner and its other end.
    pub fn curve_corners(&self, from: u32) -> [(u32, u32); 3] {
        [from, from + 1, from + 2].map(|number| self.corner(number))
    }

    /// The curve that begins at a corner.
    pub fn curve(&self, from: u32) -> Segment {
        Segment::Curve(Curve::of(self.curve_corners(from)))
    }

    /// The kinds of the records in use.
    pub fn kinds(&self) -> impl Iterator<Item = u8> + 'a {
        let records = self.plan[0] as usize;
        self.plan[PLAN_COUNTS..][..records].iter().map(|k| *k as u8)
    }
}

// ---- edges ----

/// An edge, drawn from one end to the other.
#[derive(Clone, Copy, PartialEq, Eq, Debug)]
pub struct Edge {
    pub from: (i64, i64),
    pub to: (i64, i64),
}

impl Edge {
    /// "An edge whose lower end is (a, b) and upper end (c, d)".
    fn ends(&self) -> ((i64, i64), (i64, i64)) {
        if self.from.1 <= self.to.1 {
            (self.from, self.to)
        } else {
            (self.to, self.from)
        }
    }

    /// "has rows b to d − 1; level edges have none."
    pub fn rows(&self) -> Range<i64> {
        let ((_, b), (_, d)) = self.ends();
        b..d
    }

    /// "P = (a − x)×(d − b) + (y − b)×(c − a)"
    pub fn product(&self, x: i64, y: i64) -> i64 {
        let ((a, b), (c, d)) = self.ends();
        (a - x) * (d - b) + (y - b) * (c - a)
    }

    /// "It counts at (x, y) if y is one of its rows and the signed product P below is above zero".
    pub fn counts(&self, x: i64, y: i64) -> bool {
        self.rows().contains(&y) && self.product(x, y) > 0
    }

    /// "It adds +1 if drawn upward, −1 if downward." A level edge never counts.
    pub fn sign(&self) -> i32 {
        if self.from.1 < self.to.1 {
            1
        } else {
            -1
        }
    }
}

/// "The area passes if its sum is not 0 (rule 0) or odd (rule 1)." Odd is a matter of the
/// magnitude, so that a negative sum is odd as its positive twin is.
pub fn fill_passes(rule: u32, winding: i32) -> bool {
    match rule {
        0 => winding != 0,
        _ => winding.unsigned_abs() % 2 == 1,
    }
}

// ---- sides and groups ----

/// What stands on one side of a group, or at the top level, front first.
pub type Side<T> = Vec<Item<T>>;

#[derive(Clone, PartialEq, Eq, Debug)]
pub enum Item<T> {
    One(T),
    Group { left: Side<T>, right: Side<T> },
}

/// A drawing or a stream as it is written: `(`, `|`, `)`, and the rest.
pub enum Token<T> {
    Open,
    Bar,
    Close,
    One(T),
}

/// The top level of tokens whose groups are whole: every `(` has its `|` and its `)`.
pub fn sides<T>(tokens: impl IntoIterator<Item = Token<T>>) -> Side<T> {
    side(&mut tokens.into_iter())
}

/// One side, with the delimiter that ends it.
fn side<T>(tokens: &mut impl Iterator<Item = Token<T>>) -> Side<T> {
    let mut items = Vec::new();
    loop {
        match tokens.next() {
            Some(Token::One(one)) => items.push(Item::One(one)),
            Some(Token::Open) => {
                let left = side(tokens);
                let right = side(tokens);
                items.push(Item::Group { left, right });
            }
            Some(Token::Bar | Token::Close) | None => return items,
        }
    }
}

/// "A clip side passes if any item on it does. A group on a clip side passes if both its sides
/// pass."
pub fn clip_side_passes<T>(side: &Side<T>, passes: &impl Fn(&T) -> bool) -> bool {
    side.iter().any(|item| match item {
        Item::One(one) => passes(one),
        Item::Group { left, right } => {
            clip_side_passes(left, passes) && clip_side_passes(right, passes)
        }
    })
}

/// "A group on a paint side shows its right side where its left passes." The passing paint areas
/// that every group around them shows, front to back.
fn passing_and_shown<'a, T>(
    side: &'a Side<T>,
    passes: &impl Fn(&T) -> bool,
    found: &mut Vec<&'a T>,
) {
    for item in side {
        match item {
            Item::One(one) if passes(one) => found.push(one),
            Item::One(_) => {}
            Item::Group { left, right } => {
                if clip_side_passes(left, passes) {
                    passing_and_shown(right, passes, found);
                }
            }
        }
    }
}

/// "The shown set is the passing paint areas that every group around them shows, front to back, up
/// to and including the first with alpha 255." `number` gives the number of a paint area, and bit
/// n of the answer is area n.
pub fn shown_set<T>(
    drawing: Drawing,
    top: &Side<T>,
    passes: impl Fn(&T) -> bool,
    number: impl Fn(&T) -> u32,
) -> u64 {
    let mut found = Vec::new();
    passing_and_shown(top, &passes, &mut found);
    let mut set = 0;
    for one in found {
        set |= 1 << number(one);
        if drawing.area(number(one)).alpha == OPAQUE {
            break;
        }
    }
    set
}

// ---- material and colour ----

/// The numbers of the areas in a set, lowest first: "Areas count from 0, front first".
pub fn numbers(shown: u64) -> impl Iterator<Item = u32> {
    (0..64).filter(move |n| shown >> n & 1 == 1)
}

/// "The material is the material of the lowest numbered area in that set, or 0 if it is empty."
pub fn material(drawing: Drawing, shown: u64) -> u32 {
    let lowest = numbers(shown).next();
    lowest.map_or(0, |area| drawing.area(area).material)
}

/// "left = 255. For each shown area, front first, weight = (left × alpha + 127) / 255 rounded
/// down, and left falls by it". The weights, and what is left.
pub fn weights(drawing: Drawing, shown: u64) -> (Vec<(u32, u32)>, u32) {
    let mut left = 255;
    let mut weights = Vec::new();
    for area in numbers(shown) {
        let weight = (left * drawing.area(area).alpha + 127) / 255;
        left -= weight;
        weights.push((area, weight));
    }
    (weights, left)
}

/// "sum of weight × channel + left × 255": what document 02 calls "the unrounded channel sums
/// (before + 127 and the division)". The largest is 255 × 255, that of the white ground.
pub fn channel_sums(drawing: Drawing, shown: u64) -> [u32; 3] {
    let (weights, left) = weights(drawing, shown);
    [0, 1, 2].map(|channel| {
        let of_area = |(area, weight): &(u32, u32)| weight * drawing.area(*area).colour[channel];
        let sum: u32 = weights.iter().map(of_area).sum();
        sum + left * 255
    })
}

/// The channels of a position from its sums: "(sum of weight × channel + left × 255 + 127) / 255
/// rounded down". Document 02, Item 1: "Single positions keep their rounding."
pub fn rounded(sums: [u32; 3]) -> [u32; 3] {
    sums.map(|sum| (sum + 127) / 255)
}

/// "Each channel is (sum of weight × channel + left × 255 + 127) / 255 rounded down; the ground is
/// white."
pub fn colour(drawing: Drawing, shown: u64) -> [u32; 3] {
    rounded(channel_sums(drawing, shown))
}

/// What is said of one position.
#[derive(Clone, Copy, PartialEq, Eq, Debug)]
pub struct Reading {
    pub shown: u64,
    pub material: u32,
    pub colour: [u32; 3],
}

impl Reading {
    pub fn of_set(drawing: Drawing, shown: u64) -> Reading {
        Reading {
            shown,
            material: material(drawing, shown),
            colour: colour(drawing, shown),
        }
    }
}

// ---- pixels and logs ----

/// The sixteen positions of a pixel.
pub fn samples(row: u32, pixel: u32) -> [(u32, u32); 16] {
    let mut positions = [(0, 0); 16];
    for (column, offset) in ROW_OFFSETS.into_iter().enumerate() {
        positions[column] = (PIXEL * pixel + column as u32, PIXEL * row + offset);
    }
    positions
}

/// From the channel sums of the sixteen samples, by document 02, Item 1: "a pixel's channel is the
/// sum over its sixteen samples of the unrounded channel sums (before + 127 and the division), plus
/// 2,040, divided by 4,080 and rounded down."
pub fn pixel(sums: [[u32; 3]; 16]) -> [u8; 3] {
    [0, 1, 2].map(|channel| {
        let sum: u32 = sums.iter().map(|sums| sums[channel]).sum();
        ((sum + 2_040) / 4_080) as u8
    })
}

/// From the colours of the sixteen samples, by document 01 as it was before document 02, Item 1:
/// "Its channel is (sum of the sixteen sample channels + 8) / 16 rounded down." Only to see where
/// the two rules differ: "Pixels are compared with this rule alone", which is that of `pixel`.
pub fn pixel_before_item_1(colours: [[u32; 3]; 16]) -> [u8; 3] {
    [0, 1, 2].map(|channel| {
        let sum: u32 = colours.iter().map(|colour| colour[channel]).sum();
        ((sum + 8) / 16) as u8
    })
}

/// "A zone log over a run of positions gives index 0 (if there is one) and each index whose
/// material differs from the one before."
pub fn log(materials: &[u32]) -> Vec<u32> {
    let differs = |i: &usize| *i == 0 || materials[*i] != materials[*i - 1];
    let indices = (0..materials.len()).filter(differs);
    indices.map(|i| i as u32).collect()
}

// ---- with no tree ----

/// An area with all its edges and curves.
#[derive(Clone, Debug)]
pub struct Drawn {
    pub number: u32,
    pub segments: Vec<Segment>,
}

/// A corner of a contour as its record has it: an end, or the control corner of a curve.
#[derive(Clone, Copy, PartialEq, Eq, Debug)]
struct Corner {
    control: bool,
    at: (i64, i64),
}

/// A drawing taken apart, straight from its tables.
#[derive(Clone, Debug)]
pub struct Scene<'a> {
    pub drawing: Drawing<'a>,
    pub top: Side<Drawn>,
}

impl<'a> Scene<'a> {
    /// A drawing that passes 12.
    pub fn of(drawing: Drawing<'a>) -> Scene<'a> {
        // Contours of each area, as lists of corners.
        let mut contours: Vec<Vec<Vec<Corner>>> = Vec::new();
        let mut corner = 0;
        for kind in drawing.kinds() {
            match kind {
                AREA => contours.push(Vec::new()),
                FIRST | NEXT | CONTROL => {
                    let at = (drawing.xs[corner].into(), drawing.ys[corner].into());
                    let control = kind == CONTROL;
                    corner += 1;
                    let of_area = contours.last_mut().expect("a corner has an area");
                    if kind == FIRST {
                        of_area.push(Vec::new());
                    }
                    let contour = of_area.last_mut().expect("a contour begins");
                    contour.push(Corner { control, at });
                }
                _ => {}
            }
        }
        let mut areas = contours.iter().enumerate().map(|(number, contours)| Drawn {
            number: number as u32,
            segments: contours
                .iter()
                .flat_map(|contour| segments_of(contour))
                .collect(),
        });
        let tokens: Vec<Token<Drawn>> = drawing
            .kinds()
            .filter_map(|kind| match kind {
                AREA => Some(Token::One(areas.next().expect("as many areas as kinds"))),
                OPEN => Some(Token::Open),
                BAR => Some(Token::Bar),
                CLOSE => Some(Token::Close),
                _ => None,
            })
            .collect();
        Scene {
            drawing,
            top: sides(tokens),
        }
    }

    /// The area's sum at a position.
    pub fn winding(area: &Drawn, x: u32, y: u32) -> i32 {
        area.segments.iter().map(|segment| segment.adds(x, y)).sum()
    }

    pub fn shown(&self, x: u32, y: u32) -> u64 {
        let passes = |area: &Drawn| {
            let rule = self.drawing.area(area.number).rule;
            fill_passes(rule, Scene::winding(area, x, y))
        };
        shown_set(self.drawing, &self.top, passes, |area| area.number)
    }

    pub fn position(&self, x: u32, y: u32) -> Reading {
        Reading::of_set(self.drawing, self.shown(x, y))
    }

    /// The channel sums of a pixel's samples.
    pub fn sums(&self, row: u32, number: u32) -> [[u32; 3]; 16] {
        samples(row, number).map(|(x, y)| channel_sums(self.drawing, self.shown(x, y)))
    }

    pub fn pixel(&self, row: u32, number: u32) -> [u8; 3] {
        pixel(self.sums(row, number))
    }

    pub fn zone_log(&self, px: &[u32], py: &[u32]) -> Vec<u32> {
        let run = px.iter().zip(py);
        let materials: Vec<u32> = run.map(|(x, y)| self.position(*x, *y).material).collect();
        log(&materials)
    }
}

/// "a contour closes from its last corner to its first." A curve leads from the corner before its
/// control corner to the one behind it.
fn segments_of(contour: &[Corner]) -> Vec<Segment> {
    let behind = |i: usize| contour[i % contour.len()];
    let ends = (0..contour.len()).filter(|i| !contour[*i].control);
    ends.map(|i| match (contour[i].at, behind(i + 1)) {
        (from, Corner { control: false, at }) => Segment::Edge(Edge { from, to: at }),
        (from, Corner { control: true, at }) => Segment::Curve(Curve {
            from,
            control: at,
            to: behind(i + 2).at,
        }),
    })
    .collect()
}
