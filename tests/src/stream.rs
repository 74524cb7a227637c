//! Streams: entries and their words, the check of a lent stream, the stream of a drawing, a stream
//! in a smaller square, and a stream read at a position. Document 01, "Cells" and "From the state",
//! with the curves of document 02, Item 2, and the yes or no of its Item 4.

use crate::class::{self, Class, Square};
use crate::curve;
use crate::drawing::{
    corner_in_range, AREA, BAR, CLIP, CLOSE, CONTROL, FIRST, MOST_AREAS, MOST_CORNERS, MOST_GROUPS,
    MOST_RECORDS, NEXT, OPEN, PAINT,
};
use crate::meaning::{fill_passes, shown_set, sides, Drawing, Item, Side, Token};

pub const ENTRY_WORDS: usize = 4;
/// "start −2,048 to 2,048"
pub const MOST_START: i32 = 2_048;

/// "A stream holds one entry for each delimiter, each area (with its start number), line and
/// shortcut", and "C1 becomes a bare entry "passes", with no area number". Document 02, Item 2: "a
/// kept curve is one entry".
#[derive(Clone, Copy, PartialEq, Eq, Debug)]
pub enum Entry {
    Open,
    Bar,
    Close,
    Area {
        number: u32,
        start: i32,
    },
    /// The numbers of the two corners, drawn from the first to the second.
    Line {
        from: u32,
        to: u32,
    },
    /// Rows `first` to `end` − 1.
    Shortcut {
        sign: i32,
        first: u32,
        end: u32,
    },
    Passes,
    /// The number of its first corner; the control corner and the other end are the next two.
    Curve {
        from: u32,
    },
}

impl Entry {
    /// Four words: kind, p, q, r. Signed numbers are in two's complement; words without a name are
    /// not looked at. None for a kind that is not known.
    pub fn decode(words: [u32; ENTRY_WORDS]) -> Option<Entry> {
        let [kind, p, q, r] = words;
        match kind {
            1 => Some(Entry::Open),
            2 => Some(Entry::Bar),
            3 => Some(Entry::Close),
            4 => Some(Entry::Area {
                number: p,
                start: q as i32,
            }),
            5 => Some(Entry::Line { from: p, to: q }),
            6 => Some(Entry::Shortcut {
                sign: p as i32,
                first: q,
                end: r,
            }),
            7 => Some(Entry::Passes),
            8 => Some(Entry::Curve { from: p }),
            _ => None,
        }
    }

    /// Words without a name are 0.
    pub fn encode(self) -> [u32; ENTRY_WORDS] {
        match self {
            Entry::Open => [1, 0, 0, 0],
            Entry::Bar => [2, 0, 0, 0],
            Entry::Close => [3, 0, 0, 0],
            Entry::Area { number, start } => [4, number, start as u32, 0],
            Entry::Line { from, to } => [5, from, to, 0],
            Entry::Shortcut { sign, first, end } => [6, sign as u32, first, end],
            Entry::Passes => [7, 0, 0, 0],
            Entry::Curve { from } => [8, from, 0, 0],
        }
    }

    /// How many of its words have a name.
    pub fn named(self) -> usize {
        match self {
            Entry::Open | Entry::Bar | Entry::Close | Entry::Passes => 1,
            Entry::Curve { .. } => 2,
            Entry::Area { .. } | Entry::Line { .. } => 3,
            Entry::Shortcut { .. } => 4,
        }
    }

    /// A line or a curve: "a kept curve is one entry that the lister and growing count as a line."
    pub fn is_line(&self) -> bool {
        matches!(self, Entry::Line { .. } | Entry::Curve { .. })
    }

    /// A line, a curve or a shortcut.
    pub fn is_segment(&self) -> bool {
        self.is_line() || matches!(self, Entry::Shortcut { .. })
    }
}

/// The words of a stream.
pub fn words(stream: &[Entry]) -> Vec<u32> {
    stream.iter().flat_map(|entry| entry.encode()).collect()
}

/// How many lines a stream has, curves among them: shortcuts are none.
pub fn lines(stream: &[Entry]) -> u32 {
    stream.iter().filter(|entry| entry.is_line()).count() as u32
}

/// Document 02, Item 4: "yes exactly when the leaf's stream holds no line, curve or shortcut."
pub fn uniform(stream: &[Entry]) -> bool {
    !stream.iter().any(Entry::is_segment)
}

// ---- the check ----

/// How much of the tables is in use, as they say.
#[derive(Clone, Copy, PartialEq, Eq, Debug)]
pub struct InUse {
    pub cells: usize,
    pub entries: usize,
    pub areas: usize,
    pub corners: usize,
}

/// Whether every number of an entry is in range: "area, corner ... numbers below what is in use";
/// "start −2,048 to 2,048; sign 1 or −1; rows inside the cell", and what it names of the drawing.
fn entry_in_range(drawing: Drawing, in_use: InUse, square: Square, entry: Entry) -> bool {
    let corner = |number: u32| {
        let number = number as usize;
        number < in_use.corners && corner_in_range(drawing.xs[number], drawing.ys[number])
    };
    match entry {
        Entry::Area { number, start } => {
            (number as usize) < in_use.areas
                && drawing.area(number).in_range()
                && drawing.row(number)[7] == 0
                && (-MOST_START..=MOST_START).contains(&start)
        }
        Entry::Line { from, to } => corner(from) && corner(to),
        Entry::Curve { from } => {
            // "13 for a curve that breaks the order or span ...; met in the tables, 12."
            let numbers = [0, 1, 2].map(|more| from.checked_add(more));
            numbers.into_iter().all(|number| number.is_some_and(corner))
                && curve::fits(drawing.curve_corners(from))
        }
        Entry::Shortcut { sign, first, end } => {
            // "no rows ...: dropped": a shortcut has a row.
            let high = square.y + square.side;
            (sign == 1 || sign == -1) && square.y <= first && first < end && end <= high
        }
        Entry::Open | Entry::Bar | Entry::Close | Entry::Passes => true,
    }
}

/// Whether entries whose numbers are in range keep the grammar: the drawing's, with its limits.
/// "In a stream, "passes" stands where a clip area may, and a line or shortcut stands straight
/// after an area, line or shortcut." A curve goes as a line does.
fn in_grammar(drawing: Drawing, stream: &[Entry]) -> bool {
    // For each open group, the role of the side it stands on and whether its bar was met.
    let mut groups: Vec<(u32, bool)> = Vec::new();
    let (mut areas, mut segments) = (0, 0);
    let mut before = None;
    for entry in stream {
        // "The top level and the right side of a group opened on a paint side are paint sides; all
        // other sides of groups are clip sides."
        let side = match groups.last() {
            None => PAINT,
            Some((PAINT, true)) => PAINT,
            Some(_) => CLIP,
        };
        match entry {
            Entry::Open => groups.push((side, false)),
            Entry::Bar => match groups.last_mut() {
                Some((_, right @ false)) => *right = true,
                _ => return false,
            },
            Entry::Close => match groups.pop() {
                Some((_, true)) => {}
                _ => return false,
            },
            Entry::Area { number, .. } => {
                areas += 1;
                if drawing.area(*number).role != side {
                    return false;
                }
            }
            Entry::Passes => {
                if side != CLIP {
                    return false;
                }
            }
            Entry::Line { .. } | Entry::Shortcut { .. } | Entry::Curve { .. } => {
                segments += 1;
                let after_area = before.is_some_and(|entry: Entry| {
                    matches!(entry, Entry::Area { .. }) || entry.is_segment()
                });
                if !after_area {
                    return false;
                }
            }
        }
        if groups.len() > MOST_GROUPS || areas > MOST_AREAS || segments > MOST_CORNERS {
            return false;
        }
        before = Some(*entry);
    }
    groups.is_empty() && stream.len() <= MOST_RECORDS
}

/// Whether the numbers of a stream's entries are in range: "entry numbers below what is in use (the
/// first number of an empty stream ... at most that)".
pub fn run_in_range(in_use: InUse, first: u32, count: u32) -> bool {
    u64::from(first) + u64::from(count) <= in_use.entries as u64
}

/// The stream of `count` entries from `first` on, if it passes 12 in a cell's square. The numbers
/// in use are in range.
pub fn check(
    drawing: Drawing,
    in_use: InUse,
    square: Square,
    entries: &[u32],
    first: u32,
    count: u32,
) -> Option<Vec<Entry>> {
    if !run_in_range(in_use, first, count) {
        return None;
    }
    let rows = entries.as_chunks::<ENTRY_WORDS>().0;
    let run = &rows[first as usize..][..count as usize];
    let decoded: Option<Vec<Entry>> = run.iter().map(|words| Entry::decode(*words)).collect();
    decoded.filter(|stream| {
        let mut each = stream.iter();
        each.all(|entry| entry_in_range(drawing, in_use, square, *entry))
            && in_grammar(drawing, stream)
    })
}

// ---- making ----

/// "Cell 0's stream is made from the drawing: each area, then its edges, contour by contour, corner
/// to next corner, the closing edge last of its contour." A curve stands where its first corner
/// does. This is the stream before any edge is classed: every edge is a line, every curve is kept,
/// every start number is 0.
pub fn of_drawing(drawing: Drawing) -> Vec<Entry> {
    let kinds: Vec<u8> = drawing.kinds().collect();
    let mut stream = Vec::new();
    let (mut areas, mut corners, mut first) = (0, 0, 0);
    for (i, kind) in kinds.iter().enumerate() {
        match *kind {
            AREA => {
                stream.push(Entry::Area {
                    number: areas,
                    start: 0,
                });
                areas += 1;
            }
            FIRST | NEXT => {
                if *kind == FIRST {
                    first = corners;
                }
                let from = corners;
                stream.push(match kinds.get(i + 1) {
                    Some(&CONTROL) => Entry::Curve { from },
                    Some(&NEXT) => Entry::Line { from, to: from + 1 },
                    _ => Entry::Line { from, to: first },
                });
                corners += 1;
            }
            CONTROL => corners += 1,
            OPEN => stream.push(Entry::Open),
            BAR => stream.push(Entry::Bar),
            CLOSE => stream.push(Entry::Close),
            kind => panic!("no record has the kind {kind}"),
        }
    }
    stream
}

/// "A child is made from its parent's stream by this rule, orders kept." Not pruned yet.
pub fn in_square(drawing: Drawing, stream: &[Entry], square: Square) -> Vec<Entry> {
    let mut made = Vec::new();
    // Where the area of the lines and shortcuts stands.
    let mut area = None;
    for entry in stream {
        let class = match *entry {
            Entry::Line { from, to } => class::of(drawing.edge(from, to), square),
            Entry::Curve { from } => class::of(drawing.curve(from), square),
            Entry::Shortcut { sign, first, end } => class::shortcut(sign, first, end, square),
            _ => {
                if matches!(entry, Entry::Area { .. }) {
                    area = Some(made.len());
                }
                made.push(*entry);
                continue;
            }
        };
        match class {
            Class::Dropped => {}
            Class::Line => made.push(*entry),
            Class::Shortcut { sign, first, end } => {
                made.push(Entry::Shortcut { sign, first, end });
            }
            Class::Start { sign } => match area.map(|at: usize| &mut made[at]) {
                Some(Entry::Area { start, .. }) => *start += sign,
                _ => panic!("a line or shortcut has an area before it"),
            },
        }
    }
    made
}

// ---- the sides of a stream ----

/// What stands on a side of a stream.
#[derive(Clone, PartialEq, Eq, Debug)]
pub enum Piece {
    /// An area with its lines, curves and shortcuts.
    Area {
        number: u32,
        start: i32,
        segments: Vec<Entry>,
    },
    Passes,
}

/// The top level of a stream in the grammar.
pub fn sides_of(stream: &[Entry]) -> Side<Piece> {
    let mut tokens: Vec<Token<Piece>> = Vec::new();
    for entry in stream {
        match *entry {
            Entry::Open => tokens.push(Token::Open),
            Entry::Bar => tokens.push(Token::Bar),
            Entry::Close => tokens.push(Token::Close),
            Entry::Passes => tokens.push(Token::One(Piece::Passes)),
            Entry::Area { number, start } => tokens.push(Token::One(Piece::Area {
                number,
                start,
                segments: Vec::new(),
            })),
            Entry::Line { .. } | Entry::Shortcut { .. } | Entry::Curve { .. } => {
                match tokens.last_mut() {
                    Some(Token::One(Piece::Area { segments, .. })) => segments.push(*entry),
                    _ => panic!("a line or shortcut stands after its area"),
                }
            }
        }
    }
    sides(tokens)
}

/// The stream of a side: the other way round.
pub fn of_sides(side: &Side<Piece>) -> Vec<Entry> {
    let mut stream = Vec::new();
    for item in side {
        match item {
            Item::One(Piece::Passes) => stream.push(Entry::Passes),
            Item::One(Piece::Area {
                number,
                start,
                segments,
            }) => {
                stream.push(Entry::Area {
                    number: *number,
                    start: *start,
                });
                stream.extend(segments);
            }
            Item::Group { left, right } => {
                stream.push(Entry::Open);
                stream.extend(of_sides(left));
                stream.push(Entry::Bar);
                stream.extend(of_sides(right));
                stream.push(Entry::Close);
            }
        }
    }
    stream
}

// ---- reading ----

/// "An area's winding in it at (x, y) is its start number, plus the sign of each of its shortcuts
/// with row y, plus +1 or −1 for each of its kept lines that counts there." Document 02, Item 2: "A
/// contour's winding now means its curves too, in the tree and without it."
pub fn winding(drawing: Drawing, start: i32, segments: &[Entry], x: u32, y: u32) -> i32 {
    let add = |segment: &Entry| match *segment {
        Entry::Shortcut { sign, first, end } if (first..end).contains(&y) => sign,
        Entry::Line { from, to } => drawing.edge(from, to).adds(x, y),
        Entry::Curve { from } => drawing.curve(from).adds(x, y),
        _ => 0,
    };
    start + segments.iter().map(add).sum::<i32>()
}

/// ""Read there" is by "Winding and meaning" over the leaf's stream with these windings, "passes"
/// being a clip area that passes".
pub fn piece_passes(drawing: Drawing, piece: &Piece, x: u32, y: u32) -> bool {
    match piece {
        Piece::Passes => true,
        Piece::Area {
            number,
            start,
            segments,
        } => {
            let rule = drawing.area(*number).rule;
            fill_passes(rule, winding(drawing, *start, segments, x, y))
        }
    }
}

/// The shown set of a stream at a position, by the meaning of its sides and groups.
pub fn shown(drawing: Drawing, stream: &[Entry], x: u32, y: u32) -> u64 {
    let passes = |piece: &Piece| piece_passes(drawing, piece, x, y);
    let number = |piece: &Piece| match piece {
        Piece::Area { number, .. } => *number,
        Piece::Passes => panic!("passes stands on clip sides only"),
    };
    shown_set(drawing, &sides_of(stream), passes, number)
}
