//! The second implementation: records to the drawing's tables and back, from document 01 and Item 2
//! of document 02.

use crate::curve;
use crate::zones::Answer;

pub const RECORD_BYTES: usize = 16;
pub const AREA_WORDS: usize = 8;
pub const PLAN_COUNTS: usize = 3;

pub const MOST_RECORDS: usize = 4_096;
pub const MOST_AREAS: usize = 64;
pub const MOST_CORNERS: usize = 2_048;
pub const MOST_GROUPS: usize = 8;
pub const MOST_COORDINATE: u32 = 65_536;

pub const AREA: u8 = 1;
pub const FIRST: u8 = 2;
pub const NEXT: u8 = 3;
pub const OPEN: u8 = 4;
pub const BAR: u8 = 5;
pub const CLOSE: u8 = 6;
/// Document 02, Item 2: "Record kind 7 is a control corner, laid out as kind 3".
pub const CONTROL: u8 = 7;

/// Records have the kinds from 1 to this one.
pub const MOST_KIND: u8 = CONTROL;

pub const PAINT: u32 = 0;
pub const CLIP: u32 = 1;

/// Why a call is refused, and where.
#[derive(Clone, Copy, PartialEq, Eq, Debug)]
pub struct Refusal {
    pub number: u32,
    pub place: u32,
}

pub fn refusal(number: u32, place: usize) -> Refusal {
    Refusal {
        number,
        place: place as u32,
    }
}

/// How much of each table a drawing uses.
#[derive(Clone, Copy, PartialEq, Eq, Debug)]
pub struct Size {
    pub records: usize,
    pub areas: usize,
    pub corners: usize,
}

/// The named fields of an area.
#[derive(Clone, Copy, PartialEq, Eq, Debug)]
pub struct Area {
    pub role: u32,
    pub rule: u32,
    pub alpha: u32,
    pub colour: [u32; 3],
    pub material: u32,
}

impl Area {
    fn of_record(record: &[u8; RECORD_BYTES]) -> Area {
        Area {
            role: record[1].into(),
            rule: record[2].into(),
            alpha: record[3].into(),
            colour: [record[4].into(), record[5].into(), record[6].into()],
            material: u16::from_le_bytes([record[8], record[9]]).into(),
        }
    }

    pub fn of_words(row: &[u32]) -> Area {
        Area {
            role: row[0],
            rule: row[1],
            alpha: row[2],
            colour: [row[3], row[4], row[5]],
            material: row[6],
        }
    }

    pub fn in_range(&self) -> bool {
        let colour_in_range = self.colour.iter().all(|channel| *channel <= 255);
        if self.rule > 1 || self.alpha > 255 || !colour_in_range || self.material > 65_535 {
            return false;
        }
        match self.role {
            PAINT => self.material != 0,
            CLIP => self.alpha == 0 && self.colour == [0, 0, 0] && self.material == 0,
            _ => false,
        }
    }
}

fn corner_of_record(record: &[u8; RECORD_BYTES]) -> (u32, u32) {
    let x = u32::from_le_bytes([record[4], record[5], record[6], record[7]]);
    let y = u32::from_le_bytes([record[8], record[9], record[10], record[11]]);
    (x, y)
}

pub fn corner_in_range(x: u32, y: u32) -> bool {
    x <= MOST_COORDINATE && y <= MOST_COORDINATE
}

/// Whether every field of a record of known kind is in range and its unnamed bytes are zero.
fn record_in_range(record: &[u8; RECORD_BYTES]) -> bool {
    match record[0] {
        AREA => record[7] == 0 && record[10..] == [0; 6] && Area::of_record(record).in_range(),
        FIRST | NEXT | CONTROL => {
            let (x, y) = corner_of_record(record);
            record[1..4] == [0; 3] && record[12..] == [0; 4] && corner_in_range(x, y)
        }
        _ => record[1..] == [0; 15],
    }
}

/// An open group: the role of the side it was opened on, and whether its bar was met.
struct Group {
    opened_on: u32,
    right: bool,
}

/// What the records so far say about the next one.
struct Grammar {
    groups: Vec<Group>,
    /// Kind of the record before, 0 at the start.
    last: u8,
    /// Corners of the last contour, its control corners not counted.
    contour: usize,
    /// The last two corners, control corners too: what the next corner may end a curve with.
    corners: [(u32, u32); 2],
    size: Size,
}

impl Grammar {
    fn new() -> Grammar {
        Grammar {
            groups: Vec::with_capacity(MOST_GROUPS),
            last: 0,
            contour: 0,
            corners: [(0, 0); 2],
            size: Size {
                records: 0,
                areas: 0,
                corners: 0,
            },
        }
    }

    /// The role of the side that the next record stands on.
    fn side(&self) -> u32 {
        match self.groups.last() {
            None => PAINT,
            Some(group) if group.right => group.opened_on,
            Some(_) => CLIP,
        }
    }

    fn after_corner(&self) -> bool {
        self.last == FIRST || self.last == NEXT
    }

    /// Whether a record fits here; `role` is that of an area. Document 02, Item 2, of a control
    /// corner: "it follows kind 2 or 3 and is followed by kind 3, otherwise 4".
    fn fits(&self, kind: u8, role: u32) -> bool {
        if self.last == CONTROL {
            return kind == NEXT;
        }
        match kind {
            CONTROL => self.after_corner(),
            AREA => role == self.side(),
            FIRST => self.last == AREA || self.after_corner(),
            NEXT => self.after_corner(),
            OPEN => true,
            BAR => self.groups.last().is_some_and(|group| !group.right),
            _ => self.groups.last().is_some_and(|group| group.right),
        }
    }

    /// Takes one record of known kind with fields in range, or gives 13, 4, 5 or 6; `role` is that
    /// of an area, `at` where a corner lies.
    fn take(&mut self, kind: u8, role: u32, at: (u32, u32)) -> Result<(), u32> {
        // "13 for a curve that breaks the order or span, place the record of kind 3 that ends it,
        // tried after 3 and before 4".
        let [from, control] = self.corners;
        if self.last == CONTROL && kind == NEXT && !curve::fits([from, control, at]) {
            return Err(13);
        }
        if !self.fits(kind, role) {
            return Err(4);
        }
        let ends_contour = kind != NEXT && kind != CONTROL;
        if self.after_corner() && ends_contour && self.contour < 3 {
            return Err(5);
        }
        match kind {
            AREA => {
                if self.size.areas == MOST_AREAS {
                    return Err(6);
                }
                self.size.areas += 1;
            }
            FIRST | NEXT | CONTROL => {
                if self.size.corners == MOST_CORNERS {
                    return Err(6);
                }
                // "It counts toward 2,048 corners but not toward the three of a contour."
                self.size.corners += 1;
                self.contour = match kind {
                    FIRST => 1,
                    NEXT => self.contour + 1,
                    _ => self.contour,
                };
                self.corners = [self.corners[1], at];
            }
            OPEN => {
                if self.groups.len() == MOST_GROUPS {
                    return Err(6);
                }
                let opened_on = self.side();
                self.groups.push(Group {
                    opened_on,
                    right: false,
                });
            }
            BAR => {
                if let Some(group) = self.groups.last_mut() {
                    group.right = true;
                }
            }
            _ => {
                self.groups.pop();
            }
        }
        self.last = kind;
        self.size.records += 1;
        Ok(())
    }

    /// The end: 4 if a group is open or a control corner is not followed, 5 if the last contour is
    /// short.
    fn end(self) -> Result<Size, u32> {
        if !self.groups.is_empty() || self.last == CONTROL {
            return Err(4);
        }
        if self.after_corner() && self.contour < 3 {
            return Err(5);
        }
        Ok(self.size)
    }
}

/// Tries the records in order, then the end.
pub fn check(records: &[u8]) -> Result<Size, Refusal> {
    let (records, rest) = records.as_chunks::<RECORD_BYTES>();
    if !rest.is_empty() || records.len() > MOST_RECORDS {
        return Err(refusal(1, 0));
    }
    let mut grammar = Grammar::new();
    for (place, record) in records.iter().enumerate() {
        if !(AREA..=MOST_KIND).contains(&record[0]) {
            return Err(refusal(2, place));
        }
        if !record_in_range(record) {
            return Err(refusal(3, place));
        }
        let role = record[1].into();
        grammar
            .take(record[0], role, corner_of_record(record))
            .map_err(|number| refusal(number, place))?;
    }
    grammar
        .end()
        .map_err(|number| refusal(number, records.len()))
}

/// Whether a lent drawing is what reading some accepted records leaves, and its size.
pub fn check_tables(plan: &[u32], areas: &[u32], xs: &[u32], ys: &[u32]) -> Option<Size> {
    let [records_in_use, areas_in_use, corners_in_use, kinds @ ..] = plan else {
        return None;
    };
    let said = Size {
        records: *records_in_use as usize,
        areas: *areas_in_use as usize,
        corners: *corners_in_use as usize,
    };
    if said.records > MOST_RECORDS
        || said.records > kinds.len()
        || said.areas > areas.len() / AREA_WORDS
        || said.corners > xs.len()
    {
        return None;
    }
    let mut rows = areas.chunks_exact(AREA_WORDS).take(said.areas);
    let mut corners = xs.iter().zip(ys).take(said.corners);
    let mut grammar = Grammar::new();
    for kind in &kinds[..said.records] {
        let kind = u8::try_from(*kind).ok()?;
        let (mut role, mut at) = (PAINT, (0, 0));
        match kind {
            AREA => {
                let row = rows.next()?;
                let area = Area::of_words(row);
                if !area.in_range() || row[7] != 0 {
                    return None;
                }
                role = area.role;
            }
            FIRST | NEXT | CONTROL => {
                let (x, y) = corners.next()?;
                if !corner_in_range(*x, *y) {
                    return None;
                }
                at = (*x, *y);
            }
            OPEN | BAR | CLOSE => {}
            _ => return None,
        }
        // "met in the tables, 12", as all that the grammar refuses.
        grammar.take(kind, role, at).ok()?;
    }
    grammar.end().ok().filter(|counted| *counted == said)
}

fn answer(result: Result<usize, Refusal>) -> Answer {
    match result {
        Ok(number) => Answer::Accepted(number as u32),
        Err(Refusal { number, place }) => Answer::Refused { number, place },
    }
}

/// Reads records into the four tables; accepted: how many records.
pub fn read(
    records: &[u8],
    plan: &mut [u32],
    areas: &mut [u32],
    xs: &mut [u32],
    ys: &mut [u32],
) -> Answer {
    answer(read_or_refuse(records, plan, areas, xs, ys))
}

fn read_or_refuse(
    records: &[u8],
    plan: &mut [u32],
    areas: &mut [u32],
    xs: &mut [u32],
    ys: &mut [u32],
) -> Result<usize, Refusal> {
    if xs.len() != ys.len() {
        return Err(refusal(7, 0));
    }
    let size = check(records)?;
    if plan.len() < PLAN_COUNTS + size.records
        || areas.len() < AREA_WORDS * size.areas
        || xs.len() < size.corners
    {
        return Err(refusal(11, 0));
    }
    let (counts, kinds) = plan.split_at_mut(PLAN_COUNTS);
    counts.copy_from_slice(&[size.records as u32, size.areas as u32, size.corners as u32]);
    let mut rows = areas.chunks_exact_mut(AREA_WORDS);
    let mut corners = xs.iter_mut().zip(ys);
    for (record, kind) in records.as_chunks::<RECORD_BYTES>().0.iter().zip(kinds) {
        *kind = record[0].into();
        match record[0] {
            AREA => {
                if let Some(row) = rows.next() {
                    let Area {
                        role,
                        rule,
                        alpha,
                        colour,
                        material,
                    } = Area::of_record(record);
                    let [red, green, blue] = colour;
                    row.copy_from_slice(&[role, rule, alpha, red, green, blue, material, 0]);
                }
            }
            FIRST | NEXT | CONTROL => {
                if let Some((x, y)) = corners.next() {
                    (*x, *y) = corner_of_record(record);
                }
            }
            _ => {}
        }
    }
    Ok(size.records)
}

/// Writes a lent drawing out as records; accepted: how many bytes.
pub fn write(plan: &[u32], areas: &[u32], xs: &[u32], ys: &[u32], out: &mut [u8]) -> Answer {
    answer(write_or_refuse(plan, areas, xs, ys, out))
}

fn write_or_refuse(
    plan: &[u32],
    areas: &[u32],
    xs: &[u32],
    ys: &[u32],
    out: &mut [u8],
) -> Result<usize, Refusal> {
    if xs.len() != ys.len() {
        return Err(refusal(7, 0));
    }
    let size = check_tables(plan, areas, xs, ys).ok_or(refusal(12, 0))?;
    let bytes = RECORD_BYTES * size.records;
    if out.len() < bytes {
        return Err(refusal(11, 0));
    }
    let mut rows = areas.chunks_exact(AREA_WORDS);
    let mut corners = xs.iter().zip(ys);
    let records = out[..bytes].as_chunks_mut::<RECORD_BYTES>().0;
    for (record, kind) in records.iter_mut().zip(&plan[PLAN_COUNTS..]) {
        *record = [0; RECORD_BYTES];
        record[0] = *kind as u8;
        match record[0] {
            AREA => {
                if let Some(row) = rows.next() {
                    let area = Area::of_words(row);
                    let [red, green, blue] = area.colour;
                    let fields = [area.role, area.rule, area.alpha, red, green, blue];
                    for (byte, field) in record[1..7].iter_mut().zip(fields) {
                        *byte = field as u8;
                    }
                    record[8..10].copy_from_slice(&(area.material as u16).to_le_bytes());
                }
            }
            FIRST | NEXT | CONTROL => {
                if let Some((x, y)) = corners.next() {
                    record[4..8].copy_from_slice(&x.to_le_bytes());
                    record[8..12].copy_from_slice(&y.to_le_bytes());
                }
            }
            _ => {}
        }
    }
    Ok(bytes)
}
