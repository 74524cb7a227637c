//! The leaf lister: "reads a drawing on standard input, grows with threshold 0 and depth limit 4,
//! and prints each leaf in key order: cell, key, side, entries, lines."

use crate::drawing::{
    self, Refusal, AREA_WORDS, MOST_AREAS, MOST_CORNERS, MOST_RECORDS, PLAN_COUNTS,
};
use crate::meaning::Drawing;
use crate::samples::Tables;
use crate::stream;
use crate::tree::{self, End, TreeTables};
use crate::zones::Answer;

/// "Its tables hold 1,024 cells and 4,096 entries".
pub const CELLS: usize = 1_024;
pub const ENTRIES: usize = 4_096;
pub const THRESHOLD: u32 = 0;
pub const LIMIT: u32 = 4;

/// What the lister prints for an input.
pub fn list(input: &[u8]) -> String {
    match listed(input) {
        Ok(text) => text,
        // "A refused drawing prints only `refused N at P`."
        Err(Refusal { number, place }) => format!("refused {number} at {place}\n"),
    }
}

fn listed(input: &[u8]) -> Result<String, Refusal> {
    let mut tables = Tables {
        plan: vec![0; PLAN_COUNTS + MOST_RECORDS],
        areas: vec![0; AREA_WORDS * MOST_AREAS],
        xs: vec![0; MOST_CORNERS],
        ys: vec![0; MOST_CORNERS],
    };
    let (xs, ys) = (&mut tables.xs, &mut tables.ys);
    if let Answer::Refused { number, place } =
        drawing::read(input, &mut tables.plan, &mut tables.areas, xs, ys)
    {
        return Err(Refusal { number, place });
    }
    let drawing = Drawing::of(&tables);
    let mut tables = TreeTables::new(CELLS, ENTRIES);
    tree::open(drawing, &mut tables.lend())?;
    let growth = tree::grow(drawing, &mut tables.lend(), THRESHOLD, LIMIT)?;
    let mut leaves = tables.leaves();
    leaves.sort_by_key(|number| tables.view().cell(*number).square.key());
    let mut text = String::new();
    for number in leaves {
        let square = tables.view().cell(number).square;
        let (key, side) = (square.key(), square.side);
        let stream = tables.stream(number);
        let (entries, lines) = (stream.len(), stream::lines(&stream));
        text += &format!("{number} {key} {side} {entries} {lines}\n");
    }
    // "if growing ends on "full", a last line `full` follows."
    if growth.end == End::Full {
        text += "full\n";
    }
    Ok(text)
}
