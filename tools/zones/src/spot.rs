//! `zones where`: what shows at a position, the leaf around it, and the cells around that.

use zones::{Leaf, Map, Position, Refused, MOST_POSITION};

use crate::args::Args;
use crate::fault::Fault;
use crate::output;
use crate::record::Record;
use crate::source::Source;
use crate::text::grouped;
use crate::tree::Choice;
use crate::words::{self, Ranges};

pub fn run(args: &Args) -> Result<(), Fault> {
    let x = coordinate(args, 1)?;
    let y = coordinate(args, 2)?;
    let choice = Choice::of(args)?;
    let source = Source::open(args.operand(0), Ranges::Drawing)?;
    let (map, _) = choice.grown(&source)?;
    let (position, leaf) = asked(&map, x, y).map_err(|refused| off_the_grid(x, y, refused))?;
    let areas = areas(&source, &position);
    let Position {
        material, colour, ..
    } = position;
    let [red, green, blue] = colour;
    let parents = parents_text(&map, &leaf);
    let leaf = leaf_text(&leaf);
    let reach = reach_text(&position);
    output::print(&format!(
        "position  {x},{y}\nmaterial  {material}\ncolour    {red} {green} {blue}\n{areas}{leaf}{parents}{reach}"
    ))
}

/// A number, which the library may refuse.
fn coordinate(args: &Args, index: usize) -> Result<u32, Fault> {
    let position = args.position(index, 0..=MOST_POSITION);
    position.or_else(|fault| args.position(index, 0..=u32::MAX).map_err(|_| fault))
}

/// Of a position: its tables were written by the library alone, so it is out of range.
fn off_the_grid(x: u32, y: u32, refused: Refused) -> Fault {
    let Refused { refusal, .. } = refused;
    let number = refusal.number();
    let most = grouped(MOST_POSITION.into());
    Fault::Refused(format!(
        "zones where: position {x},{y} refused {number}: {refusal}\nPositions are 0 to {most} either way."
    ))
}

fn asked(map: &Map, x: u32, y: u32) -> Result<(Position, Leaf), Refused> {
    Ok((map.position(x, y)?, map.find_leaf(x, y)?))
}

/// A line for each area that shows, front first, with its place in the words.
fn areas(source: &Source, position: &Position) -> String {
    if position.shown == 0 {
        return "areas     none, the white ground\n".to_string();
    }
    let records = source.rows().iter().map(Record::of).enumerate();
    let areas = records.filter(|(_, record)| matches!(record, Some(Record::Area(_))));
    let mut text = String::new();
    for ((record, area), number) in areas.zip(0..) {
        let Some(area) = area.filter(|_| position.shows(number)) else {
            continue;
        };
        let said = words::said(&area);
        let place = match source.places {
            Some(_) => format!("  ({})", source.place(record)),
            None => String::new(),
        };
        text += &format!("area      {number}: {said}{place}\n");
    }
    text
}

fn leaf_text(leaf: &Leaf) -> String {
    let Leaf {
        cell,
        x,
        y,
        side,
        steps,
        entries,
        lines,
        ..
    } = leaf;
    let square = square_text(*x, *y, *side);
    format!("leaf      cell {cell}: {square}; depth {steps}, entries {entries}, lines {lines}\n")
}

/// The cells around the leaf, from its parent up to cell 0.
fn parents_text(map: &Map, leaf: &Leaf) -> String {
    let cells = map.upward(leaf.cell).skip(1);
    let numbers: Vec<String> = cells.map(|(number, _)| number.to_string()).collect();
    match &numbers[..] {
        [] => "parents   none, the leaf is the whole grid\n".to_string(),
        [number] => format!("parents   cell {number}\n"),
        numbers => format!("parents   cells {}\n", numbers.join(", ")),
    }
}

/// How far the answer reaches: the whole leaf, or no further than is asked.
fn reach_text(position: &Position) -> String {
    let Position {
        uniform,
        x,
        y,
        side,
        ..
    } = *position;
    match uniform {
        true => format!("reach     the same for {}\n", square_text(x, y, side)),
        false => "reach     this position: the leaf's stream has a line, a curve or a shortcut\n"
            .to_string(),
    }
}

fn square_text(x: u32, y: u32, side: u32) -> String {
    let (right, top) = (x + side - 1, y + side - 1);
    format!("x {x} to {right}, y {y} to {top}")
}
