//! `zones check`: what a drawing has, and what its tree needs.

use std::collections::BTreeMap;

use zones::{
    Growth, Map, Role, AREA_WORDS, CELL_WORDS, ENTRY_WORDS, HEAD_WORDS, MOST_AREAS, MOST_CELLS,
    MOST_CORNERS, MOST_ENTRIES, MOST_GROUPS, MOST_RECORDS, PLAN_COUNTS,
};

use crate::args::Args;
use crate::fault::Fault;
use crate::output;
use crate::record::{Corner, Delimiter, Record};
use crate::source::Source;
use crate::text::{count, grouped};
use crate::tree::Choice;
use crate::words::Ranges;

pub fn run(args: &Args) -> Result<(), Fault> {
    let choice = Choice::of(args)?;
    let source = Source::open(args.operand(0), Ranges::Drawing)?;
    let (map, growth) = choice.grown(&source)?;
    let counts = Counts::of(&source, &map);
    let name = &source.name;
    let parts = [
        format!("{name}: accepted\n"),
        counts.text(),
        materials(&map),
        tree(&map, choice, growth),
        memory(&map, &counts),
    ];
    output::print(&parts.concat())
}

/// How many records of each sort a drawing has.
#[derive(Default)]
struct Counts {
    records: usize,
    paint: usize,
    clip: usize,
    contours: usize,
    corners: usize,
    curves: usize,
    groups: usize,
    /// Groups that are open at once at most.
    deep: usize,
}

impl Counts {
    fn of(source: &Source, map: &Map) -> Counts {
        let clip = map.areas().filter(|area| area.role == Role::Clip).count();
        let mut counts = Counts {
            clip,
            paint: map.areas().count() - clip,
            ..Counts::default()
        };
        let mut open: usize = 0;
        for record in source.rows().iter().map(Record::of) {
            counts.records += 1;
            match record {
                Some(Record::Corner { kind, .. }) => {
                    counts.corners += 1;
                    counts.contours += usize::from(kind == Corner::First);
                    counts.curves += usize::from(kind == Corner::Control);
                }
                Some(Record::Delimiter(Delimiter::Open)) => {
                    counts.groups += 1;
                    open += 1;
                    counts.deep = counts.deep.max(open);
                }
                Some(Record::Delimiter(Delimiter::Close)) => open = open.saturating_sub(1),
                _ => {}
            }
        }
        counts
    }

    fn text(&self) -> String {
        let of = |number: usize, most: usize| {
            let [number, most] = [number, most].map(|number| grouped(number as u64));
            format!("{number} of {most}")
        };
        let areas = of(self.paint + self.clip, MOST_AREAS);
        let corners = of(self.corners, MOST_CORNERS);
        let contours = count(self.contours, "contour");
        let curves = count(self.curves, "curve");
        let deep = of(self.deep, MOST_GROUPS);
        [
            format!("records   {}\n", of(self.records, MOST_RECORDS)),
            format!(
                "areas     {areas}: {} paint, {} clip\n",
                self.paint, self.clip
            ),
            format!("corners   {corners}, in {contours}, with {curves}\n"),
            format!("groups    {}, at most {deep} open at once\n", self.groups),
        ]
        .concat()
    }
}

/// A line for each material: its areas, and the colour of the front one.
fn materials(map: &Map) -> String {
    let mut table: BTreeMap<u16, Vec<u32>> = BTreeMap::new();
    for (area, number) in map.areas().zip(0..) {
        if area.role == Role::Paint {
            table.entry(area.material).or_default().push(number);
        }
    }
    let mut text = "material  colour       alpha  areas\n".to_string();
    for (material, areas) in &table {
        let Some(front) = areas.first().and_then(|number| map.area(*number)) else {
            continue;
        };
        let [red, green, blue] = front.colour;
        let colour = format!("{red} {green} {blue}");
        let alpha = front.alpha;
        let areas: Vec<String> = areas.iter().map(u32::to_string).collect();
        let areas = areas.join(" ");
        text += &format!("{material:8}  {colour:11}  {alpha:5}  {areas}\n");
    }
    match table.is_empty() {
        true => "material  none\n".to_string(),
        false => text,
    }
}

fn tree(map: &Map, choice: Choice, growth: Growth) -> String {
    let [cells, entries] = map.tree().in_use().map(|number| grouped(number.into()));
    let [most_cells, most_entries] =
        [MOST_CELLS, MOST_ENTRIES].map(|number| grouped(number as u64));
    let end = match growth.full {
        true => "full: no room for the next split",
        false => "done",
    };
    let Choice { threshold, limit } = choice;
    let leaves = map.leaves().count();
    let side = map.leaves().map(|leaf| leaf.side).min().unwrap_or_default();
    let side = grouped(side.into());
    [
        format!("tree      threshold {threshold}, limit {limit}: {end}\n"),
        format!(
            "cells     {cells} of {most_cells}; leaves {leaves}, the smallest of side {side}\n"
        ),
        format!("entries   {entries} of {most_entries}\n"),
    ]
    .concat()
}

/// The bytes of tables that are just long enough.
fn memory(map: &Map, counts: &Counts) -> String {
    let areas = counts.paint + counts.clip;
    let drawing = PLAN_COUNTS + counts.records + AREA_WORDS * areas + 2 * counts.corners;
    let [cells, entries] = map.tree().in_use().map(|number| number as usize);
    let tree = HEAD_WORDS + CELL_WORDS * cells + ENTRY_WORDS * entries;
    let [drawing, tree, both] =
        [drawing, tree, drawing + tree].map(|words| grouped(4 * words as u64));
    format!("memory    {both} bytes: drawing {drawing}, tree {tree}\n")
}
