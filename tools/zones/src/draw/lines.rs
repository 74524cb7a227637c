//! The lines between the cells of a tree, drawn over a row of dots.

use zones::{Cell, Map};

use super::axis::Axis;
use crate::png::Dot;

/// The leaves of a tree over the dots of a picture.
#[derive(Debug)]
pub struct Lines {
    leaves: Vec<Leaf>,
    wide: usize,
}

/// The dots of a leaf's sides: low x, high x, low y, high y.
#[derive(Clone, Copy, Debug)]
struct Leaf {
    x: [i64; 2],
    y: [i64; 2],
}

impl Leaf {
    fn of(cell: &Cell, x: &Axis, y: &Axis) -> Leaf {
        let sides = |axis: &Axis, low: u32| [low, low + cell.side].map(|side| axis.dot(side));
        Leaf {
            x: sides(x, cell.x),
            y: sides(y, cell.y),
        }
    }
}

impl Lines {
    pub fn of(map: &Map, x: &Axis, y: &Axis) -> Lines {
        let leaves = map.leaves();
        Lines {
            leaves: leaves.map(|cell| Leaf::of(&cell, x, y)).collect(),
            wide: x.dots as usize,
        }
    }

    /// Draws the lines that pass through a row of dots, counted from the lowest.
    pub fn over(&self, row: u32, dots: &mut [Dot]) {
        let row = i64::from(row);
        let mut marked = vec![false; self.wide];
        let mut mark = |from: i64, to: i64| {
            let from = from.clamp(0, self.wide as i64) as usize;
            let to = (to + 1).clamp(from as i64, self.wide as i64) as usize;
            marked[from..to].fill(true);
        };
        for Leaf { x, y } in &self.leaves {
            if y.contains(&row) {
                mark(x[0], x[1]);
            } else if y[0] < row && row < y[1] {
                mark(x[0], x[0]);
                mark(x[1], x[1]);
            }
        }
        let lines = dots.iter_mut().zip(marked).filter(|(_, marked)| *marked);
        lines.for_each(|(dot, _)| *dot = line(*dot));
    }
}

/// The colour of a line over a colour: darker over a light one, lighter over a dark one.
fn line(under: Dot) -> Dot {
    let [red, green, blue] = under.map(u32::from);
    let light = 299 * red + 587 * green + 114 * blue;
    let ink = if light < 96_000 { 255 } else { 0 };
    under.map(|channel| ((u32::from(channel) * 9 + ink * 11) / 20) as u8)
}
