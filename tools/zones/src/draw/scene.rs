//! The dots of a picture, row by row.

use std::panic::resume_unwind;
use std::thread;

use zones::{Map, Refused, PIXEL_BYTES};

use super::axis::Covered;
use super::lines::Lines;
use super::view::View;
use crate::png::Dot;

/// Rows of dots that a thread draws at a time.
pub const ROWS: usize = 8;

/// What is drawn.
pub struct Scene {
    map: Map,
    view: View,
    lines: Option<Lines>,
    /// For each dot of a row the pixels that it covers, counted from the first of the row; none where dots are smaller.
    across: Vec<Vec<Covered>>,
}

impl Scene {
    pub fn of(map: Map, view: View, lines: Option<Lines>) -> Scene {
        let (first, _) = view.x.pixels();
        let from_first = |(pixel, covered)| (pixel - first, covered);
        let dots = if view.fine() { 0 } else { view.x.dots };
        let covered = |dot| view.x.covered(dot).map(from_first).collect();
        Scene {
            map,
            view,
            lines,
            across: (0..dots).map(covered).collect(),
        }
    }

    /// Rows of dots, a part of them by each thread.
    pub fn batch(&self, rows: &[u32]) -> Result<Vec<Vec<Dot>>, Refused> {
        thread::scope(|scope| {
            let parts = rows.chunks(ROWS);
            let threads: Vec<_> = parts.map(|part| scope.spawn(|| self.rows(part))).collect();
            let mut drawn = Vec::new();
            for thread in threads {
                let part = thread.join().unwrap_or_else(|panic| resume_unwind(panic));
                drawn.extend(part?);
            }
            Ok(drawn)
        })
    }

    /// Rows of dots that follow each other.
    fn rows(&self, rows: &[u32]) -> Result<Vec<Vec<Dot>>, Refused> {
        let mut means = Means {
            scene: self,
            last: None,
        };
        let row = |row: &u32| {
            let mut dots = match self.view.fine() {
                true => self.positions(*row)?,
                false => means.row(*row)?,
            };
            if let Some(lines) = &self.lines {
                lines.over(*row, &mut dots);
            }
            Ok(dots)
        };
        rows.iter().map(row).collect()
    }

    /// A row of dots, each the colour of the position in its middle.
    fn positions(&self, row: u32) -> Result<Vec<Dot>, Refused> {
        let View { x, y } = self.view;
        let y = y.middle(row);
        let mut last = None;
        let colour = |dot: u32| {
            let x = x.middle(dot);
            match last {
                // Many dots may lie in one unit.
                Some((same, colour)) if same == x => Ok(colour),
                _ => {
                    let colour = self.map.position(x, y)?.colour;
                    last = Some((x, colour));
                    Ok(colour)
                }
            }
        };
        (0..x.dots).map(colour).collect()
    }
}

/// Sums of the channels of a dot.
type Sums = [u64; PIXEL_BYTES];

/// Rows of dots, each the mean of the pixels that it covers, a pixel that it covers in part counting as much as that part.
struct Means<'a> {
    scene: &'a Scene,
    /// The last row of pixels, summed over each dot's width.
    last: Option<(u32, Vec<Sums>)>,
}

impl Means<'_> {
    fn row(&mut self, row: u32) -> Result<Vec<Dot>, Refused> {
        let mut sums = vec![[0; PIXEL_BYTES]; self.scene.across.len()];
        // From the top down, as the rows of dots are: the next one may begin in the last row of pixels.
        let mut rows: Vec<Covered> = self.scene.view.y.covered(row).collect();
        rows.reverse();
        for (row, covered) in rows {
            for (sums, more) in sums.iter_mut().zip(self.pixels(row)?) {
                for (sum, more) in sums.iter_mut().zip(more) {
                    *sum += covered * more;
                }
            }
        }
        let View { x, y } = self.scene.view;
        let all = u64::from(x.units) * u64::from(y.units);
        let mean = |sum: u64| ((2 * sum + all) / (2 * all)) as u8;
        Ok(sums.into_iter().map(|sums| sums.map(mean)).collect())
    }

    /// A row of pixels, summed over each dot's width.
    fn pixels(&mut self, row: u32) -> Result<&[Sums], Refused> {
        if self.last.as_ref().is_none_or(|(last, _)| *last != row) {
            self.last = Some((row, self.summed(row)?));
        }
        Ok(self.last.as_ref().map_or(&[], |(_, sums)| sums))
    }

    fn summed(&self, row: u32) -> Result<Vec<Sums>, Refused> {
        let (first, end) = self.scene.view.x.pixels();
        let mut bytes = vec![0; PIXEL_BYTES * (end - first) as usize];
        self.scene.map.pixel_row(row, first, &mut bytes)?;
        let pixels = bytes.as_chunks::<PIXEL_BYTES>().0;
        let sums = |covered: &Vec<Covered>| {
            let mut sums = [0; PIXEL_BYTES];
            for (pixel, covered) in covered {
                for (sum, channel) in sums.iter_mut().zip(pixels[*pixel as usize]) {
                    *sum += covered * u64::from(channel);
                }
            }
            sums
        };
        Ok(self.scene.across.iter().map(sums).collect())
    }
}
