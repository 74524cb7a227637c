//! The dots of a picture along x or y: which units and which pixels each covers.

use zones::PIXEL_UNITS;

/// So many dots over so many units from a first one on. Dot n covers, in parts of a unit as small as there are dots, n × units to
/// (n + 1) × units from the first unit on.
#[derive(Clone, Copy, PartialEq, Eq, Debug)]
pub struct Axis {
    pub first: u32,
    pub units: u32,
    pub dots: u32,
}

/// A pixel and how much of it a dot covers.
pub type Covered = (u32, u64);

impl Axis {
    /// The unit after the last.
    pub const fn end(&self) -> u32 {
        self.first + self.units
    }

    /// Whether a dot is smaller than a pixel.
    pub const fn fine(&self) -> bool {
        (self.units as u64) < self.pixel()
    }

    /// A pixel in parts of a unit.
    const fn pixel(&self) -> u64 {
        PIXEL_UNITS as u64 * self.dots as u64
    }

    /// The position in the middle of a dot.
    pub const fn middle(&self, dot: u32) -> u32 {
        let twice = (2 * dot as u64 + 1) * self.units as u64;
        self.first + (twice / (2 * self.dots as u64)) as u32
    }

    /// The pixels that a dot covers; together they count as many parts as there are units.
    pub fn covered(self, dot: u32) -> impl Iterator<Item = Covered> {
        let units = u64::from(self.units);
        let begin = u64::from(self.first) * u64::from(self.dots) + u64::from(dot) * units;
        let end = begin + units;
        let pixel = self.pixel();
        (begin / pixel..end.div_ceil(pixel)).map(move |number| {
            let covered = end.min((number + 1) * pixel) - begin.max(number * pixel);
            (number as u32, covered)
        })
    }

    /// The first pixel that is covered and the one after the last.
    pub const fn pixels(&self) -> (u32, u32) {
        (self.first / PIXEL_UNITS, self.end().div_ceil(PIXEL_UNITS))
    }

    /// The dot that begins with a coordinate or has it inside, counted from the first dot, on both sides of the picture. The high
    /// side of the part belongs to the last dot.
    pub fn dot(&self, coordinate: u32) -> i64 {
        let dots = i64::from(self.dots);
        if coordinate == self.end() {
            return dots - 1;
        }
        let from = i64::from(coordinate) - i64::from(self.first);
        (from * dots).div_euclid(i64::from(self.units))
    }
}
