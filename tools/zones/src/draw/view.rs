//! Which part of the grid is drawn, with how many dots.

use zones::MOST_COORDINATE;

use super::axis::Axis;
use super::{PART, SIZE};
use crate::args::Args;
use crate::fault::Fault;
use crate::text::{no_number, number, shown};

const WIDE: u32 = 512;
/// Dots to either side at most: one for each unit of the grid.
const MOST_DOTS: u32 = MOST_COORDINATE;

/// The part of the grid that is drawn, and the dots it is drawn with.
#[derive(Clone, Copy, Debug)]
pub struct View {
    pub x: Axis,
    pub y: Axis,
}

impl View {
    pub fn of(args: &Args) -> Result<View, Fault> {
        let [x, y, width, height] = part(args)?;
        let (across, up) = size(args, width, height)?;
        let axis = |first, units, dots| Axis { first, units, dots };
        Ok(View {
            x: axis(x, width, across),
            y: axis(y, height, up),
        })
    }

    /// Whether a dot is smaller than a pixel, in width and in height.
    pub fn fine(&self) -> bool {
        self.x.fine() && self.y.fine()
    }
}

/// The part of the option: x, y, width and height in units.
fn part(args: &Args) -> Result<[u32; 4], Fault> {
    let Some(value) = args.value(&PART) else {
        return Ok([0, 0, MOST_COORDINATE, MOST_COORDINATE]);
    };
    let value = value.to_string_lossy();
    let words: Vec<&str> = value.split(',').collect();
    let [x, y, width, height] = words[..] else {
        let value = shown(&value);
        let what = format!("--part: X,Y,WIDTH,HEIGHT in units is expected, not {value}");
        return Err(args.wrong(&what));
    };
    let whole = |name: &str, word: &str, range| {
        let wrong = || args.wrong(&format!("--part: {name}: {}", no_number(word, &range)));
        number(word, &range).ok_or_else(wrong)
    };
    let low = 0..=MOST_COORDINATE - 1;
    let x = whole("X", x, low.clone())?;
    let y = whole("Y", y, low)?;
    let behind = |name: &str, low: u32, word: &str| {
        let name = format!("{name} from {low} on");
        whole(&name, word, 1..=MOST_COORDINATE - low)
    };
    let width = behind("WIDTH", x, width)?;
    let height = behind("HEIGHT", y, height)?;
    Ok([x, y, width, height])
}

/// The dots of the option to either side. With a width alone, a dot is as high as it is wide, or nearly.
fn size(args: &Args, width: u32, height: u32) -> Result<(u32, u32), Fault> {
    let value = args.value(&SIZE).map(|value| value.to_string_lossy());
    let value = value.unwrap_or(WIDE.to_string().into());
    let dots = |word: &str| {
        let wrong = || {
            let expected = "W or WxH, each a number from 1 to 65,536, is expected";
            args.wrong(&format!("--size: {expected}, not {}", shown(&value)))
        };
        number(word, &(1..=MOST_DOTS)).ok_or_else(wrong)
    };
    if let Some((across, up)) = value.split_once('x') {
        return Ok((dots(across)?, dots(up)?));
    }
    let across = dots(&value)?;
    let [width, height] = [width, height].map(u64::from);
    let up = (2 * u64::from(across) * height + width) / (2 * width);
    Ok((across, up.clamp(1, MOST_DOTS.into()) as u32))
}
