//! The answers from a tree: positions, pixel rows and zone logs.

use crate::class::Square;
use crate::drawing::{refusal, Refusal};
use crate::meaning::{channel_sums, log, material, pixel, samples, Drawing, Reading};
use crate::stream;
use crate::tree::{leaf_at, off_the_grid, Tree};

/// "pixel row over 4,095; first pixel plus pixels over 4,096"
pub const PIXELS: u32 = 4_096;
/// "A row call fills red, green, blue per pixel."
pub const CHANNELS: usize = 3;

/// The set that the leaf's stream shows at a position of the grid, if all that is met passes 12.
fn shown_at(drawing: Drawing, tree: Tree, x: u32, y: u32) -> Option<u64> {
    let leaf = leaf_at(drawing, tree, x, y)?;
    Some(stream::shown(drawing, &leaf.stream, x, y))
}

/// What a position answers: what shows there, and, by document 02, Item 4, the leaf reading's yes or
/// no. "Positions hand it on, together with the leaf's low corner and side."
#[derive(Clone, Copy, PartialEq, Eq, Debug)]
pub struct Spot {
    pub reading: Reading,
    pub uniform: bool,
    pub square: Square,
}

fn spot_at(drawing: Drawing, tree: Tree, x: u32, y: u32) -> Option<Spot> {
    let leaf = leaf_at(drawing, tree, x, y)?;
    let shown = stream::shown(drawing, &leaf.stream, x, y);
    Some(Spot {
        reading: Reading::of_set(drawing, shown),
        uniform: leaf.uniform(),
        square: leaf.square,
    })
}

/// Shown set, material and colour at a position, and how far they reach. Refusals: 7, 12.
pub fn position(drawing: Drawing, tree: Tree, x: u32, y: u32) -> Result<Spot, Refusal> {
    if drawing.xs.len() != drawing.ys.len() || off_the_grid(x, y) {
        return Err(refusal(7, 0));
    }
    spot_at(drawing, tree, x, y).ok_or(refusal(12, 0))
}

/// Fills red, green, blue for each pixel of `out`, from pixel `first` of a row on. Refusals: 7; 12
/// at a pixel, where the "place is the pixel's index in the call, earlier pixels stand, the rest
/// are untouched".
pub fn pixel_row(
    drawing: Drawing,
    tree: Tree,
    row: u32,
    first: u32,
    out: &mut [u8],
) -> Result<(), Refusal> {
    let last = u64::from(first) + (out.len() / CHANNELS) as u64;
    if drawing.xs.len() != drawing.ys.len()
        || row >= PIXELS
        || last > PIXELS.into()
        || !out.len().is_multiple_of(CHANNELS)
    {
        return Err(refusal(7, 0));
    }
    for (i, out) in out.as_chunks_mut::<CHANNELS>().0.iter_mut().enumerate() {
        let mut sums = [[0; CHANNELS]; 16];
        for (sums, (x, y)) in sums.iter_mut().zip(samples(row, first + i as u32)) {
            let shown = shown_at(drawing, tree, x, y).ok_or(refusal(12, i))?;
            *sums = channel_sums(drawing, shown);
        }
        *out = pixel(sums);
    }
    Ok(())
}

/// Writes the zone log of a run of positions and gives its length. Refusals: 7 (unequal tables,
/// then the first position out of range, with its index), 12, 11.
pub fn zone_log(
    drawing: Drawing,
    tree: Tree,
    px: &[u32],
    py: &[u32],
    out: &mut [u32],
) -> Result<u32, Refusal> {
    if drawing.xs.len() != drawing.ys.len() || px.len() != py.len() {
        return Err(refusal(7, 0));
    }
    let run: Vec<(u32, u32)> = px.iter().copied().zip(py.iter().copied()).collect();
    if let Some(index) = run.iter().position(|(x, y)| off_the_grid(*x, *y)) {
        return Err(refusal(7, index));
    }
    let materials: Option<Vec<u32>> = run
        .iter()
        .map(|(x, y)| Some(material(drawing, shown_at(drawing, tree, *x, *y)?)))
        .collect();
    let indices = log(&materials.ok_or(refusal(12, 0))?);
    if indices.len() > out.len() {
        return Err(refusal(11, 0));
    }
    out[..indices.len()].copy_from_slice(&indices);
    Ok(indices.len() as u32)
}
