//! The calls that answer from a tree, each by the library and by the second implementation,
//! compared in all that can be seen.

use std::fmt::Debug;
use std::hint::black_box;

use crate::class::Square;
use crate::compare;
use crate::drawing::{refusal, Refusal};
use crate::lent::{Lent, LentTables, LentTree};
use crate::meaning::{Drawing, Reading};
use crate::query::{self, Spot};
use crate::tree::Tree;
use crate::zones::{self, Answer};

/// Words that a position is written to.
pub const SPOT_WORDS: usize = 10;
/// The first of them, which say what shows.
pub const SHOWN_WORDS: usize = 6;

/// The low and the high half of the set, material, red, green, blue.
pub fn shown_words(reading: Reading) -> [u32; SHOWN_WORDS] {
    let [red, green, blue] = reading.colour;
    let (low, high) = (reading.shown as u32, (reading.shown >> 32) as u32);
    [low, high, reading.material, red, green, blue]
}

/// Those, then 1 for yes or 0 for no, the low corner of the leaf and its side.
pub fn spot_words(spot: Spot) -> [u32; SPOT_WORDS] {
    let [low, high, material, red, green, blue] = shown_words(spot.reading);
    let Square { x, y, side } = spot.square;
    let uniform = spot.uniform.into();
    [low, high, material, red, green, blue, uniform, x, y, side]
}

/// A drawing and a tree that are only read: the library has copies of its own.
pub struct Reader<'a> {
    drawing: &'a LentTables,
    tree: &'a LentTree,
    lent_drawing: LentTables,
    lent_tree: LentTree,
}

impl Reader<'_> {
    pub fn new<'a>(drawing: &'a LentTables, tree: &'a LentTree) -> Reader<'a> {
        Reader {
            drawing,
            tree,
            lent_drawing: drawing.clone(),
            lent_tree: tree.clone(),
        }
    }

    /// No word of the drawing and the tree was changed, and none around them.
    pub fn finish(self) {
        assert!(self.lent_drawing == *self.drawing, "drawing changed");
        assert!(self.lent_tree == *self.tree, "tree changed");
    }

    /// One call by both, into copies of one output: the answers are equal, and so is every item of
    /// the outputs and of the guards around them.
    fn by_both<T: Copy + PartialEq + Debug>(
        &mut self,
        blank: &Lent<T>,
        library: impl FnOnce(Drawing, Tree, &mut [T]) -> Answer,
        second: impl FnOnce(Drawing, Tree, &mut [T]) -> Result<u32, Refusal>,
    ) -> (Answer, Lent<T>) {
        let (mut by_library, mut by_second) = (blank.clone(), blank.clone());
        let (drawing, tree) = (self.drawing, self.tree);
        // The compiler must not take for granted that the library keeps to what it was lent.
        black_box((&mut self.lent_drawing, &mut self.lent_tree, &mut by_library));
        let (lent_drawing, lent_tree) = (self.lent_drawing.drawing(), self.lent_tree.view());
        let answer = library(lent_drawing, lent_tree, by_library.table_mut());
        black_box((&mut self.lent_drawing, &mut self.lent_tree, &mut by_library));
        let expected = second(drawing.drawing(), tree.view(), by_second.table_mut());
        let expected = compare::answer(expected);
        assert_eq!(answer, expected, "library, second; {drawing:?} {tree:?}");
        assert!(
            by_library == by_second,
            "outputs differ: {by_library:?} {by_second:?} {drawing:?} {tree:?}"
        );
        (answer, by_library)
    }

    /// Reads at a position by both. A refusal writes nothing.
    pub fn position(&mut self, (x, y): (u32, u32), blank: &Lent<u32>) -> (Answer, Lent<u32>) {
        let (answer, out) = self.by_both(
            blank,
            |drawing, tree, out| zones::position(drawing, tree, x, y, out),
            |drawing, tree, out| {
                let spot = query::position(drawing, tree, x, y)?;
                // "another output table too short for the whole result"
                let room = out.get_mut(..SPOT_WORDS).ok_or(refusal(11, 0))?;
                room.copy_from_slice(&spot_words(spot));
                Ok(spot.reading.material)
            },
        );
        if let Answer::Refused { place, .. } = answer {
            assert_eq!(place, 0);
            assert!(out == *blank, "written on a refusal");
        }
        (answer, out)
    }

    /// Writes the log of a run by both. A refusal writes nothing.
    pub fn zone_log(
        &mut self,
        px: &Lent<u32>,
        py: &Lent<u32>,
        blank: &Lent<u32>,
    ) -> (Answer, Lent<u32>) {
        let mut run = (px.clone(), py.clone());
        let (answer, out) = self.by_both(
            blank,
            |drawing, tree, out| {
                black_box(&mut run);
                let answer = zones::zone_log(drawing, tree, run.0.table(), run.1.table(), out);
                black_box(&mut run);
                answer
            },
            |drawing, tree, out| query::zone_log(drawing, tree, px.table(), py.table(), out),
        );
        assert!(run.0 == *px && run.1 == *py, "run changed");
        match answer {
            Answer::Refused { number, place } => {
                assert!(place == 0 || number == 7);
                assert!(out == *blank, "written on a refusal");
            }
            Answer::Accepted(indices) => {
                let behind = indices as usize;
                assert_eq!(out.table()[behind..], blank.table()[behind..]);
            }
        }
        (answer, out)
    }

    /// Fills pixels of a row by both. A 7 writes nothing; from the pixel that 12 met on nothing is
    /// written.
    pub fn pixel_row(&mut self, row: u32, first: u32, blank: &Lent<u8>) -> (Answer, Lent<u8>) {
        let (answer, out) = self.by_both(
            blank,
            |drawing, tree, out| zones::pixel_row(drawing, tree, row, first, out),
            |drawing, tree, out| query::pixel_row(drawing, tree, row, first, out).map(|()| 0),
        );
        if let Answer::Refused { number, place } = answer {
            assert!(place == 0 || number == 12);
            let untouched = query::CHANNELS * place as usize;
            assert_eq!(out.table()[untouched..], blank.table()[untouched..]);
        }
        (answer, out)
    }
}
