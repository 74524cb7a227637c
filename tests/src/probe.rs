//! Calls of the library for the tests only: the check of a lent stream, its reading at a position,
//! the making of a child's stream, and the tallies of the children after each pass. Their C
//! functions, and safe functions on slices over them.

use crate::class::Square;
use crate::samples::Tables;
use crate::stream::InUse;

extern "C" {
    fn probe_check(
        entries: *const u32,
        entries_len: usize,
        first: usize,
        count: usize,
        used: usize,
        areas: *const u32,
        areas_len: usize,
        xs: *const u32,
        xs_len: usize,
        ys: *const u32,
        ys_len: usize,
        areas_used: usize,
        corners_used: usize,
        low: u32,
        side: u32,
    ) -> u32;

    fn probe_read(
        entries: *const u32,
        entries_len: usize,
        first: usize,
        count: usize,
        used: usize,
        areas: *const u32,
        areas_len: usize,
        xs: *const u32,
        xs_len: usize,
        ys: *const u32,
        ys_len: usize,
        areas_used: usize,
        corners_used: usize,
        low: u32,
        side: u32,
        x: u32,
        y: u32,
    ) -> u64;

    fn probe_child(
        entries: *mut u32,
        entries_len: usize,
        first: usize,
        count: usize,
        used: usize,
        areas: *const u32,
        areas_len: usize,
        xs: *const u32,
        xs_len: usize,
        ys: *const u32,
        ys_len: usize,
        areas_used: usize,
        corners_used: usize,
        low: u32,
        side: u32,
        x: u32,
        y: u32,
        half: u32,
    ) -> u64;

    fn probe_tally(
        entries: *const u32,
        entries_len: usize,
        first: usize,
        count: usize,
        used: usize,
        areas: *const u32,
        areas_len: usize,
        xs: *const u32,
        xs_len: usize,
        ys: *const u32,
        ys_len: usize,
        areas_used: usize,
        corners_used: usize,
        low: u32,
        side: u32,
        x: u32,
        passes: u32,
        child: u32,
        number: usize,
    ) -> i64;
}

/// A lent stream: where its entries stand in their table, what is in use, the tables of the drawing
/// and the square of its cell.
#[derive(Clone, Copy, Debug)]
pub struct Lent<'a> {
    pub first: usize,
    pub count: usize,
    pub in_use: InUse,
    pub tables: &'a Tables,
    pub square: Square,
}

/// A call on a lent stream, whose entries' pointer is `as_ptr` or `as_mut_ptr`, and what else the
/// function takes. Each pointer comes with the length of its own slice.
macro_rules! on_stream {
    ($function:ident, $lent:expr, $pointer:ident $entries:expr $(, $more:expr)*) => {
        unsafe {
            $function(
                $entries.$pointer(),
                $entries.len(),
                $lent.first,
                $lent.count,
                $lent.in_use.entries,
                $lent.tables.areas.as_ptr(),
                $lent.tables.areas.len(),
                $lent.tables.xs.as_ptr(),
                $lent.tables.xs.len(),
                $lent.tables.ys.as_ptr(),
                $lent.tables.ys.len(),
                $lent.in_use.areas,
                $lent.in_use.corners,
                $lent.square.y,
                $lent.square.side
                $(, $more)*
            )
        }
    };
}

impl Lent<'_> {
    /// Whether the stream passes 12.
    pub fn check(&self, entries: &[u32]) -> bool {
        let answer = on_stream!(probe_check, self, as_ptr entries);
        assert!(answer <= 1, "{answer}");
        answer == 1
    }

    /// The shown set at a position; 0 if the stream does not pass or this is no position.
    pub fn read(&self, entries: &[u32], x: u32, y: u32) -> u64 {
        on_stream!(probe_read, self, as_ptr entries, x, y)
    }

    /// Writes the stream of a square behind the entries in use: how many entries it has. None, and
    /// nothing is written, if the stream does not pass, the square is not that of a cell, or there
    /// is no room.
    pub fn child(&self, entries: &mut [u32], square: Square) -> Option<usize> {
        let Square { x, y, side } = square;
        let answer = on_stream!(probe_child, self, as_mut_ptr entries, x, y, side);
        (answer as usize).checked_sub(1)
    }

    /// A number of the tally of a child, after the passes of the first so many children: 0 its
    /// entries, 1 its lines, 2 how many start numbers it has, 3 and on the start numbers. 0 if the
    /// stream does not pass, its square has no children, or there is no such child or number.
    pub fn tally(&self, entries: &[u32], passes: u32, child: u32, number: usize) -> i64 {
        let x = self.square.x;
        on_stream!(probe_tally, self, as_ptr entries, x, passes, child, number)
    }
}
