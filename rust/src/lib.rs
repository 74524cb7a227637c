//! Which drawn area a position lies in: a safe wrapper of the proved library `libzones.a`.
//!
//! A drawing is a file of 16-byte records (docs/DRAWING.md). [`Map`] reads one, opens a tree of map cells over it and answers
//! positions, pixel rows and zone logs; it owns its tables and needs the feature `std`, which is on by default. Without `std` the
//! nine calls, [`read`] to [`zone_log`], work on tables that the caller lends, and nothing is allocated.
//!
//! ```
//! use zones::{Drawing, DrawingMut, Position, Tree, TreeMut};
//!
//! // Room for 16 records, 2 areas, 12 corners, 5 cells and 40 entries, which the caller lends.
//! let (mut plan, mut areas, mut xs, mut ys) = ([0; 3 + 16], [0; 8 * 2], [0; 12], [0; 12]);
//! let (mut head, mut cells, mut entries) = ([0; 2], [0; 8 * 5], [0; 4 * 40]);
//!
//! // The empty drawing has no records.
//! let into = DrawingMut { plan: &mut plan, areas: &mut areas, xs: &mut xs, ys: &mut ys };
//! zones::read(&[], into)?;
//! let drawing = Drawing { plan: &plan, areas: &areas, xs: &xs, ys: &ys };
//! let tree = TreeMut { head: &mut head, cells: &mut cells, entries: &mut entries };
//! zones::open(drawing, tree)?;
//! let tree = Tree { head: &head, cells: &cells, entries: &entries };
//! let mut words = [0; zones::POSITION_WORDS];
//! zones::position(drawing, tree, 40_000, 30_000, &mut words)?;
//! assert_eq!(Position::of(&words).colour, [255, 255, 255]);
//! # Ok::<(), zones::Refused>(())
//! ```
//!
//! Every call ends with a result or with a [`Refused`], whatever it is given; a refused call leaves what it was lent as it was, but
//! for a [`grow`] and a [`pixel_row`] that are met by 12.
//!
//! The archive is made by `tools/archive zones` at the top of the repository. The build script takes it from there or from the folder
//! that ZONES_LIB_DIR names.

#![no_std]
#![deny(unsafe_code)]
#![warn(missing_debug_implementations)]

#[cfg(feature = "std")]
extern crate std;

#[allow(unsafe_code)]
mod calls;
mod limits;
#[cfg(feature = "std")]
mod map;
mod refusal;
#[allow(unsafe_code)]
pub mod sys;
mod words;

pub use calls::{
    find_leaf, grow, open, pixel_row, position, read, split, write, zone_log, Drawing, DrawingMut,
    Tree, TreeMut,
};
pub use limits::*;
#[cfg(feature = "std")]
pub use map::Map;
pub use refusal::{Refusal, Refused};
pub use words::{Area, Cell, FillRule, Growth, Leaf, Position, Role, FULL};

/// The example of README.md, run with the others.
#[cfg(doctest)]
#[doc = include_str!("../README.md")]
mod readme {}
