//! The numbers of docs/DRAWING.md and docs/TABLES.md. `include/zones.h` has the same ones.

/// Bytes of a record.
pub const RECORD_BYTES: usize = 16;
/// Records of a drawing at most.
pub const MOST_RECORDS: usize = 4_096;
/// Areas of a drawing at most.
pub const MOST_AREAS: usize = 64;
/// Corners of a drawing at most, control corners included.
pub const MOST_CORNERS: usize = 2_048;
/// Groups that are open at once at most.
pub const MOST_GROUPS: usize = 8;
/// Coordinates of corners go from 0 to this.
pub const MOST_COORDINATE: u32 = 65_536;
/// Coordinates of positions go from 0 to this.
pub const MOST_POSITION: u32 = 65_535;
/// A curve spans at most so many units in x and in y.
pub const MOST_CURVE_SPAN: u32 = 4_096;

/// Words of `plan` before the kinds of the records.
pub const PLAN_COUNTS: usize = 3;
/// Words of an area.
pub const AREA_WORDS: usize = 8;
/// Words of `head`.
pub const HEAD_WORDS: usize = 2;
/// Words of a cell.
pub const CELL_WORDS: usize = 8;
/// Words of an entry.
pub const ENTRY_WORDS: usize = 4;
/// Cells of a tree at most.
pub const MOST_CELLS: usize = 4_096;
/// Entries of a tree at most.
pub const MOST_ENTRIES: usize = 65_536;
/// The depth limit of a growing, and the depth of a leaf, at most.
pub const MOST_DEPTH: u32 = 16;
/// The threshold and the depth limit of a growing that `include/zones.h` advises, in tables at the limits; it has the figures.
pub const ADVISED_THRESHOLD: u32 = 2;
pub const ADVISED_DEPTH: u32 = 8;

/// Words that [`find_leaf`](crate::find_leaf) writes.
pub const LEAF_WORDS: usize = 8;
/// Words that [`position`](crate::position) writes.
pub const POSITION_WORDS: usize = 10;
/// Bytes of a pixel: red, green, blue.
pub const PIXEL_BYTES: usize = 3;
/// Units of a pixel to either side.
pub const PIXEL_UNITS: u32 = 16;
/// Pixels of a row of the whole grid, and rows.
pub const PIXELS: u32 = 4_096;

/// The longest file of a drawing, in bytes.
pub const FILE_BYTES: usize = RECORD_BYTES * MOST_RECORDS;
/// Words of `plan` that every drawing fits in.
pub const PLAN_LENGTH: usize = PLAN_COUNTS + MOST_RECORDS;
/// Words of `areas` that every drawing fits in.
pub const AREAS_LENGTH: usize = AREA_WORDS * MOST_AREAS;
/// Words of `xs`, and of `ys`, that every drawing fits in.
pub const CORNERS_LENGTH: usize = MOST_CORNERS;
/// Words of `cells` for the most cells.
pub const CELLS_LENGTH: usize = CELL_WORDS * MOST_CELLS;
/// Words of `entries` for the most entries.
pub const ENTRIES_LENGTH: usize = ENTRY_WORDS * MOST_ENTRIES;
