//! A map that owns its tables.

use std::fmt;
use std::vec;
use std::vec::Vec;

use crate::limits::{
    AREA_WORDS, CELL_WORDS, ENTRY_WORDS, HEAD_WORDS, LEAF_WORDS, MOST_AREAS, MOST_CELLS,
    MOST_CORNERS, MOST_ENTRIES, MOST_RECORDS, PLAN_COUNTS, POSITION_WORDS, RECORD_BYTES,
};
use crate::refusal::Refused;
use crate::words::{Area, Cell, Growth, Leaf, Position};
use crate::{Drawing, DrawingMut, Tree, TreeMut};

/// A drawing and the tree over it.
///
/// [`Map::grown`] is all that most callers need; the nine calls are methods too.
///
/// ```
/// use zones::{Map, ADVISED_DEPTH, ADVISED_THRESHOLD};
///
/// // One opaque area of material 7, colour 10 20 30, over the lower left quarter of the grid.
/// let area = [1, 0, 0, 255, 10, 20, 30, 0, 7, 0, 0, 0, 0, 0, 0, 0];
/// let corner = |kind: u8, x: u32, y: u32| {
///     let mut record = [0; 16];
///     record[0] = kind;
///     record[4..8].copy_from_slice(&x.to_le_bytes());
///     record[8..12].copy_from_slice(&y.to_le_bytes());
///     record
/// };
/// let records = [
///     area,
///     corner(2, 0, 0),
///     corner(3, 32_768, 0),
///     corner(3, 32_768, 32_768),
///     corner(3, 0, 32_768),
/// ];
/// let map = Map::grown(&records.concat(), ADVISED_THRESHOLD, ADVISED_DEPTH)?;
/// let inside = map.position(32_767, 5)?;
/// assert_eq!((inside.material, inside.colour), (7, [10, 20, 30]));
/// // The high side of the square does not belong to it: no area, the white ground.
/// let outside = map.position(32_768, 5)?;
/// assert_eq!((outside.material, outside.colour), (0, [255; 3]));
/// // A run that crosses it.
/// assert_eq!(map.zone_log(&[30_000, 32_767, 32_768, 40_000], &[5; 4])?, [0, 2]);
/// # Ok::<(), zones::Refused>(())
/// ```
#[derive(Clone, PartialEq, Eq)]
pub struct Map {
    tables: Tables,
    head: [u32; HEAD_WORDS],
    cells: Vec<u32>,
    entries: Vec<u32>,
}

/// The four tables of a drawing.
#[derive(Clone, PartialEq, Eq)]
struct Tables {
    plan: Vec<u32>,
    areas: Vec<u32>,
    xs: Vec<u32>,
    ys: Vec<u32>,
}

impl Tables {
    fn view(&self) -> Drawing<'_> {
        Drawing {
            plan: &self.plan,
            areas: &self.areas,
            xs: &self.xs,
            ys: &self.ys,
        }
    }

    fn lend(&mut self) -> DrawingMut<'_> {
        DrawingMut {
            plan: &mut self.plan,
            areas: &mut self.areas,
            xs: &mut self.xs,
            ys: &mut self.ys,
        }
    }
}

impl Map {
    /// Reads a file of records, with room for the most cells and entries of a tree (1.2 MB). There is no tree yet: until
    /// [`open`](Map::open), what is asked of the tree is refused with 12.
    pub fn read(records: &[u8]) -> Result<Map, Refused> {
        Map::read_with_room(records, MOST_CELLS, MOST_ENTRIES)
    }

    /// The same with room for so many cells (32 bytes each) and entries (16 bytes each).
    pub fn read_with_room(records: &[u8], cells: usize, entries: usize) -> Result<Map, Refused> {
        // No drawing has more areas or corners than records.
        let most = (records.len() / RECORD_BYTES).min(MOST_RECORDS);
        let corners = most.min(MOST_CORNERS);
        let mut tables = Tables {
            plan: vec![0; PLAN_COUNTS + most],
            areas: vec![0; AREA_WORDS * most.min(MOST_AREAS)],
            xs: vec![0; corners],
            ys: vec![0; corners],
        };
        crate::read(records, tables.lend())?;
        Ok(Map {
            tables,
            head: [0; HEAD_WORDS],
            cells: vec![0; CELL_WORDS * cells.min(MOST_CELLS)],
            entries: vec![0; ENTRY_WORDS * entries.min(MOST_ENTRIES)],
        })
    }

    /// Reads a file of records, opens a tree over the drawing and grows it. A tree that is full answers as well as one that is done.
    pub fn grown(records: &[u8], threshold: u32, limit: u32) -> Result<Map, Refused> {
        let mut map = Map::read(records)?;
        map.open()?;
        map.grow(threshold, limit)?;
        Ok(map)
    }

    /// The drawing's tables.
    pub fn drawing(&self) -> Drawing<'_> {
        self.tables.view()
    }

    /// The tree's tables.
    pub fn tree(&self) -> Tree<'_> {
        Tree {
            head: &self.head,
            cells: &self.cells,
            entries: &self.entries,
        }
    }

    /// The drawing to be read and the tree to be written.
    fn lend(&mut self) -> (Drawing<'_>, TreeMut<'_>) {
        let tree = TreeMut {
            head: &mut self.head,
            cells: &mut self.cells,
            entries: &mut self.entries,
        };
        (self.tables.view(), tree)
    }

    /// The file of records that was read.
    pub fn write(&self) -> Result<Vec<u8>, Refused> {
        let mut out = vec![0; RECORD_BYTES * (self.tables.plan.len() - PLAN_COUNTS)];
        let bytes = crate::write(self.drawing(), &mut out)?;
        out.truncate(bytes as usize);
        Ok(out)
    }

    /// Opens a tree over the drawing, of cell 0 alone; gives its entries. A tree of before is gone.
    pub fn open(&mut self) -> Result<u32, Refused> {
        let (drawing, tree) = self.lend();
        crate::open(drawing, tree)
    }

    /// Splits a cell in four; gives the number of the first.
    pub fn split(&mut self, cell: u32) -> Result<u32, Refused> {
        let (drawing, tree) = self.lend();
        crate::split(drawing, tree, cell)
    }

    /// Splits every leaf with more lines than the threshold and a depth below the limit (0 to 16).
    pub fn grow(&mut self, threshold: u32, limit: u32) -> Result<Growth, Refused> {
        let (drawing, tree) = self.lend();
        crate::grow(drawing, tree, threshold, limit)
    }

    /// The leaf that holds a position.
    ///
    /// ```
    /// use zones::Map;
    ///
    /// let mut map = Map::read(&[])?;
    /// map.open()?;
    /// assert_eq!(map.split(0)?, 1);
    /// // Cells 1 to 4 are the quarters: low x low y, high x low y, low x high y, high x high y.
    /// let leaf = map.find_leaf(40_000, 30_000)?;
    /// assert_eq!((leaf.cell, leaf.x, leaf.y, leaf.side, leaf.steps), (2, 32_768, 0, 32_768, 1));
    /// // No line, curve or shortcut stands in its stream.
    /// assert!(leaf.uniform);
    /// # Ok::<(), zones::Refused>(())
    /// ```
    pub fn find_leaf(&self, x: u32, y: u32) -> Result<Leaf, Refused> {
        let mut words = [0; LEAF_WORDS];
        crate::find_leaf(self.drawing(), self.tree(), x, y, &mut words)?;
        Ok(Leaf::of(&words))
    }

    /// What shows at a position, and how far that reaches ([`Position::reaches`]).
    pub fn position(&self, x: u32, y: u32) -> Result<Position, Refused> {
        let mut words = [0; POSITION_WORDS];
        crate::position(self.drawing(), self.tree(), x, y, &mut words)?;
        Ok(Position::of(&words))
    }

    /// Fills red, green, blue of each pixel of `out`, from pixel `first` of a row on. Row 0 is the lowest.
    ///
    /// ```
    /// use zones::{Map, Refusal};
    ///
    /// let map = Map::grown(&[], 4, 8)?;
    /// let mut pixels = [0; 3 * 4_096];
    /// map.pixel_row(0, 0, &mut pixels)?;
    /// assert!(pixels.iter().all(|channel| *channel == 255));
    /// // One pixel beyond the grid.
    /// let refused = map.pixel_row(0, 1, &mut pixels).unwrap_err();
    /// assert_eq!(refused.refusal, Refusal::Argument);
    /// # Ok::<(), zones::Refused>(())
    /// ```
    pub fn pixel_row(&self, row: u32, first: u32, out: &mut [u8]) -> Result<(), Refused> {
        crate::pixel_row(self.drawing(), self.tree(), row, first, out)
    }

    /// The zone log of a run of positions: index 0 and each index whose material differs from the one before.
    pub fn zone_log(&self, px: &[u32], py: &[u32]) -> Result<Vec<usize>, Refused> {
        let mut out = vec![0; px.len()];
        let count = crate::zone_log(self.drawing(), self.tree(), px, py, &mut out)?;
        let indices = out.into_iter().take(count as usize);
        Ok(indices.map(|index| index as usize).collect())
    }

    /// An area of the drawing.
    pub fn area(&self, number: u32) -> Option<Area> {
        self.drawing().each_area().nth(number as usize)
    }

    /// The areas of the drawing, front first.
    pub fn areas(&self) -> impl Iterator<Item = Area> + '_ {
        self.drawing().each_area()
    }

    /// A cell of the tree.
    pub fn cell(&self, number: u32) -> Option<Cell> {
        self.tree().cell(number)
    }

    /// The cells of the tree, in order.
    pub fn cells(&self) -> impl Iterator<Item = Cell> + '_ {
        self.tree().each_cell()
    }

    /// A cell of the tree, its parent, and so on up to cell 0, each with its number: for a map editor that walks upward from a leaf.
    ///
    /// ```
    /// use zones::Map;
    ///
    /// let mut map = Map::read(&[])?;
    /// map.open()?;
    /// map.split(0)?;
    /// map.split(2)?;
    /// let leaf = map.find_leaf(40_000, 30_000)?;
    /// let squares = map.upward(leaf.cell).map(|(number, cell)| (number, cell.x, cell.y, cell.side));
    /// assert!(squares.eq([(7, 32_768, 16_384, 16_384), (2, 32_768, 0, 32_768), (0, 0, 0, 65_536)]));
    /// // As many steps as the leaf is deep; a number that is not in use is nowhere.
    /// assert_eq!(map.upward(leaf.cell).count() as u32, leaf.steps + 1);
    /// assert_eq!(map.upward(9).count(), 0);
    /// # Ok::<(), zones::Refused>(())
    /// ```
    pub fn upward(&self, cell: u32) -> impl Iterator<Item = (u32, Cell)> + '_ {
        self.tree().upward(cell)
    }

    /// The cells that are not split.
    pub fn leaves(&self) -> impl Iterator<Item = Cell> + '_ {
        self.cells().filter(Cell::is_leaf)
    }
}

/// How much of each table is in use, not the words.
impl fmt::Debug for Map {
    fn fmt(&self, out: &mut fmt::Formatter<'_>) -> fmt::Result {
        let plan = &self.tables.plan;
        let [records, areas, corners] = [plan[0], plan[1], plan[2]];
        let [cells, entries] = self.head;
        out.debug_struct("Map")
            .field("records", &records)
            .field("areas", &areas)
            .field("corners", &corners)
            .field("cells", &cells)
            .field("entries", &entries)
            .finish()
    }
}
