//! The tree over a drawing: when cells are split.

use zones::{Growth, Map, ADVISED_DEPTH, ADVISED_THRESHOLD, MOST_DEPTH};

use crate::args::{Args, Flag};
use crate::fault::Fault;
use crate::source::Source;

pub const THRESHOLD: Flag = Flag::valued("--threshold", "N");
pub const LIMIT: Flag = Flag::valued("--limit", "N");

/// Split are the leaves with more lines than the threshold and a depth below the limit.
#[derive(Clone, Copy, Debug)]
pub struct Choice {
    pub threshold: u32,
    pub limit: u32,
}

impl Choice {
    pub fn of(args: &Args) -> Result<Choice, Fault> {
        Ok(Choice {
            threshold: args
                .number(&THRESHOLD, 0..=u32::MAX)?
                .unwrap_or(ADVISED_THRESHOLD),
            limit: args
                .number(&LIMIT, 0..=MOST_DEPTH)?
                .unwrap_or(ADVISED_DEPTH),
        })
    }

    /// The drawing with its tree.
    pub fn grown(&self, source: &Source) -> Result<(Map, Growth), Fault> {
        let mut map = source.read()?;
        let refused = |refused| source.refused(refused);
        map.open().map_err(refused)?;
        let growth = map.grow(self.threshold, self.limit).map_err(refused)?;
        Ok((map, growth))
    }
}
