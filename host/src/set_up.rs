//! What set-up fixes, and its bounds (01, "Lent memory").

use crate::{Error, Kind};
use std::fmt;

/// What set-up fixes. The fields are open; [`crate::BatchCoalescer::new`] tests their bounds before it takes memory.
#[derive(Clone, PartialEq, Eq)]
pub struct SetUp {
    /// the columns' kinds, 0 to 16 of them
    pub kinds: Vec<Kind>,
    /// rows of a batch that comes out, 1 to 65,536
    pub target: u32,
    /// rows of the largest batch that may be pushed, from the target to 65,536
    pub rows: u32,
    /// batches that may wait, 1 to 1,024
    pub queue: u32,
    /// buffers in one column of one batch, 1 to 1,024
    pub lists: u32,
    /// buffers in all, 1 to 65,536
    pub numbers: u32,
    /// bytes for buffers and blocks, any number
    pub pool: u32,
}

impl SetUp {
    /// The most columns.
    pub const MOST_COLUMNS: usize = 16;

    /// Batches of `target` rows of these kinds, with room for ordinary use: 8 batches waiting, 64 buffers a column, 1,024 in all, a
    /// pool of 16 MiB. Change the fields for more.
    pub fn new(kinds: &[Kind], target: u32) -> SetUp {
        let rows = target.clamp(8_192, 65_536).max(target);
        SetUp { kinds: kinds.to_vec(), target, rows, queue: 8, lists: 64, numbers: 1_024, pool: 16 << 20 }
    }

    /// Every number is inside its bounds, or the first that is not.
    pub fn check(&self) -> Result<(), Error> {
        let within = |field, is: usize, least, most| {
            if (least..=most).contains(&is) { Ok(()) } else { Err(Error::SetUp { field, is, least, most }) }
        };
        within("kinds", self.kinds.len(), 0, SetUp::MOST_COLUMNS)?;
        within("target", self.target as usize, 1, 65_536)?;
        within("rows", self.rows as usize, self.target as usize, 65_536)?;
        within("queue", self.queue as usize, 1, 1_024)?;
        within("lists", self.lists as usize, 1, 1_024)?;
        within("numbers", self.numbers as usize, 1, 65_536)
    }
}

impl fmt::Debug for SetUp {
    fn fmt(&self, f: &mut fmt::Formatter<'_>) -> fmt::Result {
        let mut shown = f.debug_struct("SetUp");
        shown.field("columns", &self.kinds.len()).field("target", &self.target).field("rows", &self.rows).field("queue", &self.queue);
        shown.field("lists", &self.lists).field("numbers", &self.numbers).field("pool", &self.pool).finish()
    }
}
