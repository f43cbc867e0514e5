//! Rows of a match to push: the four columns that the strip reads, gathered a row at a time.

use crate::{Event, Side, StringColumn, TypedColumn, UInt8Column, UInt64Column};
use std::fmt;

/// Rows of a match: number, side, event and player's name. Who has nulls to send, or columns already, pushes columns of
/// [`Strip::KINDS`](crate::Strip::KINDS).
#[derive(Clone, Default)]
pub struct MatchRows {
    numbers: UInt64Column,
    sides: UInt8Column,
    events: UInt8Column,
    names: StringColumn,
}

impl MatchRows {
    /// No rows yet.
    pub fn new() -> MatchRows {
        MatchRows::default()
    }

    /// One more row. A name is its bytes, as text or not; with a revive it is asked for and compared with nothing.
    pub fn push(&mut self, number: u64, side: Side, event: Event, name: impl AsRef<[u8]>) {
        self.numbers.push(Some(number));
        self.sides.push(Some(side.number()));
        self.events.push(Some(event.number()));
        self.names.push_bytes(Some(name.as_ref()));
    }

    /// The columns, for [`BatchCoalescer::push`](crate::BatchCoalescer::push).
    pub fn columns(&self) -> [&dyn TypedColumn; 4] {
        [&self.numbers, &self.sides, &self.events, &self.names]
    }

    /// How many rows.
    pub fn num_rows(&self) -> usize {
        self.numbers.rows()
    }
}

impl fmt::Debug for MatchRows {
    fn fmt(&self, f: &mut fmt::Formatter<'_>) -> fmt::Result {
        f.debug_struct("MatchRows").field("rows", &self.num_rows()).finish()
    }
}
