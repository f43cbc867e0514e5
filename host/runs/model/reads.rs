//! Reads: a row of the front batch, and a buffer.

use super::basics::{Refused, unless, word};
use super::world::World;
use puffwidget::RowAnswer;

impl World {
    /// A row of the front batch, or 13: "read of a row .. that isn't there". "Only the front batch's rows are read by calls."
    pub fn read_row(&self, c: usize, i: usize) -> Result<RowAnswer, Refused> {
        let slot = self.front();
        unless(self.state.queued > 0, 13, "read of a row: nothing queued")?;
        unless(c < self.state.columns, 13, "read of a row: no such column")?;
        unless(i < self.count(slot, 0), 13, "read of a row: no such row")?;
        let at = self.cell_at(slot, c, i);
        if !self.is_valid(slot, c, i) {
            return Ok(RowAnswer::Null);
        }
        if !self.state.is_view(c) {
            return Ok(RowAnswer::InRow { start: at as u64, length: self.state.width(c) as u32 });
        }
        let [length, index, offset] = [0, 8, 12].map(|k| word(&self.slots, at + k));
        if length <= 12 {
            return Ok(RowAnswer::InRow { start: at as u64 + 4, length: length as u32 });
        }
        // "A long view that points outside its list, which no history leaves, is not there"
        let list = self.list(slot, c);
        unless(index < list.len(), 13, "read of a row: a long view outside its list")?;
        Ok(RowAnswer::InBuffer { number: list[index] as u32, offset: offset as u32, length: length as u32 })
    }

    /// The part of the pool that a live buffer fills, or 13: "Any live buffer can be read, the open block too".
    pub fn read_buffer(&self, number: usize) -> Result<Vec<u8>, Refused> {
        let buffer = self.buffer(number);
        unless(buffer.is_some(), 13, "read of a buffer that isn't there")?;
        Ok(buffer.map_or(Vec::new(), |entry| self.pool[entry.start..entry.start + entry.length].to_vec()))
    }
}
