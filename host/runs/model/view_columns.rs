//! "View columns (000)": copied as they stand, attached, or compacted into blocks; and "Block size".

use super::basics::{Refused, put_word, unless, word};
use super::checks::Pushed;
use super::world::{Entry, World};
use std::ops::Range;

/// What a push does with a column, decided once for the whole column.
pub enum Way {
    /// no views, or "Ideal 0: views copied, list not attached"
    Copy,
    /// "Actual > 2 x ideal"
    Compact { ideal: usize },
    /// "Otherwise"
    Attach,
}

/// The words of 10, 11 and 12 where no block was open, and where one is closed and another opened.
const FIRST: [&str; 3] = ["opening: a list would pass B", "opening: no free buffer number", "opening: no gap of the capacity wanted"];
const NEXT: [&str; 3] =
    ["next block: a list would pass B", "next block: no free buffer number", "next block: no gap of the capacity wanted"];
/// And of 14.
const NOT_ZERO: &str = "a block: the entry of the free number is not zero";

/// A view's length.
fn length(view: &[u8]) -> usize {
    word(view, 0)
}

/// Bytes that a view has outside its row: lengths over 12.
fn long(view: &[u8]) -> usize {
    if length(view) > 12 { length(view) } else { 0 }
}

impl World {
    /// How a column goes. "Ideal" over the whole pushed column, null rows too; "actual" over its list, where "duplicates count each time".
    pub fn way(&self, c: usize, column: &Pushed) -> Way {
        if !self.state.is_view(c) {
            return Way::Copy;
        }
        let ideal = column.cells.iter().map(|view| long(view)).sum();
        let actual: usize = column.list.iter().map(|number| self.entry(*number).capacity).sum();
        match ideal {
            0 => Way::Copy,
            _ if actual > 2 * ideal => Way::Compact { ideal },
            _ => Way::Attach,
        }
    }

    /// Rows copied as they stand, behind the rows buffered. "Values under null rows are copied too."
    pub fn copy_cells(&mut self, c: usize, column: &Pushed, rows: Range<usize>) {
        for (i, row) in rows.enumerate() {
            self.put_row(c, self.state.buffered + i, &column.cells[row], column.valid[row]);
        }
    }

    /// The whole list behind the slot's list, each number listed once more for each place.
    pub fn attach_list(&mut self, c: usize, column: &Pushed) {
        for number in &column.list {
            self.add_to_list(c, *number);
            self.list_once(*number);
        }
    }

    /// "close the open block, attach the whole list, add the earlier list length to the index of long views only". "Attaching tests 10, the
    /// block it closes counted."
    pub fn attach(&mut self, c: usize, column: &Pushed, rows: Range<usize>) -> Result<(), Refused> {
        let closed = if self.state.column[c].open.is_some() { 1 } else { 0 };
        let length = self.list_length(c) + column.list.len();
        unless(length <= self.state.lists, 10, "attaching: a list would pass B")?;
        unless(length + closed <= self.state.lists, 10, "attaching: a list would pass B, the block it closes counted")?;
        self.close_block(c);
        let earlier = self.list_length(c);
        self.attach_list(c, column);
        for (i, row) in rows.enumerate() {
            let mut view = column.cells[row].clone();
            if long(&view) > 0 {
                let index = word(&view, 8);
                put_word(&mut view, 8, index + earlier);
            }
            self.put_row(c, self.state.buffered + i, &view, column.valid[row]);
        }
        Ok(())
    }

    /// The rows' long bytes go into the open block, a new one, or first the one and then the other.
    pub fn compact(&mut self, c: usize, column: &Pushed, rows: Range<usize>, ideal: usize) -> Result<(), Refused> {
        let first = self.state.buffered;
        let mut next = rows.start; // the first row that is not copied yet
        match self.state.column[c].open.map(|block| self.entry(block)) {
            None => self.open_block(c, ideal, FIRST)?, // "No open block: open one of size for ideal."
            Some(block) if ideal <= block.capacity - block.length => {} // "Ideal fits the open block's rest: use it."
            Some(block) => {
                // "walk the part's views while the rest is at least the length (lengths over 12 lower the rest), copy those"
                let mut rest = block.capacity - block.length;
                let mut copied = 0;
                while next < rows.end && rest >= length(&column.cells[next]) {
                    self.put_compacted(c, column, next, first + next - rows.start)?;
                    rest -= long(&column.cells[next]);
                    copied += long(&column.cells[next]);
                    next += 1;
                }
                // "close the block, open one for ideal minus bytes copied, copy the remainder there, even when it is empty"
                self.close_block(c);
                self.open_block(c, ideal - copied, NEXT)?;
            }
        }
        for row in next..rows.end {
            self.put_compacted(c, column, row, first + row - rows.start)?;
        }
        Ok(())
    }

    /// A row in place i of the slot; a long view's bytes go "into the open block at its filled length", and it gets "the new index and
    /// offset". The block's index is the place that it will have in the list.
    fn put_compacted(&mut self, c: usize, column: &Pushed, row: usize, i: usize) -> Result<(), Refused> {
        let mut view = column.cells[row].clone();
        if long(&view) > 0 {
            let source = self.entry(column.list[word(&view, 8)]).start + word(&view, 12);
            let block = self.state.column[c].open.expect("a block was opened");
            let mut entry = self.entry(block);
            unless(entry.length <= 4_294_967_295, 8, "a copied row would start past 4,294,967,295")?;
            for k in 0..length(&view) {
                self.pool[entry.start + entry.length + k] = self.pool[source + k]; // "lowest byte first"
            }
            put_word(&mut view, 8, self.list_length(c));
            put_word(&mut view, 12, entry.length);
            entry.length += length(&view);
            self.put_entry(block, entry);
        }
        self.put_row(c, i, &view, column.valid[row]);
        Ok(())
    }

    /// The open block of a column of views joins its list, which kept a place for it.
    pub fn close_block(&mut self, c: usize) {
        if self.state.is_view(c)
            && let Some(block) = self.state.column[c].open.take()
        {
            self.add_to_list(c, block);
        }
    }

    /// "Opening a block tests 10, 11, 12"; the open block keeps a place in its list, and "counts as listed". A free number's "entry in the
    /// books is zero": 14 where it is not, which no history leaves (DECISIONS, reading 11).
    fn open_block(&mut self, c: usize, minimum: usize, clauses: [&'static str; 3]) -> Result<(), Refused> {
        unless(self.list_length(c) < self.state.lists, 10, clauses[0])?;
        let capacity = self.asked(c, minimum);
        let number = self.free_number(clauses[1])?;
        let start = self.gap(capacity, clauses[2])?;
        unless(self.entry(number) == Entry::default(), 14, NOT_ZERO)?;
        self.take(number, Entry { start, capacity, length: 0, hold: 0, listings: 1 });
        self.state.column[c].open = Some(number);
        Ok(())
    }

    /// What an ask of column c for a minimum gives.
    fn asked(&mut self, c: usize, minimum: usize) -> usize {
        asked(&mut self.state.column[c].kept, minimum)
    }
}

/// "Block size, per view column, kept across batches": what an ask for a minimum gives, and what is kept after it.
pub fn asked(kept: &mut usize, minimum: usize) -> usize {
    if *kept < 1_048_576 {
        *kept *= 2;
    }
    if *kept < minimum {
        while *kept <= minimum && *kept < 1_048_576 {
            *kept *= 2;
        }
    }
    minimum.max(*kept)
}
