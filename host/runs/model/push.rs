//! "Push, step by step", and finishing. The first step without room names the number: the world is a copy, so that what the steps before it
//! did is thrown away with it.

use super::basics::{Refused, unless};
use super::checks::{Pushed, checked};
use super::view_columns::Way;
use super::world::World;

impl World {
    /// A push behind the tests of 1 and 14.
    pub fn push(&mut self, records: &[u8], body: &[u8], rows: usize) -> Result<(), Refused> {
        if rows == 0 {
            return Ok(()); // step 1: "0 rows: done, nothing changes, before any batch check"
        }
        let columns = checked(self, records, body, rows)?;
        let buffered = self.state.buffered;
        if self.state.limit.is_some_and(|limit| rows > limit && (buffered == 0 || buffered > limit)) {
            // step 2: "with buffered > limit, finish the buffered rows, then queue it whole"
            self.finish("step 2: finishing 1 or more rows with Q queued")?;
            return self.queue_whole(&columns, rows);
        }
        let ways: Vec<Way> = columns.iter().enumerate().map(|(c, column)| self.way(c, column)).collect();
        let mut done = 0;
        while rows - done > self.state.target - self.state.buffered {
            let part = self.state.target - self.state.buffered;
            self.copy(&columns, &ways, done, part)?;
            self.finish("step 3: finishing 1 or more rows with Q queued")?;
            done += part;
        }
        self.copy(&columns, &ways, done, rows - done)?;
        if self.state.buffered == self.state.target { self.finish("step 4: finishing 1 or more rows with Q queued") } else { Ok(()) }
    }

    /// One part: "copy that many into every column in order".
    fn copy(&mut self, columns: &[Pushed], ways: &[Way], done: usize, part: usize) -> Result<(), Refused> {
        for (c, (column, way)) in columns.iter().zip(ways).enumerate() {
            let rows = done..done + part;
            match way {
                Way::Copy => self.copy_cells(c, column, rows),
                Way::Compact { ideal } => self.compact(c, column, rows, *ideal)?,
                Way::Attach => self.attach(c, column, rows)?,
            }
        }
        self.state.buffered += part;
        Ok(())
    }

    /// "Finishing with 0 buffered does nothing. Otherwise each column's open block joins its list and the slot is queued."
    pub fn finish(&mut self, clause: &'static str) -> Result<(), Refused> {
        if self.state.buffered == 0 {
            return Ok(());
        }
        unless(self.state.queued < self.state.queue, 9, clause)?;
        for c in 0..self.state.columns {
            self.close_block(c);
        }
        self.queue(self.state.buffered);
        Ok(())
    }

    /// "Queueing whole tests 9, then 10 by columns": 10 is "a list would pass B", so what stands in the slot's list counts; in a history that
    /// is nothing. "Queued whole: views unchanged, list listed as given, no block opened or closed for it."
    fn queue_whole(&mut self, columns: &[Pushed], rows: usize) -> Result<(), Refused> {
        unless(self.state.queued < self.state.queue, 9, "queueing whole with Q queued")?;
        for (c, column) in columns.iter().enumerate() {
            let length = self.list_length(c) + column.list.len();
            unless(length <= self.state.lists, 10, "queueing whole: a list would pass B")?;
        }
        for (c, column) in columns.iter().enumerate() {
            self.copy_cells(c, column, 0..rows);
            self.attach_list(c, column);
        }
        self.queue(rows);
        Ok(())
    }

    /// The slot being filled is queued with so many rows, and the next one is begun: "used in turn, after the last the first".
    fn queue(&mut self, rows: usize) {
        self.put_count(self.state.place, 0, rows);
        self.state.place = (self.state.place + 1) % (self.state.queue + 1);
        self.state.queued += 1;
        self.state.buffered = 0;
    }
}
