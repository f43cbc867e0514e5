//! The coalescer: the names of arrow-select's, over the memory that the port is lent.

use crate::columns::parts::Parts;
use crate::error::{ColumnFault, Error};
use crate::layout::{SetUpSizes, word};
use crate::{Batch, BufferNumber, Column, CompletedBatch, Kind, Memory, Refusal, SetUp, TypedColumn, Validity, front};
use std::fmt;

/// The coalescer, with the memory that the port is lent. A clone takes as much memory again; where the machine has none, the standard library
/// aborts.
#[derive(Clone)]
pub struct BatchCoalescer {
    memory: Memory,
    kinds: Vec<Kind>,
}

impl BatchCoalescer {
    /// Sets up a coalescer, or says which number of the set-up is outside its bounds, or that the machine lacks the memory.
    pub fn new(set_up: &SetUp) -> Result<BatchCoalescer, Error> {
        set_up.check()?;
        let sizes = SetUpSizes::of(set_up).ok_or(Refusal::SetUp)?;
        let mut memory = Memory::of(sizes.slots, sizes.pool, sizes.books)?;
        let kinds: Vec<u8> = set_up.kinds.iter().flat_map(|kind| kind.number().to_le_bytes()).collect();
        memory.set_up(&kinds, set_up.target, set_up.rows, set_up.queue, set_up.lists, set_up.numbers).map_err(Refusal::of)?;
        Ok(BatchCoalescer { memory, kinds: set_up.kinds.clone() })
    }

    /// The same with a limit: a batch of more rows goes out whole where nothing, or more than the limit, is buffered.
    pub fn with_biggest_coalesce_batch_size(mut self, limit: Option<usize>) -> BatchCoalescer {
        self.set_biggest_coalesce_batch_size(limit);
        self
    }

    /// The limit.
    pub fn biggest_coalesce_batch_size(&self) -> Option<usize> {
        self.memory.biggest_coalesce_batch_size().map(|rows| rows as usize)
    }

    /// Another limit, or none. One over 4,294,967,295 is kept as that number, which no batch reaches either.
    pub fn set_biggest_coalesce_batch_size(&mut self, limit: Option<usize>) {
        let limit = limit.map(|rows| u32::try_from(rows).unwrap_or(u32::MAX));
        let set = self.memory.set_biggest_coalesce_batch_size(limit);
        debug_assert_eq!(set, Ok(()), "refused only where the state is not of 304 bytes, and this one is");
    }

    /// Lends bytes to views: a copy in the pool, which occupies `capacity` there, under the lowest free number. A number is yours until you
    /// let it go; after that it may be somebody else's.
    pub fn register_buffer(&mut self, bytes: &[u8], capacity: u32) -> Result<BufferNumber, Refusal> {
        self.memory.register_buffer(bytes, capacity).map(BufferNumber).map_err(Refusal::of)
    }

    /// Lets a buffer go. Rows that were pushed keep their bytes. A number is yours until you let it go; after that it may be somebody
    /// else's.
    pub fn let_go(&mut self, buffer: BufferNumber) -> Result<(), Refusal> {
        self.memory.let_go(buffer.0).map_err(Refusal::of)
    }

    /// The bytes of a buffer that is held or listed.
    pub fn read_buffer(&self, buffer: BufferNumber) -> Result<Vec<u8>, Refusal> {
        self.memory.buffer_refusal(buffer.0).map_err(Refusal::of)?;
        front::buffer(&self.memory, buffer.0)
    }

    /// Pushes all rows of a batch. One of 0 rows is done, and the port looks at nothing of it (01, step 1).
    pub fn push_batch(&mut self, batch: &Batch) -> Result<(), Refusal> {
        self.memory.push_batch(batch.records(), batch.body(), batch.rows()).map_err(Refusal::of)
    }

    /// Pushes typed columns of equally many rows. Long strings are registered for the push and let go behind it, also where it is
    /// refused. While it lasts they occupy the pool twice over and a byte, so that the port copies them into its blocks and a batch
    /// lists few buffers; a column with over 1 MiB of them occupies its own bytes and is listed as it is.
    ///
    /// Columns of 0 rows, and no columns at all (`push(&[])`), are done, and the port looks at nothing of them (01, step 1).
    pub fn push(&mut self, columns: &[&dyn TypedColumn]) -> Result<(), Error> {
        let parts = parts_of(columns)?;
        let mut held = Vec::new();
        let pushed = self.register_texts(&parts, &mut held).and_then(|lists| self.push_parts(&parts, &lists));
        let gone: Result<(), Refusal> = held.into_iter().try_for_each(|number| self.let_go(number));
        pushed.and(gone.map_err(Error::from))
    }

    /// Each column's list: its text registered, if it has one.
    fn register_texts(&mut self, parts: &[Parts], held: &mut Vec<BufferNumber>) -> Result<Vec<Vec<BufferNumber>>, Error> {
        let mut lists = Vec::new();
        for (column, part) in parts.iter().enumerate() {
            let mut list = Vec::new();
            if !part.text.is_empty() {
                let capacity = capacity_for(part.text).ok_or(Error::Column { column, fault: ColumnFault::TooLong })?;
                list.push(self.register_buffer(part.text, capacity)?);
            }
            held.extend(&list);
            lists.push(list);
        }
        Ok(lists)
    }

    fn push_parts(&mut self, parts: &[Parts], lists: &[Vec<BufferNumber>]) -> Result<(), Error> {
        let too_long = Error::Column { column: 0, fault: ColumnFault::TooLong };
        let rows = u32::try_from(parts.first().map_or(0, |part| part.rows)).map_err(|_| too_long)?;
        let columns: Vec<Column> = parts
            .iter()
            .zip(lists)
            .map(|(part, list)| Column {
                kind: part.kind,
                values: part.values,
                validity: part.bitmap.map(|bitmap| Validity { bitmap, first_bit: 0 }),
                buffers: list,
            })
            .collect();
        Ok(self.push_batch(&Batch::new(rows, &columns)?)?)
    }

    /// Queues the buffered rows as a batch, if there are any.
    pub fn finish_buffered_batch(&mut self) -> Result<(), Refusal> {
        self.memory.finish_buffered_batch().map_err(Refusal::of)
    }

    /// Takes the front batch, if there is one.
    pub fn next_completed_batch(&mut self) -> Result<Option<CompletedBatch>, Refusal> {
        let Some(batch) = front::read(&self.memory, &self.kinds)? else { return Ok(None) };
        self.memory.next_completed_batch().map_err(Refusal::of)?;
        Ok(Some(batch))
    }

    /// Rows that wait for more.
    pub fn get_buffered_rows(&self) -> usize {
        self.memory.get_buffered_rows() as usize
    }

    /// A batch can be taken.
    pub fn has_completed_batch(&self) -> bool {
        self.memory.has_completed_batch()
    }

    /// Nothing is buffered and nothing can be taken.
    pub fn is_empty(&self) -> bool {
        self.memory.is_empty()
    }

    /// The kinds of the columns.
    pub fn kinds(&self) -> &[Kind] {
        &self.kinds
    }

    /// The lent memory, to look at.
    pub fn memory(&self) -> &Memory {
        &self.memory
    }

    /// The lent memory, for a call that changes it.
    pub(crate) fn memory_mut(&mut self) -> &mut Memory {
        &mut self.memory
    }

    /// The most rows of a batch, as the state has them.
    pub(crate) fn most_rows(&self) -> usize {
        word(&self.memory.state, 4) as usize
    }
}

/// The columns' parts, all of as many rows as the first.
fn parts_of<'a>(columns: &'a [&dyn TypedColumn]) -> Result<Vec<Parts<'a>>, Error> {
    let mut parts: Vec<Parts> = Vec::new();
    for (column, given) in columns.iter().enumerate() {
        let part = given.parts().map_err(|fault| Error::Column { column, fault })?;
        let wanted = parts.first().map_or(part.rows, |first| first.rows);
        if part.rows != wanted {
            return Err(Error::Column { column, fault: ColumnFault::Rows { rows: part.rows, wanted } });
        }
        parts.push(part);
    }
    Ok(parts)
}

/// What a text occupies while it is pushed: over twice its bytes where it is to be copied into blocks, its bytes where it is listed.
fn capacity_for(text: &[u8]) -> Option<u32> {
    let copied = text.len() <= 1 << 20;
    u32::try_from(if copied { 2 * text.len() + 1 } else { text.len() }).ok()
}

impl fmt::Debug for BatchCoalescer {
    fn fmt(&self, f: &mut fmt::Formatter<'_>) -> fmt::Result {
        let mut shown = f.debug_struct("BatchCoalescer");
        shown.field("kinds", &self.kinds).field("buffered_rows", &self.get_buffered_rows());
        shown.field("has_completed_batch", &self.has_completed_batch()).field("memory", &self.memory).finish()
    }
}
