//! Where things lie in lent memory, as docs/LAYOUT.md says: the lengths that set-up wants, and what tests read past the calls.
//!
//! [`Reader`] and [`word`] panic where the memory is not that of a set-up: they are for memory that no test damaged.

use crate::{Kind, Memory, SetUp};

/// The word at a place; panics where there are no 4 bytes.
pub fn word(bytes: &[u8], at: usize) -> u32 {
    u32::from_le_bytes(bytes[at..at + 4].try_into().unwrap())
}

/// The lengths of lent memory.
#[derive(Clone, Copy, PartialEq, Eq, Debug)]
pub struct SetUpSizes {
    /// bytes of the slots
    pub slots: usize,
    /// bytes of the books
    pub books: usize,
    /// bytes of the pool
    pub pool: usize,
}

impl SetUpSizes {
    /// Of a set-up; `None` where they do not fit the machine.
    pub fn of(set_up: &SetUp) -> Option<SetUpSizes> {
        let slot = slot_size(&set_up.kinds, set_up.rows as usize, set_up.lists as usize);
        let queue = set_up.queue as usize + 1;
        let counts = 4 * (1 + set_up.kinds.len()) * queue;
        Some(SetUpSizes {
            slots: slot.checked_mul(queue)?,
            books: (set_up.numbers as usize).checked_mul(20)?.checked_add(4 + counts)?,
            pool: set_up.pool as usize,
        })
    }
}

/// Bytes of one column in a slot.
fn column_size(kind: Kind, rows: usize, lists: usize) -> usize {
    rows * kind.width() + rows.div_ceil(8) + if kind.is_view() { 4 * lists } else { 0 }
}

/// Bytes of one slot.
fn slot_size(kinds: &[Kind], rows: usize, lists: usize) -> usize {
    kinds.iter().map(|kind| column_size(*kind, rows, lists)).sum()
}

/// An entry of the books.
#[derive(Clone, Copy, PartialEq, Eq, Debug)]
pub struct Entry {
    /// where in the pool
    pub start: usize,
    /// the bytes that it occupies
    pub capacity: usize,
    /// the bytes that it fills
    pub length: usize,
    /// 1 where the caller holds it
    pub hold: u32,
    /// how many lists name it, an open block once
    pub listings: u32,
}

/// The bytes that a buffer fills by the books, as far as the pool goes: what to make room for. What is read is what the call answers.
pub(crate) fn filled(memory: &Memory, number: u32) -> usize {
    let entry = memory.books.get(4 + 20 * number as usize..).and_then(|rest| rest.get(..20));
    entry.map_or(0, |entry| memory.pool.len().min(word(entry, 8) as usize))
}

/// Memory in which a set-up stands, read by its layout.
pub struct Reader<'a> {
    /// the memory
    pub memory: &'a Memory,
    kinds: Vec<Kind>,
    rows: usize,
    lists: usize,
    numbers: usize,
}

impl<'a> Reader<'a> {
    /// Reads the set-up out of the state: its numbers and the kinds of its columns. Nothing else is looked at here, neither the lengths of
    /// slots, pool and books nor what they hold.
    ///
    /// # Panics
    /// If the state has not the bytes of the words that are read, or a column's kind is none of 1 to 19.
    pub fn new(memory: &'a Memory) -> Reader<'a> {
        let at = |i: usize| word(&memory.state, 4 * i) as usize;
        let kinds = (0..at(3)).map(|c| Kind::of(at(12 + 4 * c) as u32).expect("a kind")).collect();
        Reader { memory, kinds, rows: at(1), lists: at(4), numbers: at(5) }
    }

    /// A word of the state.
    fn state(&self, i: usize) -> usize {
        word(&self.memory.state, 4 * i) as usize
    }

    /// Batches queued.
    pub fn queued(&self) -> usize {
        self.state(10)
    }

    /// Rows buffered.
    pub fn buffered(&self) -> usize {
        self.state(11)
    }

    /// The slot being filled.
    pub fn place(&self) -> usize {
        self.state(9)
    }

    /// The slot of the batch that is k-th in the queue, 0 the front.
    pub fn queued_slot(&self, k: usize) -> usize {
        let slots = self.state(2) + 1;
        (self.place() + slots - self.queued() + k) % slots
    }

    /// The kept block size of a column.
    pub fn kept(&self, c: usize) -> usize {
        self.state(13 + 4 * c)
    }

    /// The number of a column's open block.
    pub fn open_block(&self, c: usize) -> Option<u32> {
        (self.state(14 + 4 * c) == 1).then(|| self.state(15 + 4 * c) as u32)
    }

    /// A buffer's entry; of a free number zeros.
    ///
    /// # Panics
    /// If the books have no 20 bytes at that number's place. Of a number past N, words that are no entry may be answered.
    pub fn entry(&self, number: u32) -> Entry {
        let at = |i: usize| word(&self.memory.books, 4 + 20 * number as usize + 4 * i);
        Entry { start: at(0) as usize, capacity: at(1) as usize, length: at(2) as usize, hold: at(3), listings: at(4) }
    }

    /// The numbers of buffers that are held or listed.
    pub fn live(&self) -> impl Iterator<Item = u32> {
        (0..self.numbers as u32).filter(|number| self.entry(*number).hold + self.entry(*number).listings > 0)
    }

    /// The bytes that a buffer fills.
    pub fn buffer(&self, number: u32) -> &'a [u8] {
        let entry = self.entry(number);
        &self.memory.pool[entry.start..entry.start + entry.length]
    }

    /// A count of a slot: 0 its rows, c + 1 the list length of column c.
    fn count(&self, slot: usize, k: usize) -> usize {
        word(&self.memory.books, 4 + 20 * self.numbers + 4 * ((1 + self.kinds.len()) * slot + k)) as usize
    }

    /// The rows of a slot.
    pub fn rows_in(&self, slot: usize) -> usize {
        self.count(slot, 0)
    }

    /// Where column c of a slot begins.
    fn column_place(&self, slot: usize, c: usize) -> usize {
        slot * slot_size(&self.kinds, self.rows, self.lists) + slot_size(&self.kinds[..c], self.rows, self.lists)
    }

    /// Where the values, the bitmap and the list of column c of a slot begin.
    pub fn column_places(&self, slot: usize, c: usize) -> [usize; 3] {
        let values = self.column_place(slot, c);
        let bitmap = values + self.rows * self.kinds[c].width();
        [values, bitmap, bitmap + self.rows.div_ceil(8)]
    }

    /// The list length of column c of a slot.
    pub fn listed(&self, slot: usize, c: usize) -> usize {
        self.count(slot, c + 1)
    }

    /// The first n rows' values.
    pub fn values(&self, slot: usize, c: usize, n: usize) -> &'a [u8] {
        let [at, ..] = self.column_places(slot, c);
        &self.memory.slots[at..at + n * self.kinds[c].width()]
    }

    /// The bitmap bytes of the first n rows.
    pub fn bitmap(&self, slot: usize, c: usize, n: usize) -> &'a [u8] {
        let [_, at, _] = self.column_places(slot, c);
        &self.memory.slots[at..at + n.div_ceil(8)]
    }

    /// The list of a column.
    pub fn list(&self, slot: usize, c: usize) -> Vec<u32> {
        let [_, _, at] = self.column_places(slot, c);
        (0..self.listed(slot, c)).map(|i| word(&self.memory.slots, at + 4 * i)).collect()
    }

    /// N.
    pub fn numbers(&self) -> usize {
        self.numbers
    }

    /// The kinds of the columns.
    pub fn kinds(&self) -> &[Kind] {
        &self.kinds
    }
}
