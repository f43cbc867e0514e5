//! A world: the state, and slots, pool and books as bytes, read and written by docs/LAYOUT.md.

use super::basics::{put_word, word};
use super::state::{State, held};
use puffwidget::Memory;

/// State, slots, pool and books.
#[derive(Clone)]
pub struct World {
    pub state: State,
    pub slots: Vec<u8>,
    pub pool: Vec<u8>,
    pub books: Vec<u8>,
}

/// An entry of the books.
#[derive(Clone, Copy, Default, PartialEq, Eq)]
pub struct Entry {
    pub start: usize,
    pub capacity: usize,
    pub length: usize,
    pub hold: usize,
    pub listings: usize,
}

impl Entry {
    /// "Live means held or listed, never capacity > 0".
    pub fn live(&self) -> bool {
        self.hold != 0 || self.listings != 0
    }
}

impl World {
    /// A copy of lent memory, with the state that its 304 bytes hold.
    pub fn of(memory: &Memory) -> World {
        World { state: held(&memory.state), slots: memory.slots.clone(), pool: memory.pool.clone(), books: memory.books.clone() }
    }

    /// Its bytes.
    pub fn memory(self) -> Memory {
        Memory { state: self.state.coded(), slots: self.slots, pool: self.pool, books: self.books }
    }

    // ---- slots

    /// Where row i of column c of a slot stands; row R is where its bitmap begins.
    pub fn cell_at(&self, slot: usize, c: usize, i: usize) -> usize {
        let before: usize = (0..c).map(|k| self.state.column_size(k)).sum();
        slot * self.state.slot_size() + before + i * self.state.width(c)
    }

    pub fn bitmap_at(&self, slot: usize, c: usize) -> usize {
        self.cell_at(slot, c, self.state.rows)
    }

    /// Where place i of the list of column c of a slot stands.
    fn listed_at(&self, slot: usize, c: usize, i: usize) -> usize {
        self.bitmap_at(slot, c) + self.state.rows.div_ceil(8) + 4 * i
    }

    /// The list of column c of a slot: buffer numbers.
    pub fn list(&self, slot: usize, c: usize) -> Vec<usize> {
        (0..self.count(slot, 1 + c)).map(|i| word(&self.slots, self.listed_at(slot, c, i))).collect()
    }

    /// A number behind the list of column c of the slot being filled.
    pub fn add_to_list(&mut self, c: usize, number: usize) {
        let (slot, length) = (self.state.place, self.list_length(c));
        let at = self.listed_at(slot, c, length);
        put_word(&mut self.slots, at, number);
        self.put_count(slot, 1 + c, length + 1);
    }

    /// Row i of column c of the slot being filled: its bytes and its bit. "A bitmap byte is written when its first row is"; the spare bits
    /// behind row i are zero.
    pub fn put_row(&mut self, c: usize, i: usize, cell: &[u8], valid: bool) {
        let at = self.cell_at(self.state.place, c, i);
        self.slots[at..at + cell.len()].copy_from_slice(cell);
        let byte = self.bitmap_at(self.state.place, c) + i / 8;
        let before = self.slots[byte] & ((1 << (i % 8)) - 1);
        self.slots[byte] = before | (valid as u8) << (i % 8);
    }

    /// Row i of column c of a slot is a value, and not null.
    pub fn is_valid(&self, slot: usize, c: usize, i: usize) -> bool {
        self.slots[self.bitmap_at(slot, c) + i / 8] >> (i % 8) & 1 == 1
    }

    /// "The front of the queue is `queued` slots before it, in turn".
    pub fn front(&self) -> usize {
        let slots = self.state.queue + 1;
        (self.state.place + slots - self.state.queued) % slots
    }

    // ---- books

    /// One more than the highest number that is not free.
    pub fn used(&self) -> usize {
        word(&self.books, 0)
    }

    pub fn put_used(&mut self, used: usize) {
        put_word(&mut self.books, 0, used);
    }

    /// The entry of number i as it stands.
    pub fn entry(&self, i: usize) -> Entry {
        let at = |k: usize| word(&self.books, 4 + 20 * i + 4 * k);
        Entry { start: at(0), capacity: at(1), length: at(2), hold: at(3), listings: at(4) }
    }

    pub fn put_entry(&mut self, i: usize, entry: Entry) {
        let words = [entry.start, entry.capacity, entry.length, entry.hold, entry.listings];
        for (k, value) in words.into_iter().enumerate() {
            put_word(&mut self.books, 4 + 20 * i + 4 * k, value);
        }
    }

    /// The buffer with number i, where there is one: "no search and no test looks past `used`".
    pub fn buffer(&self, i: usize) -> Option<Entry> {
        (i < self.used()).then(|| self.entry(i)).filter(Entry::live)
    }

    /// Where a count of a slot stands: 0 its rows, 1 + c the list length of column c.
    fn count_at(&self, slot: usize, k: usize) -> usize {
        4 + 20 * self.state.numbers + 4 * (1 + self.state.columns) * slot + 4 * k
    }

    pub fn count(&self, slot: usize, k: usize) -> usize {
        word(&self.books, self.count_at(slot, k))
    }

    pub fn put_count(&mut self, slot: usize, k: usize, value: usize) {
        let at = self.count_at(slot, k);
        put_word(&mut self.books, at, value);
    }

    /// The list length of column c of the slot being filled.
    pub fn list_length(&self, c: usize) -> usize {
        self.count(self.state.place, 1 + c)
    }
}
