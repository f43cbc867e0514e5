//! Buffers: numbers and room given, listings, and what becomes free (01, "Lent memory").

use super::basics::Refused;
use super::world::{Entry, World};

impl World {
    /// "the lowest free number", or 11.
    pub fn free_number(&self, clause: &'static str) -> Result<usize, Refused> {
        let free = (0..self.state.numbers).find(|i| self.buffer(*i).is_none());
        free.ok_or(Refused { number: 11, clause })
    }

    /// "the lowest start where it overlaps no other", or 12: 0, or the end of a buffer. "Capacity 0 starts at 0 and overlaps nothing."
    pub fn gap(&self, capacity: usize, clause: &'static str) -> Result<usize, Refused> {
        if capacity == 0 {
            return Ok(0);
        }
        let live = (0..self.used()).filter_map(|i| self.buffer(i)).filter(|entry| entry.capacity > 0);
        let live: Vec<Entry> = live.collect();
        let apart = |start: usize| live.iter().all(|e| start + capacity <= e.start || e.start + e.capacity <= start);
        let starts = std::iter::once(0).chain(live.iter().map(|e| e.start + e.capacity));
        let fits = |start: &usize| start + capacity <= self.state.pool && apart(*start);
        starts.filter(fits).min().ok_or(Refused { number: 12, clause })
    }

    /// An entry for a free number.
    pub fn take(&mut self, number: usize, entry: Entry) {
        self.put_entry(number, entry);
        self.put_used(self.used().max(number + 1));
    }

    /// One listing more; "Listings stop at the largest word".
    pub fn list_once(&mut self, number: usize) {
        let mut entry = self.entry(number);
        entry.listings = (entry.listings + 1).min(4_294_967_295);
        self.put_entry(number, entry);
    }

    /// One listing less.
    pub fn unlist_once(&mut self, number: usize) {
        let mut entry = self.entry(number);
        entry.listings = entry.listings.saturating_sub(1);
        self.put_entry(number, entry);
        self.free_unused(number);
    }

    /// The caller's hold is gone.
    pub fn release(&mut self, number: usize) {
        let mut entry = self.entry(number);
        entry.hold = 0;
        self.put_entry(number, entry);
        self.free_unused(number);
    }

    /// "With no hold and no listing left it is free, its entry in the books is zero, and its number and room are used again."
    fn free_unused(&mut self, number: usize) {
        if self.entry(number).live() {
            return;
        }
        self.put_entry(number, Entry::default());
        let highest = (0..self.used()).rfind(|i| self.entry(*i).live());
        self.put_used(highest.map_or(0, |i| i + 1));
    }
}
