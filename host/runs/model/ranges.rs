//! Refusals 1 and 14: set-up's bounds, the lengths of lent memory, and a state out of range.

use super::basics::{Refused, unless, width};
use super::state::State;
use super::world::World;
use puffwidget::Memory;

/// How many bytes of each memory are lent.
#[derive(Clone, Copy)]
pub struct Lengths {
    pub state: usize,
    pub slots: usize,
    pub pool: usize,
    pub books: usize,
}

impl Lengths {
    pub fn of(memory: &Memory) -> Lengths {
        let [state, slots, pool, books] = [&memory.state, &memory.slots, &memory.pool, &memory.books].map(|bytes| bytes.len());
        Lengths { state, slots, pool, books }
    }
}

/// 1: "set-up outside its bounds, or lent memory not of the set-up lengths".
pub fn test_1(s: &State, lent: Lengths) -> Result<(), Refused> {
    unless((1..=65_536).contains(&s.target), 1, "T 1 to 65,536")?;
    unless(s.target <= s.rows && s.rows <= 65_536, 1, "R, T to 65,536")?;
    unless((1..=1_024).contains(&s.queue), 1, "Q 1 to 1,024")?;
    unless(s.columns <= 16, 1, "columns 0 to 16")?;
    unless((1..=1_024).contains(&s.lists), 1, "B 1 to 1,024")?;
    unless((1..=65_536).contains(&s.numbers), 1, "N 1 to 65,536")?;
    unless(s.pool <= 4_294_967_295, 1, "pool 0 to 4,294,967,295 bytes")?;
    for c in 0..s.columns {
        unless(width(s.column[c].kind).is_some(), 1, "a kind in the table")?;
    }
    unless(lent.slots == (s.queue + 1) * s.slot_size(), 1, "slots of another length")?;
    unless(lent.pool == s.pool, 1, "pool of another length")?;
    unless(lent.books == s.books_size(), 1, "books of another length")
}

/// 14: "state out of range", every clause of its row, and what DECISIONS adds to it (reading 11).
pub fn test_14(world: &World) -> Result<(), Refused> {
    let s = &world.state;
    unless(s.buffered < s.target, 14, "buffered not below T")?;
    unless(s.queued <= s.queue, 14, "queued over Q")?;
    unless(s.place <= s.queue, 14, "a slot's place over Q")?;
    unless(world.used() <= s.numbers, 14, "`used` over N")?;
    for i in 0..world.used() {
        entry_in_range(world, i)?;
    }
    for slot in 0..=s.queue {
        unless(world.count(slot, 0) <= s.rows, 14, "a slot's rows over R")?;
        for c in 0..s.columns {
            list_in_range(world, slot, c)?;
        }
    }
    for c in 0..s.columns {
        column_in_range(world, c)?;
    }
    Ok(())
}

/// "It looks at every entry in use, live or free."
fn entry_in_range(world: &World, i: usize) -> Result<(), Refused> {
    let entry = world.entry(i);
    unless(entry.start + entry.capacity <= world.state.pool, 14, "a buffer past the pool")?;
    unless(entry.length <= entry.capacity, 14, "a buffer longer than its capacity")?;
    unless(entry.hold <= 1, 14, "a hold that is neither 0 nor 1")
}

/// A list of any slot, "queued or not".
fn list_in_range(world: &World, slot: usize, c: usize) -> Result<(), Refused> {
    let s = &world.state;
    let count = world.count(slot, 1 + c);
    if !s.is_view(c) {
        return unless(count == 0, 14, "a list of a column that is not of views");
    }
    unless(count <= s.lists, 14, "a list over B")?;
    for number in world.list(slot, c) {
        unless(number < s.numbers, 14, "a listed number not below N")?;
    }
    Ok(())
}

/// The kept size and the open block of a view column. Another column has neither: 01 opens blocks for view columns alone, so that its
/// words are not looked at.
fn column_in_range(world: &World, c: usize) -> Result<(), Refused> {
    let s = &world.state;
    let column = &s.column[c];
    if !s.is_view(c) {
        return Ok(());
    }
    unless(column.kept >= 4_096, 14, "a view column's kept block size below 4,096")?;
    unless(column.kept <= 1_048_576, 14, "a view column's kept block size over 1,048,576")?;
    if let Some(number) = column.open {
        unless(number < s.numbers, 14, "an open block whose number is not below N")?;
        unless(world.buffer(number).is_some(), 14, "an open block that is a free number")?;
        unless(world.list_length(c) < s.lists, 14, "an open block that its list has no place for")?;
        let open_too = |d: usize| s.is_view(d) && s.column[d].open == Some(number);
        unless(!(0..c).any(open_too), 14, "an open block of two columns")?;
    }
    Ok(())
}
