//! Damages: changes to lent memory or to a pushed batch, each with the number that it must lead to where that is certain.

pub mod batch;
pub mod calls;
pub mod memory;
mod pushed;
pub mod room;
pub mod views;
pub mod walks;

use puffwidget::Memory;
use runs::model::Call;

/// The bytes that a change goes to.
#[derive(Clone, Copy, PartialEq, Eq, Debug)]
pub enum Bytes {
    State,
    Slots,
    Pool,
    Books,
    Records,
    Body,
}

/// One change.
#[derive(Clone, Copy, Debug)]
pub enum Change {
    Word(Bytes, usize, u32),
    Byte(Bytes, usize, u8),
    /// one byte short
    Short(Bytes),
    /// one byte long
    Long(Bytes),
    Rows(u32),
}

/// A damage with what it must lead to, if that is certain, and where a batch has it.
#[derive(Clone, Debug)]
pub struct Damage {
    pub name: &'static str,
    pub changes: Vec<Change>,
    pub number: Option<u32>,
    pub column: usize,
    pub row: usize,
}

impl Damage {
    /// A damage of memory or of a whole batch.
    pub fn of(name: &'static str, change: Change, number: Option<u32>) -> Damage {
        Damage::at(name, vec![change], number, 0, 0)
    }

    /// A damage of a pushed column.
    pub fn at(name: &'static str, changes: Vec<Change>, number: Option<u32>, column: usize, row: usize) -> Damage {
        Damage { name, changes, number, column, row }
    }

    /// Its place in 01's order: "1, 14, then .. 2, 3, then per column 4, 5, 6, and 7 by rows".
    fn rank(&self) -> (u32, usize, u32, usize) {
        match self.number.unwrap_or(0) {
            1 => (0, 0, 0, 0),
            14 => (1, 0, 0, 0),
            n @ (2 | 3) => (n, 0, 0, 0),
            n => (4, self.column, n, self.row),
        }
    }

    /// It writes to one of the words that set-up fixes, or to one that 14 compares with them.
    fn in_state(&self) -> bool {
        self.changes.iter().any(|change| matches!(change, Change::Word(Bytes::State, ..)))
    }

    pub fn apply(&self, memory: &mut Memory, call: &mut Call) {
        for change in &self.changes {
            put(*change, memory, call);
        }
    }
}

/// Two faults at once: the later one is put first, so that the earlier one stands. What comes of two is foretold unless both are of the
/// state, or of one column's views, where one may undo the other.
/// Answers with the numbers of both, 0 where one is not foretold.
pub fn both(a: Damage, b: Damage) -> (Damage, [u32; 2]) {
    let (first, second) = if a.rank() <= b.rank() { (a, b) } else { (b, a) };
    let apart = !(first.in_state() && second.in_state()) && (first.column, first.number) != (second.column, second.number);
    let number = if apart && second.number.is_some() { first.number } else { None };
    let numbers = [first.number.unwrap_or(0), second.number.unwrap_or(0)];
    let changes = [second.changes, first.changes].concat();
    (Damage::at("two faults at once", changes, number, first.column, first.row), numbers)
}

/// The bytes meant; those of a batch only where the call is a push.
fn bytes_of<'a>(bytes: Bytes, memory: &'a mut Memory, call: &'a mut Call) -> Option<&'a mut Vec<u8>> {
    match (bytes, call) {
        (Bytes::State, _) => Some(&mut memory.state),
        (Bytes::Slots, _) => Some(&mut memory.slots),
        (Bytes::Pool, _) => Some(&mut memory.pool),
        (Bytes::Books, _) => Some(&mut memory.books),
        (Bytes::Records, Call::Push { records, .. }) => Some(records),
        (Bytes::Body, Call::Push { body, .. }) => Some(body),
        _ => None,
    }
}

/// One change; a place past the end, which another change may have made, is left.
fn put(change: Change, memory: &mut Memory, call: &mut Call) {
    let (bytes, at, new) = match change {
        Change::Word(bytes, at, value) => (bytes, at, value.to_le_bytes().to_vec()),
        Change::Byte(bytes, at, value) => (bytes, at, vec![value]),
        Change::Short(bytes) => return bytes_of(bytes, memory, call).map(|bytes| bytes.pop()).map_or((), |_| ()),
        Change::Long(bytes) => return bytes_of(bytes, memory, call).map_or((), |bytes| bytes.push(0)),
        Change::Rows(new) => {
            if let Call::Push { rows, .. } = call {
                *rows = new;
            }
            return;
        }
    };
    if let Some(place) = bytes_of(bytes, memory, call).and_then(|bytes| bytes.get_mut(at..at + new.len())) {
        place.copy_from_slice(&new);
    }
}
