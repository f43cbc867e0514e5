//! A pushed column, and a damage of it.

use super::{Bytes, Change, Damage};
use puffwidget::Kind;
use puffwidget::layout::word;

/// A pushed column, read from its record.
pub struct Pushed<'a> {
    pub column: usize,
    pub kind: Kind,
    pub values: usize,
    pub validity: Option<usize>,
    pub first: usize,
    pub list: usize,
    pub count: usize,
    pub rows: usize,
    pub body: &'a [u8],
}

impl<'a> Pushed<'a> {
    pub fn of(records: &[u8], body: &'a [u8], rows: usize, column: usize) -> Pushed<'a> {
        let at = |i: usize| word(records, 32 * column + 4 * i);
        let validity = (at(2) != u32::MAX).then_some(at(2) as usize);
        let kind = Kind::of(at(0)).expect("a kind");
        let (values, first, list, count) = (at(1) as usize, at(3) as usize, at(4) as usize, at(5) as usize);
        Pushed { column, kind, values, validity, first, list, count, rows, body }
    }

    /// A word of its record.
    pub fn record(&self, i: usize, value: u32) -> Change {
        Change::Word(Bytes::Records, 32 * self.column + 4 * i, value)
    }

    /// A damage of one change, in this column.
    pub fn damage(&self, name: &'static str, change: Change, number: u32) -> Option<Damage> {
        Some(Damage::at(name, vec![change], Some(number), self.column, 0))
    }
}
