//! The state, and its words for a host (LAYOUT, "State").

use super::basics::{Refused, is_view, put_word, unless, width, word};

/// What the state has for one column.
#[derive(Clone, Debug)]
pub struct Column {
    pub kind: usize,
    /// the kept block size
    pub kept: usize,
    /// the number of the open block
    pub open: Option<usize>,
}

/// T, R, Q, the columns in use, B, N and P as set-up fixed them; the limit; the slot being filled, the batches queued, the rows buffered.
#[derive(Clone, Debug)]
pub struct State {
    pub target: usize,
    pub rows: usize,
    pub queue: usize,
    pub columns: usize,
    pub lists: usize,
    pub numbers: usize,
    pub pool: usize,
    pub limit: Option<usize>,
    pub place: usize,
    pub queued: usize,
    pub buffered: usize,
    pub column: Vec<Column>,
}

/// What a flag and the word beside it hold: a flag that is not 0 is set.
fn flagged(flag: usize, value: usize) -> Option<usize> {
    (flag != 0).then_some(value)
}

/// A flag, and the word beside it.
pub fn flag_and_word(value: Option<usize>) -> [usize; 2] {
    value.map_or([0, 0], |value| [1, value])
}

/// Where flags stand, in words: the limit's, and each column's.
fn flags() -> impl Iterator<Item = usize> {
    std::iter::once(7).chain((0..16).map(|c| 14 + 4 * c))
}

/// 14: "a flag that is neither 0 nor 1, or a word beside a flag of 0 that is not zero" codes no state.
pub fn test_coding(bytes: &[u8]) -> Result<(), Refused> {
    for i in flags() {
        let (flag, value) = (word(bytes, 4 * i), word(bytes, 4 * i + 4));
        unless(flag <= 1, 14, "codes no state: a flag that is neither 0 nor 1")?;
        unless(flag == 1 || value == 0, 14, "codes no state: a word beside a flag of 0 that is not zero")?;
    }
    Ok(())
}

/// 1: "lent memory not of the set-up lengths".
pub fn test_length(bytes: &[u8]) -> Result<(), Refused> {
    unless(bytes.len() == 304, 1, "state bytes of another length")
}

/// The state that 304 bytes hold, whatever they are.
pub fn held(bytes: &[u8]) -> State {
    let at = |i: usize| word(bytes, 4 * i);
    let mut column = Vec::new();
    for c in 0..16 {
        column.push(Column { kind: at(12 + 4 * c), kept: at(13 + 4 * c), open: flagged(at(14 + 4 * c), at(15 + 4 * c)) });
    }
    State {
        target: at(0),
        rows: at(1),
        queue: at(2),
        columns: at(3),
        lists: at(4),
        numbers: at(5),
        pool: at(6),
        limit: flagged(at(7), at(8)),
        place: at(9),
        queued: at(10),
        buffered: at(11),
        column,
    }
}

impl State {
    /// The state's bytes.
    pub fn coded(&self) -> Vec<u8> {
        let mut words = vec![self.target, self.rows, self.queue, self.columns, self.lists, self.numbers, self.pool];
        words.extend(flag_and_word(self.limit));
        words.extend([self.place, self.queued, self.buffered]);
        for column in &self.column {
            words.extend([column.kind, column.kept]);
            words.extend(flag_and_word(column.open));
        }
        let mut bytes = vec![0; 4 * words.len()];
        for (i, value) in words.into_iter().enumerate() {
            put_word(&mut bytes, 4 * i, value);
        }
        bytes
    }

    pub fn is_view(&self, c: usize) -> bool {
        is_view(self.column[c].kind)
    }

    /// Bytes of a row of column c. The kind was tested by 1.
    pub fn width(&self, c: usize) -> usize {
        width(self.column[c].kind).expect("a kind of the table")
    }

    /// Bytes of column c in a slot: R x w(c) + ceil(R / 8) + L(c).
    pub fn column_size(&self, c: usize) -> usize {
        let list = if self.is_view(c) { 4 * self.lists } else { 0 };
        self.rows * self.width(c) + self.rows.div_ceil(8) + list
    }

    /// Bytes of one slot.
    pub fn slot_size(&self) -> usize {
        (0..self.columns).map(|c| self.column_size(c)).sum()
    }

    /// Bytes of the books.
    pub fn books_size(&self) -> usize {
        4 + 20 * self.numbers + 4 * (1 + self.columns) * (self.queue + 1)
    }
}
