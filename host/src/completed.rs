//! A batch that came out, by column: its bytes are its own, and typed iterators go over its rows.

use crate::kind::{Primitive, kinds};
use crate::layout::word;
use crate::{Error, Kind};
use std::borrow::Cow;
use std::fmt;
use std::ops::Range;
use std::sync::Arc;

/// A batch that came out.
#[derive(Clone, PartialEq, Eq)]
pub struct CompletedBatch {
    rows: usize,
    columns: Vec<CompletedColumn>,
}

impl CompletedBatch {
    pub(crate) fn of(rows: usize, columns: Vec<CompletedColumn>) -> CompletedBatch {
        CompletedBatch { rows, columns }
    }

    /// Its rows.
    pub fn num_rows(&self) -> usize {
        self.rows
    }

    /// Its columns.
    pub fn num_columns(&self) -> usize {
        self.columns.len()
    }

    /// A column, the first 0.
    pub fn column(&self, column: usize) -> Result<&CompletedColumn, Error> {
        self.columns.get(column).ok_or(Error::NoColumn { column, columns: self.columns.len() })
    }

    /// All columns in order.
    pub fn columns(&self) -> &[CompletedColumn] {
        &self.columns
    }
}

/// A column that came out, in Arrow's layout: values one behind the other, a bit a row, and for views the buffers that they name. Two
/// are equal where kind and rows are, whatever lies under null rows and wherever strings lie. The columns of a batch share one piece of
/// memory, which lives as long as one of them or a clone does.
#[derive(Clone)]
pub struct CompletedColumn {
    kind: Kind,
    rows: usize,
    taken: Arc<Taken>,
    /// where its values begin in what was taken, the bitmap behind them
    start: usize,
    /// the places of its list among all
    list: Range<usize>,
}

/// What was taken of a batch, in one piece of memory that its columns share: the values and the bitmap of each column, then the buffers
/// that the lists name, each once.
pub(crate) struct Taken {
    pub(crate) bytes: Vec<u8>,
    /// where the buffer of each place stands, one list behind the other
    pub(crate) parts: Vec<Part>,
}

/// A part of what was taken.
#[derive(Clone, Copy, Default)]
pub(crate) struct Part {
    pub(crate) start: usize,
    pub(crate) length: usize,
}

impl Taken {
    /// The bytes of a part.
    fn part(&self, part: Part) -> &[u8] {
        &self.bytes[part.start..][..part.length]
    }
}

impl CompletedColumn {
    /// A column of what was taken; `None` where a view leads outside its buffers.
    pub(crate) fn of(kind: Kind, rows: usize, taken: &Arc<Taken>, start: usize, list: Range<usize>) -> Option<Self> {
        let column = CompletedColumn { kind, rows, taken: Arc::clone(taken), start, list };
        column.leads_inside().then_some(column)
    }

    /// Every view is inline, or leads into a buffer of the list; a view mostly names the buffer of the one before it.
    fn leads_inside(&self) -> bool {
        let filled = |index: usize| self.parts().get(index).map_or(0, |part| part.length);
        let (mut last, mut end) = (0, filled(0));
        let inside = |view: &[u8]| {
            let (length, index) = (word(view, 0) as usize, word(view, 8) as usize);
            if length <= 12 {
                return true;
            }
            if index != last {
                (last, end) = (index, filled(index));
            }
            word(view, 12) as usize + length <= end
        };
        !self.kind.is_view() || self.values().chunks_exact(16).all(inside)
    }

    /// Where the buffers of its list stand.
    fn parts(&self) -> &[Part] {
        &self.taken.parts[self.list.clone()]
    }

    /// Its kind.
    pub fn kind(&self) -> Kind {
        self.kind
    }

    /// Its rows.
    pub fn num_rows(&self) -> usize {
        self.rows
    }

    /// The rows' values, one behind the other, little-endian; of a view 16 bytes, in Arrow's layout.
    pub fn values(&self) -> &[u8] {
        &self.taken.bytes[self.start..][..self.rows * self.kind.width()]
    }

    /// One bit a row from bit 0 on, least significant first, 1 valid; spare bits are 0.
    pub fn validity(&self) -> &[u8] {
        &self.taken.bytes[self.start + self.rows * self.kind.width()..][..self.rows.div_ceil(8)]
    }

    /// The buffers that long views name by place.
    pub fn buffers(&self) -> impl ExactSizeIterator<Item = &[u8]> {
        self.parts().iter().map(|part| self.taken.part(*part))
    }

    /// How many rows are null.
    pub fn null_count(&self) -> usize {
        self.rows.saturating_sub(self.validity().iter().map(|byte| byte.count_ones() as usize).sum())
    }

    /// The row is null; false past the last row.
    pub fn is_null(&self, row: usize) -> bool {
        row < self.rows && self.validity().get(row / 8).is_some_and(|byte| byte >> (row % 8) & 1 == 0)
    }

    /// The bytes of a row, `Some(None)` for null, `None` past the last row: a value's little-endian bytes, or those of a string.
    pub fn row(&self, row: usize) -> Option<Option<&[u8]>> {
        (row < self.rows).then(|| if self.is_null(row) { None } else { self.shown(row) })
    }

    /// The bytes of every row in order, `None` for null.
    pub fn bytes(&self) -> impl ExactSizeIterator<Item = Option<&[u8]>> {
        (0..self.rows).map(|row| self.row(row).flatten())
    }

    /// What a row that is not null shows.
    fn shown(&self, row: usize) -> Option<&[u8]> {
        let value = self.values().get(row * self.kind.width()..)?.get(..self.kind.width())?;
        if !self.kind.is_view() {
            return Some(value);
        }
        match word(value, 0) as usize {
            length @ 0..=12 => value.get(4..4 + length),
            length => {
                let buffer = self.taken.part(*self.parts().get(word(value, 8) as usize)?);
                buffer.get(word(value, 12) as usize..)?.get(..length)
            }
        }
    }

    /// The rows of strings or bytes, `None` for null; refused where the column is not of views.
    pub fn strings(&self) -> Result<impl ExactSizeIterator<Item = Option<&[u8]>>, Error> {
        self.held_to(self.kind.is_view(), Kind::Utf8View)?;
        Ok(self.bytes())
    }

    /// The same as text; bytes that are not UTF-8, which nobody checks on their way in, show as the replacement character.
    pub fn texts(&self) -> Result<impl ExactSizeIterator<Item = Option<Cow<'_, str>>>, Error> {
        Ok(self.strings()?.map(|row| row.map(String::from_utf8_lossy)))
    }

    /// The rows of a plain kind, `None` for null; refused where the column is of another kind.
    pub fn typed<K: Primitive>(&self) -> Result<impl ExactSizeIterator<Item = Option<K::Value>>, Error> {
        self.held_to(self.kind == K::KIND, K::KIND)?;
        let rows = self.values().chunks_exact(self.kind.width()).enumerate();
        Ok(rows.map(|(row, value)| if self.is_null(row) { None } else { K::Bytes::try_from(value).ok().map(K::value) }))
    }

    fn held_to(&self, right: bool, asked: Kind) -> Result<(), Error> {
        if right { Ok(()) } else { Err(Error::WrongKind { is: self.kind, asked }) }
    }
}

impl PartialEq for CompletedColumn {
    fn eq(&self, other: &CompletedColumn) -> bool {
        self.kind == other.kind && self.bytes().eq(other.bytes())
    }
}

impl Eq for CompletedColumn {}

macro_rules! typed {
    ($($name:ident $kind:ident $value:ty;)*) => {
        /// The rows of the number kinds, each refused where the column is of another kind; [`CompletedColumn::typed`] has all kinds.
        impl CompletedColumn {$(
            #[doc = concat!("The rows of [`kinds::", stringify!($kind), "`], `None` for null.")]
            pub fn $name(&self) -> Result<impl ExactSizeIterator<Item = Option<$value>>, Error> {
                self.typed::<kinds::$kind>()
            }
        )*}
    };
}

typed! {
    i8s Int8 i8;
    i16s Int16 i16;
    i32s Int32 i32;
    i64s Int64 i64;
    u8s UInt8 u8;
    u16s UInt16 u16;
    u32s UInt32 u32;
    u64s UInt64 u64;
    f32s Float32 f32;
    f64s Float64 f64;
}

impl fmt::Debug for CompletedBatch {
    fn fmt(&self, f: &mut fmt::Formatter<'_>) -> fmt::Result {
        f.debug_struct("CompletedBatch").field("rows", &self.rows).field("columns", &self.columns).finish()
    }
}

impl fmt::Debug for CompletedColumn {
    fn fmt(&self, f: &mut fmt::Formatter<'_>) -> fmt::Result {
        let (nulls, buffers) = (self.null_count(), self.list.len());
        f.debug_struct("CompletedColumn").field("kind", &self.kind).field("nulls", &nulls).field("buffers", &buffers).finish()
    }
}

#[cfg(test)]
mod tests {
    use super::*;

    /// A view of so many bytes at an offset of the buffer at a place of the list.
    fn view(length: u32, index: u32, offset: u32) -> Vec<u8> {
        [length, 0, index, offset].iter().flat_map(|number| number.to_le_bytes()).collect()
    }

    /// Whether a column of these views is one, over a list of two buffers of 20 and 30 bytes; another column's list stands before it.
    fn is_one(views: &[Vec<u8>]) -> bool {
        let bytes = [views.concat(), vec![0xff; views.len().div_ceil(8)], vec![0; 50]].concat();
        let parts = [90, 20, 30].map(|length| Part { start: bytes.len() - 50, length });
        let taken = Arc::new(Taken { bytes, parts: parts.into() });
        CompletedColumn::of(Kind::BinaryView, views.len(), &taken, 0, 1..3).is_some()
    }

    #[test]
    fn a_view_that_leads_outside_its_buffers_is_refused() {
        let inside = [view(20, 0, 0), view(13, 1, 17), view(12, 7, 99), view(13, 0, 7)];
        assert!(is_one(&[]) && is_one(&inside));
        for outside in [
            view(21, 0, 0),
            view(13, 0, 8),
            view(13, 1, 18),
            view(13, 2, 0),
            view(13, u32::MAX, 0),
            view(13, 0, u32::MAX),
            view(u32::MAX, 1, 13),
        ] {
            for place in 0..=inside.len() {
                let mut views = inside.to_vec();
                views.insert(place, outside.clone());
                assert!(!is_one(&views));
            }
        }
    }
}
