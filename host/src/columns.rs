//! Typed columns to push: rows from an iterator, strings gathered in a text that the push registers and lets go by itself.

use crate::error::{ColumnFault, Error};
use crate::kind::{Primitive, View, kinds};
use crate::{Kind, inline_view, long_view};
use std::fmt;
use std::marker::PhantomData;

/// A column that [`crate::BatchCoalescer::push`] takes: a [`PrimitiveColumn`] or a [`ViewColumn`].
pub trait TypedColumn: parts::AsParts {
    /// Its rows.
    fn rows(&self) -> usize;
}

pub(crate) mod parts {
    use super::{ColumnFault, Kind};

    /// What a push takes of a column.
    pub struct Parts<'a> {
        pub kind: Kind,
        pub rows: usize,
        pub values: &'a [u8],
        /// from bit 0 on, where a row is null
        pub bitmap: Option<&'a [u8]>,
        /// the bytes of the long strings, which the views name as buffer 0
        pub text: &'a [u8],
    }

    /// Only this crate's columns are pushed.
    pub trait AsParts {
        fn parts(&self) -> Result<Parts<'_>, ColumnFault>;
    }
}

/// One bit a row, 1 valid.
#[derive(Clone, Default)]
struct Bits {
    bytes: Vec<u8>,
    rows: usize,
    nulls: usize,
}

impl Bits {
    fn push(&mut self, valid: bool) {
        if self.rows % 8 == 0 {
            self.bytes.push(0);
        }
        if let Some(last) = self.bytes.last_mut() {
            *last |= u8::from(valid) << (self.rows % 8);
        }
        self.rows += 1;
        self.nulls += usize::from(!valid);
    }

    fn bitmap(&self) -> Option<&[u8]> {
        (self.nulls > 0).then_some(&self.bytes)
    }
}

/// Rows of one plain kind; [`UInt64Column`] and its like name the kinds.
#[derive(Clone)]
pub struct PrimitiveColumn<K> {
    values: Vec<u8>,
    bits: Bits,
    kind: PhantomData<K>,
}

impl<K: Primitive> PrimitiveColumn<K> {
    /// No rows yet.
    pub fn new() -> Self {
        PrimitiveColumn { values: Vec::new(), bits: Bits::default(), kind: PhantomData }
    }

    /// Rows of which none is null.
    pub fn from_values(values: impl IntoIterator<Item = K::Value>) -> Self {
        values.into_iter().map(Some).collect()
    }

    /// One more row.
    pub fn push(&mut self, row: Option<K::Value>) {
        match row {
            Some(value) => self.values.extend_from_slice(K::bytes(value).as_ref()),
            None => self.values.resize(self.values.len() + K::KIND.width(), 0),
        }
        self.bits.push(row.is_some());
    }
}

impl<K: Primitive> FromIterator<Option<K::Value>> for PrimitiveColumn<K> {
    fn from_iter<I: IntoIterator<Item = Option<K::Value>>>(rows: I) -> Self {
        let mut column = PrimitiveColumn::new();
        column.extend(rows);
        column
    }
}

impl<K: Primitive> Extend<Option<K::Value>> for PrimitiveColumn<K> {
    fn extend<I: IntoIterator<Item = Option<K::Value>>>(&mut self, rows: I) {
        rows.into_iter().for_each(|row| self.push(row));
    }
}

impl<K: Primitive> parts::AsParts for PrimitiveColumn<K> {
    fn parts(&self) -> Result<parts::Parts<'_>, ColumnFault> {
        Ok(parts::Parts { kind: K::KIND, rows: self.bits.rows, values: &self.values, bitmap: self.bits.bitmap(), text: &[] })
    }
}

impl<K: Primitive> TypedColumn for PrimitiveColumn<K> {
    fn rows(&self) -> usize {
        self.bits.rows
    }
}

/// Rows of strings or of bytes: [`StringColumn`], [`BinaryColumn`]. Those over 12 bytes are gathered in a text of the column's own.
#[derive(Clone)]
pub struct ViewColumn<K> {
    views: Vec<u8>,
    text: Vec<u8>,
    bits: Bits,
    /// a row that the text had no room for
    fault: Option<Error>,
    kind: PhantomData<K>,
}

impl<K: View> ViewColumn<K> {
    /// No rows yet.
    pub fn new() -> Self {
        ViewColumn { views: Vec::new(), text: Vec::new(), bits: Bits::default(), fault: None, kind: PhantomData }
    }

    /// Rows of which none is null.
    pub fn from_values<S: AsRef<K::Item>>(values: impl IntoIterator<Item = S>) -> Self {
        values.into_iter().map(Some).collect()
    }

    /// One more row.
    pub fn push<S: AsRef<K::Item>>(&mut self, row: Option<S>) {
        self.push_bytes(row.as_ref().map(|row| K::bytes(row.as_ref())));
    }

    /// The same of plain bytes, which need not be UTF-8.
    pub(crate) fn push_bytes(&mut self, row: Option<&[u8]>) {
        match self.view_of(row.unwrap_or_default()) {
            Ok(view) => self.views.extend_from_slice(&view),
            Err(fault) => self.fault = Some(fault),
        }
        self.bits.push(row.is_some());
    }

    /// The view of a row's bytes, which are in the text where they are over 12.
    fn view_of(&mut self, bytes: &[u8]) -> Result<[u8; 16], Error> {
        if bytes.len() <= 12 {
            return inline_view(bytes);
        }
        let offset = self.text.len();
        self.text.extend_from_slice(bytes);
        long_view(&self.text, 0, offset, bytes.len())
    }
}

impl<K: View, S: AsRef<K::Item>> FromIterator<Option<S>> for ViewColumn<K> {
    fn from_iter<I: IntoIterator<Item = Option<S>>>(rows: I) -> Self {
        let mut column = ViewColumn::new();
        column.extend(rows);
        column
    }
}

impl<K: View, S: AsRef<K::Item>> Extend<Option<S>> for ViewColumn<K> {
    fn extend<I: IntoIterator<Item = Option<S>>>(&mut self, rows: I) {
        rows.into_iter().for_each(|row| self.push(row));
    }
}

impl<K: View> parts::AsParts for ViewColumn<K> {
    fn parts(&self) -> Result<parts::Parts<'_>, ColumnFault> {
        if self.fault.is_some() {
            return Err(ColumnFault::TooLong);
        }
        Ok(parts::Parts { kind: K::KIND, rows: self.bits.rows, values: &self.views, bitmap: self.bits.bitmap(), text: &self.text })
    }
}

impl<K: View> TypedColumn for ViewColumn<K> {
    fn rows(&self) -> usize {
        self.bits.rows
    }
}

impl<K: Primitive> Default for PrimitiveColumn<K> {
    fn default() -> Self {
        PrimitiveColumn::new()
    }
}

impl<K: View> Default for ViewColumn<K> {
    fn default() -> Self {
        ViewColumn::new()
    }
}

impl<K: Primitive> fmt::Debug for PrimitiveColumn<K> {
    fn fmt(&self, f: &mut fmt::Formatter<'_>) -> fmt::Result {
        f.debug_struct("PrimitiveColumn").field("kind", &K::KIND).field("rows", &self.bits.rows).field("nulls", &self.bits.nulls).finish()
    }
}

impl<K: View> fmt::Debug for ViewColumn<K> {
    fn fmt(&self, f: &mut fmt::Formatter<'_>) -> fmt::Result {
        let (rows, nulls, text) = (self.bits.rows, self.bits.nulls, self.text.len());
        f.debug_struct("ViewColumn").field("kind", &K::KIND).field("rows", &rows).field("nulls", &nulls).field("text_bytes", &text).finish()
    }
}

macro_rules! names {
    ($($name:ident $kind:ident, $of:ident;)*) => {$(
        #[doc = concat!("Rows of [`kinds::", stringify!($kind), "`] to push.")]
        pub type $name = $of<kinds::$kind>;
    )*};
}

names! {
    Int8Column Int8, PrimitiveColumn;
    Int16Column Int16, PrimitiveColumn;
    Int32Column Int32, PrimitiveColumn;
    Int64Column Int64, PrimitiveColumn;
    UInt8Column UInt8, PrimitiveColumn;
    UInt16Column UInt16, PrimitiveColumn;
    UInt32Column UInt32, PrimitiveColumn;
    UInt64Column UInt64, PrimitiveColumn;
    Float16Column Float16, PrimitiveColumn;
    Float32Column Float32, PrimitiveColumn;
    Float64Column Float64, PrimitiveColumn;
    Date32Column Date32, PrimitiveColumn;
    Date64Column Date64, PrimitiveColumn;
    TimestampColumn Timestamp, PrimitiveColumn;
    DurationColumn Duration, PrimitiveColumn;
    Decimal128Column Decimal128, PrimitiveColumn;
    Decimal256Column Decimal256, PrimitiveColumn;
    StringColumn Utf8View, ViewColumn;
    BinaryColumn BinaryView, ViewColumn;
}
