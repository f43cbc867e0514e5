//! A batch to push, from plain slices: records of 32 bytes and a body (01, "A pushed batch"); and the views of strings.

use crate::error::{ColumnFault, Error, ViewFault};
use crate::{Kind, SetUp};
use std::fmt;

/// A buffer that was registered. A number is yours until you let it go; after that it may be somebody else's.
#[derive(Clone, Copy, PartialEq, Eq, Hash, PartialOrd, Ord, Debug)]
pub struct BufferNumber(pub u32);

/// Validity: one bit a row from `first_bit` on, least significant first, 1 valid.
#[derive(Clone, Copy)]
pub struct Validity<'a> {
    /// the bytes that hold the bits
    pub bitmap: &'a [u8],
    /// the bit of the first row
    pub first_bit: u32,
}

/// A column of a batch: its rows' values one behind the other (views: 16 bytes each), validity if any row may be null, and for
/// views the buffers that they point into.
#[derive(Clone, Copy)]
pub struct Column<'a> {
    /// the kind, the set-up's at the column's place
    pub kind: Kind,
    /// the rows' values, little-endian; bytes past the last row are not used
    pub values: &'a [u8],
    /// `None` where no row is null; bits past the last row are not used
    pub validity: Option<Validity<'a>>,
    /// for views, the buffers that they name by place
    pub buffers: &'a [BufferNumber],
}

/// A view of at most 12 bytes, which holds them; more are refused.
pub fn inline_view(bytes: &[u8]) -> Result<[u8; 16], Error> {
    let mut view = [0; 16];
    let (length, place) = view.split_at_mut(4);
    let place = place.get_mut(..bytes.len()).ok_or(Error::View(ViewFault::NotInline))?;
    place.copy_from_slice(bytes);
    length.copy_from_slice(&word(bytes.len())?);
    Ok(view)
}

/// A view of more than 12 bytes: those of a buffer from `offset` on; `index` is the buffer's place in the column's list. A part that is
/// not in the buffer's bytes, or not over 12 bytes long, is refused.
pub fn long_view(buffer: &[u8], index: u32, offset: usize, length: usize) -> Result<[u8; 16], Error> {
    let outside = Error::View(ViewFault::OutsideBuffer);
    let part = buffer.get(offset..).and_then(|rest| rest.get(..length)).ok_or(outside)?;
    let front = part.first_chunk::<4>().filter(|_| length > 12).ok_or(Error::View(ViewFault::Inline))?;
    let mut view = [0; 16];
    for (place, bytes) in view.chunks_exact_mut(4).zip([word(length)?, *front, index.to_le_bytes(), word(offset)?]) {
        place.copy_from_slice(&bytes);
    }
    Ok(view)
}

/// A length or an offset of a view.
fn word(number: usize) -> Result<[u8; 4], Error> {
    u32::try_from(number).map(u32::to_le_bytes).map_err(|_| Error::View(ViewFault::OutsideBuffer))
}

/// A batch in the port's form. It can't be changed after it was made, so that each column has its rows.
#[derive(Clone, PartialEq, Eq, Default)]
pub struct Batch {
    rows: u32,
    records: Vec<u8>,
    body: Vec<u8>,
}

impl Batch {
    /// A batch of so many rows, of these columns. Each has at least rows x width bytes of values and `first_bit` + rows bits of
    /// validity, or is refused by its number: a column's rows never reach into the next one. More bytes than that are not used.
    /// Kinds, lists and views are the push's to refuse.
    pub fn new(rows: u32, columns: &[Column]) -> Result<Batch, Error> {
        if columns.len() > SetUp::MOST_COLUMNS {
            return Err(Error::TooManyColumns { columns: columns.len() });
        }
        let mut batch = Batch { rows, ..Batch::default() };
        for (number, column) in columns.iter().enumerate() {
            let added = check(rows, column).and_then(|()| batch.add(column));
            added.map_err(|fault| Error::Column { column: number, fault })?;
        }
        Ok(batch)
    }

    /// Its rows.
    pub fn rows(&self) -> u32 {
        self.rows
    }

    /// The record bytes, 32 a column.
    pub fn records(&self) -> &[u8] {
        &self.records
    }

    /// The body, in which the columns lie.
    pub fn body(&self) -> &[u8] {
        &self.body
    }

    /// One more column: its bytes behind the body, its record behind the records.
    fn add(&mut self, column: &Column) -> Result<(), ColumnFault> {
        let values = self.put(column.values)?;
        let (validity, first_bit) = match column.validity {
            Some(v) => (self.put(v.bitmap)?, v.first_bit),
            None => (u32::MAX, 0),
        };
        let list: Vec<u8> = column.buffers.iter().flat_map(|number| number.0.to_le_bytes()).collect();
        let start = if list.is_empty() { 0 } else { self.put(&list)? };
        let count = u32::try_from(column.buffers.len()).map_err(|_| ColumnFault::TooLong)?;
        for word in [column.kind.number(), values, validity, first_bit, start, count, 0, 0] {
            self.records.extend_from_slice(&word.to_le_bytes());
        }
        Ok(())
    }

    /// Bytes put behind the body: where they start, below 4,294,967,295, which stands for no validity.
    fn put(&mut self, bytes: &[u8]) -> Result<u32, ColumnFault> {
        let start = u32::try_from(self.body.len()).ok().filter(|start| *start != u32::MAX).ok_or(ColumnFault::TooLong)?;
        self.body.extend_from_slice(bytes);
        Ok(start)
    }
}

/// A column has the values and the bits of its rows.
fn check(rows: u32, column: &Column) -> Result<(), ColumnFault> {
    let wanted = u64::from(rows) * column.kind.width() as u64;
    if (column.values.len() as u64) < wanted {
        return Err(ColumnFault::ShortValues { bytes: column.values.len(), wanted });
    }
    let Some(validity) = column.validity else { return Ok(()) };
    let (bits, wanted) = (8 * validity.bitmap.len() as u64, u64::from(validity.first_bit) + u64::from(rows));
    if rows > 0 && bits < wanted { Err(ColumnFault::ShortBitmap { bits, wanted }) } else { Ok(()) }
}

impl fmt::Debug for Validity<'_> {
    fn fmt(&self, f: &mut fmt::Formatter<'_>) -> fmt::Result {
        f.debug_struct("Validity").field("bitmap_bytes", &self.bitmap.len()).field("first_bit", &self.first_bit).finish()
    }
}

impl fmt::Debug for Column<'_> {
    fn fmt(&self, f: &mut fmt::Formatter<'_>) -> fmt::Result {
        let mut shown = f.debug_struct("Column");
        shown.field("kind", &self.kind).field("values_bytes", &self.values.len());
        shown.field("validity", &self.validity).field("buffers", &self.buffers.len()).finish()
    }
}

impl fmt::Debug for Batch {
    fn fmt(&self, f: &mut fmt::Formatter<'_>) -> fmt::Result {
        let (columns, body_bytes) = (self.records.len() / 32, self.body.len());
        f.debug_struct("Batch").field("rows", &self.rows).field("columns", &columns).field("body_bytes", &body_bytes).finish()
    }
}
