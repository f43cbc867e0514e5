//! Stand-in for `arrow_buffer`: shared bytes, shared values, validity and its builder.

use std::fmt::Debug;
use std::ops::Deref;
use std::slice::from_raw_parts;
use std::sync::Arc;

mod bits;

/// Bytes with the capacity that was stated for them.
struct Bytes {
    _bytes: Vec<u8>,
    capacity: usize,
}

/// Shared bytes: a clone shares them, pointer and length are at hand.
/// Rule: `capacity` answers the number stated when the buffer was made.
/// Source: 01 ("the caller registers bytes with a capacity"), the text.
#[derive(Clone)]
pub struct Buffer {
    shared: Arc<Bytes>,
    start: *const u8,
    length: usize,
}

// SAFETY: the bytes behind `start` belong to `shared` and are never changed.
unsafe impl Send for Buffer {}
unsafe impl Sync for Buffer {}

impl Buffer {
    /// Bytes with a capacity of their own, not below their length, and no copy.
    /// Source: 01, "a capacity not below their length".
    pub fn with_stated_capacity(bytes: Vec<u8>, capacity: usize) -> Self {
        assert!(capacity >= bytes.len());
        let (start, length) = (bytes.as_ptr(), bytes.len());
        let shared = Arc::new(Bytes { _bytes: bytes, capacity });
        Self { shared, start, length }
    }

    pub fn capacity(&self) -> usize {
        self.shared.capacity
    }
}

/// A block that the text has filled: no copy, and the `Vec`'s own capacity.
/// std promises only "at least" what `Vec::with_capacity` was asked for, so the
/// capacity is tested here to be one that the text asks for: a power of two
/// from 8,192 to 1,048,576, or more than that.
/// Source: Rust's std documentation, and `BufferSource` in the text.
impl From<Vec<u8>> for Buffer {
    fn from(block: Vec<u8>) -> Self {
        let size = block.capacity();
        assert!(size > 1 << 20 || (size >= 8192 && size.is_power_of_two()));
        Self::with_stated_capacity(block, size)
    }
}

impl Deref for Buffer {
    type Target = [u8];

    #[inline]
    fn deref(&self) -> &[u8] {
        // SAFETY: `start` and `length` are those of the bytes that `shared` keeps.
        unsafe { from_raw_parts(self.start, self.length) }
    }
}

/// A value of a fixed-width column. Every one is plain bits without padding.
/// Source: the Format, Fixed-size Primitive Layout; 01's table of widths.
pub trait ArrowNativeType: Copy + Debug + Send + Sync + 'static {}

macro_rules! natives {
    ($($t:ty),*) => { $(impl ArrowNativeType for $t {})* };
}
natives!(i8, i16, i32, i64, i128, i256, u8, u16, u32, u64, u128, f32, f64);

/// 32 bytes, aligned as 16: the bits of a Decimal256, never computed with.
/// Source: 01's table (width 32).
#[allow(non_camel_case_types)]
#[derive(Clone, Copy, Debug)]
pub struct i256(pub [u128; 2]);

/// Shared values of one column: from a `Vec` without a copy, pointer and length at hand.
/// Source: the text (`ScalarBuffer::from(values)`, read as a slice).
pub struct ScalarBuffer<T: ArrowNativeType> {
    _shared: Arc<Vec<T>>,
    start: *const T,
    length: usize,
}

// SAFETY: the values behind `start` belong to `_shared` and are never changed.
unsafe impl<T: ArrowNativeType> Send for ScalarBuffer<T> {}
unsafe impl<T: ArrowNativeType> Sync for ScalarBuffer<T> {}

impl<T: ArrowNativeType> From<Vec<T>> for ScalarBuffer<T> {
    fn from(values: Vec<T>) -> Self {
        let (start, length) = (values.as_ptr(), values.len());
        Self { _shared: Arc::new(values), start, length }
    }
}

impl<T: ArrowNativeType> Deref for ScalarBuffer<T> {
    type Target = [T];

    #[inline]
    fn deref(&self) -> &[T] {
        // SAFETY: `start` and `length` are those of the values that `_shared` keeps.
        unsafe { from_raw_parts(self.start, self.length) }
    }
}

impl<T: ArrowNativeType> AsRef<[T]> for ScalarBuffer<T> {
    #[inline]
    fn as_ref(&self) -> &[T] {
        self
    }
}

/// Validity of a run of rows: bitmap bytes, first bit, rows, and rows that are null.
/// Rule: one bit a row, least significant bit first, 1 valid.
/// Source: the Format, Validity bitmaps; 01.
pub struct NullBuffer {
    bitmap: Buffer,
    first: usize,
    rows: usize,
    nulls: usize,
}

impl NullBuffer {
    /// The nulls are counted here, so for each part again. Source: the meaning of the bits.
    pub fn new(bitmap: Buffer, first: usize, rows: usize) -> Self {
        let nulls = rows - bits::count_ones(&bitmap, first, rows);
        Self { bitmap, first, rows, nulls }
    }

    /// Rows `offset` to `offset + rows`, the bitmap shared. Source: the text (`nulls.slice`).
    pub fn slice(&self, offset: usize, rows: usize) -> Self {
        assert!(offset + rows <= self.rows);
        Self::new(self.bitmap.clone(), self.first + offset, rows)
    }

    pub fn len(&self) -> usize {
        self.rows
    }

    pub fn is_valid(&self, row: usize) -> bool {
        assert!(row < self.rows);
        let bit = self.first + row;
        self.bitmap[bit / 8] >> (bit % 8) & 1 == 1
    }
}

/// Builds validity; there is no bitmap, only a count, until the first null comes.
/// Rule: the rows' validity in the order appended; `finish` gives no bitmap when
/// no null was appended. That a bitmap without nulls equals an absent one is 01's rule.
/// Source: 01, and the text's own comments ("no allocation" at `new`).
#[derive(Debug)]
pub struct NullBufferBuilder {
    bitmap: Option<Vec<u8>>,
    rows: usize,
    room: usize,
}

impl NullBufferBuilder {
    /// `room` is the number of rows that the bitmap has room for once it is made.
    pub fn new(room: usize) -> Self {
        Self { bitmap: None, rows: 0, room }
    }

    #[inline]
    pub fn append_n_non_nulls(&mut self, rows: usize) {
        if let Some(bitmap) = &mut self.bitmap {
            bits::append_ones(bitmap, self.rows, rows);
        }
        self.rows += rows;
    }

    /// Makes the bitmap only when there is a null to append.
    pub fn append_buffer(&mut self, from: &NullBuffer) {
        if from.nulls > 0 && self.bitmap.is_none() {
            let mut bitmap = Vec::with_capacity(self.room.max(self.rows).div_ceil(8));
            bits::append_ones(&mut bitmap, 0, self.rows);
            self.bitmap = Some(bitmap);
        }
        if let Some(bitmap) = &mut self.bitmap {
            bits::append(bitmap, self.rows, &from.bitmap, from.first, from.rows);
        }
        self.rows += from.rows;
    }

    /// The validity of all rows so far; the builder is empty afterwards.
    pub fn finish(&mut self) -> Option<NullBuffer> {
        let rows = std::mem::take(&mut self.rows);
        let bitmap = self.bitmap.take()?;
        let capacity = bitmap.capacity();
        let bitmap = Buffer::with_stated_capacity(bitmap, capacity);
        Some(NullBuffer::new(bitmap, 0, rows))
    }

    /// Asked by the text's `size`, which 01 leaves behind.
    pub fn allocated_size(&self) -> usize {
        unimplemented!("`size` is left behind")
    }
}
