//! The four memories that a coalescer lends, owned, and each call of the C layer on them: its answer is 01's number. This is the layer
//! of plain bytes under [`crate::BatchCoalescer`], for tests and for hosts that speak of records and bodies themselves.
//!
//! Every method is safe: the slices of one call are distinct vectors, and the port reads and writes only inside them (proved).

use crate::{Error, sys};
use std::alloc::{Layout, alloc_zeroed};
use std::fmt;

/// State, slots, pool and books, lent to every call. The fields are open for tests, which damage and compare them; whatever they hold,
/// a call reads and writes inside them only, and refuses what is out of range.
#[derive(Clone, PartialEq, Eq)]
pub struct Memory {
    /// 304 bytes
    pub state: Vec<u8>,
    /// the batches' rows, bitmaps and lists
    pub slots: Vec<u8>,
    /// the bytes of buffers and blocks
    pub pool: Vec<u8>,
    /// who holds which buffer, and the counts of the slots
    pub books: Vec<u8>,
}

impl fmt::Debug for Memory {
    fn fmt(&self, f: &mut fmt::Formatter<'_>) -> fmt::Result {
        let lengths = [&self.state, &self.slots, &self.pool, &self.books].map(Vec::len);
        let mut shown = f.debug_struct("Memory");
        for (name, bytes) in ["state_bytes", "slots_bytes", "pool_bytes", "books_bytes"].iter().zip(lengths) {
            shown.field(name, &bytes);
        }
        shown.finish()
    }
}

/// What reading a row answers: 01, "a row is null or a value, and a value is in its row or in a buffer".
#[derive(Clone, Copy, PartialEq, Eq, Debug)]
pub enum RowAnswer {
    /// the row is null
    Null,
    /// the value stands in the row itself
    InRow {
        /// where in the slots
        start: u64,
        /// its bytes
        length: u32,
    },
    /// the value stands in a buffer
    InBuffer {
        /// the buffer's number
        number: u32,
        /// where in the buffer
        offset: u32,
        /// its bytes
        length: u32,
    },
}

/// Zeros, or the word that the machine has no memory for them. Pages that the port never writes are never taken.
pub(crate) fn zeros(bytes: usize) -> Result<Vec<u8>, Error> {
    let none = Error::NoMemory { bytes };
    let layout = Layout::array::<u8>(bytes).map_err(|_| none)?;
    if bytes == 0 {
        return Ok(Vec::new());
    }
    // Safety: the layout is of at least one byte.
    let start = unsafe { alloc_zeroed(layout) };
    if start.is_null() {
        return Err(none);
    }
    // Safety: the allocator gave so many bytes, all zero, by the layout of a vector of that capacity.
    Ok(unsafe { Vec::from_raw_parts(start, bytes, bytes) })
}

/// The refusal in the upper 32 bits, or the value in the lower.
fn split(answer: u64) -> Result<u32, u32> {
    match (answer >> 32) as u32 {
        0 => Ok(answer as u32),
        number => Err(number),
    }
}

/// A number as a result: 0 is done.
fn done(number: u32) -> Result<(), u32> {
    if number == 0 { Ok(()) } else { Err(number) }
}

/// An empty strip in 972 bytes; 1 where there are others.
pub(crate) fn strip_new(strip: &mut [u8]) -> Result<(), u32> {
    // Safety: pointer and length are of one slice.
    done(unsafe { sys::pw_strip_new(strip.as_mut_ptr(), strip.len()) })
}

macro_rules! call {
    ($name:ident, $m:expr, [$($mem:ident $how:ident),*] $(, $rest:expr)*) => {
        // Safety: each pointer and length are of one vector, and the vectors are distinct.
        unsafe { sys::$name($($m.$mem.$how(), $m.$mem.len(),)* $($rest),*) }
    };
}

impl Memory {
    /// Memory of these sizes, zeros; refused where the machine does not give it.
    pub fn of(slots: usize, pool: usize, books: usize) -> Result<Memory, Error> {
        Ok(Memory { state: zeros(304)?, slots: zeros(slots)?, pool: zeros(pool)?, books: zeros(books)? })
    }

    /// Set-up; the kinds are words, one a column.
    pub fn set_up(&mut self, kinds: &[u8], target: u32, rows: u32, queue: u32, lists: u32, numbers: u32) -> Result<(), u32> {
        done(call!(
            pw_new, self, [state as_mut_ptr, slots as_ptr, pool as_ptr, books as_mut_ptr],
            kinds.as_ptr(), kinds.len(), target, rows, queue, lists, numbers
        ))
    }

    /// Pushes a batch of records of 32 bytes and a body.
    pub fn push_batch(&mut self, records: &[u8], body: &[u8], rows: u32) -> Result<(), u32> {
        done(call!(
            pw_push_batch, self, [state as_mut_ptr, slots as_mut_ptr, pool as_mut_ptr, books as_mut_ptr],
            records.as_ptr(), records.len(), body.as_ptr(), body.len(), rows
        ))
    }

    /// Queues the buffered rows.
    pub fn finish_buffered_batch(&mut self) -> Result<(), u32> {
        done(call!(pw_finish_buffered_batch, self, [state as_mut_ptr, slots as_mut_ptr, pool as_ptr, books as_mut_ptr]))
    }

    /// Drops the front batch: its rows, 0 on an empty queue.
    pub fn next_completed_batch(&mut self) -> Result<u32, u32> {
        split(call!(pw_next_completed_batch, self, [state as_mut_ptr, slots as_ptr, pool as_ptr, books as_mut_ptr]))
    }

    /// Lends bytes to views: their number, the lowest that is free. It is yours until you let it go; after that it may be somebody else's.
    pub fn register_buffer(&mut self, bytes: &[u8], capacity: u32) -> Result<u32, u32> {
        split(call!(
            pw_register_buffer, self, [state as_ptr, slots as_ptr, pool as_mut_ptr, books as_mut_ptr],
            bytes.as_ptr(), bytes.len(), capacity
        ))
    }

    /// Lets a buffer go; its number may then be somebody else's.
    pub fn let_go(&mut self, buffer: u32) -> Result<(), u32> {
        done(call!(pw_let_go, self, [state as_ptr, slots as_ptr, pool as_ptr, books as_mut_ptr], buffer))
    }

    /// The refusal beside `read_buffer`.
    pub fn buffer_refusal(&self, buffer: u32) -> Result<(), u32> {
        done(call!(pw_buffer_refusal, self, [state as_ptr, slots as_ptr, pool as_ptr, books as_ptr], buffer))
    }

    /// Copies a buffer's bytes to the front of `out`, as far as both go; how many the buffer has.
    pub fn read_buffer(&self, buffer: u32, out: &mut [u8]) -> u64 {
        call!(
            pw_read_buffer, self, [state as_ptr, slots as_ptr, pool as_ptr, books as_ptr],
            buffer, out.as_mut_ptr(), out.len()
        )
    }

    /// Appends a buffer's bytes: how many, `None` where they do not fit the machine. One call where `bytes` has room for them.
    pub(crate) fn append_buffer(&self, buffer: u32, bytes: &mut Vec<u8>) -> Option<usize> {
        loop {
            let room = bytes.spare_capacity_mut();
            let answer = call!(
                pw_read_buffer, self, [state as_ptr, slots as_ptr, pool as_ptr, books as_ptr],
                buffer, room.as_mut_ptr().cast(), room.len()
            );
            let length = usize::try_from(answer).ok()?;
            if length <= room.len() {
                // Safety: the call wrote a buffer's `length` bytes to the front of the room, which has as many.
                unsafe { bytes.set_len(bytes.len() + length) };
                return Some(length);
            }
            bytes.reserve(length);
        }
    }

    /// The rows of the front batch; in `out`, for column c at 32 x c, the places in the slots of its values, its bitmap and its list (u64 each),
    /// its list length and the bytes of a row (u32 each). 13 where nothing is queued.
    pub fn front_batch(&self, out: &mut [u8; 512]) -> Result<u32, u32> {
        split(call!(pw_front_batch, self, [state as_ptr, slots as_ptr, pool as_ptr, books as_ptr], out.as_mut_ptr(), out.len()))
    }

    /// Reads the rows of the front batch into the 972 bytes of a strip, and each row's number, 0 where it was accepted, to the front of
    /// `numbers`: how many rows.
    pub fn strip_read(&self, strip: &mut [u8], numbers: &mut [u8]) -> Result<u32, u32> {
        split(call!(
            pw_strip_read, self, [state as_ptr, slots as_ptr, pool as_ptr, books as_ptr],
            strip.as_mut_ptr(), strip.len(), numbers.as_mut_ptr(), numbers.len()
        ))
    }

    /// The same, and drops the batch.
    pub fn strip_take(&mut self, strip: &mut [u8], numbers: &mut [u8]) -> Result<u32, u32> {
        split(call!(
            pw_strip_take, self, [state as_mut_ptr, slots as_ptr, pool as_ptr, books as_mut_ptr],
            strip.as_mut_ptr(), strip.len(), numbers.as_mut_ptr(), numbers.len()
        ))
    }

    /// What a row of the front batch is and where it stands.
    pub fn read_row(&self, column: u32, row: u32) -> Result<RowAnswer, u32> {
        let mut out = [0u8; 20];
        done(call!(
            pw_read_row, self, [state as_ptr, slots as_ptr, pool as_ptr, books as_ptr],
            column, row, out.as_mut_ptr(), out.len()
        ))?;
        let word = |i: usize| u32::from_le_bytes(out[4 * i..4 * i + 4].try_into().unwrap());
        Ok(match word(0) {
            0 => RowAnswer::Null,
            1 => RowAnswer::InRow { start: word(1) as u64 + ((word(2) as u64) << 32), length: word(4) },
            _ => RowAnswer::InBuffer { number: word(1), offset: word(3), length: word(4) },
        })
    }

    /// The limit, or none; 1 where the state is not of 304 bytes.
    pub fn set_biggest_coalesce_batch_size(&mut self, limit: Option<u32>) -> Result<(), u32> {
        let (set, rows) = limit.map_or((0, 0), |rows| (1, rows));
        done(call!(pw_set_biggest_coalesce_batch_size, self, [state as_mut_ptr], set, rows))
    }

    /// The limit.
    pub fn biggest_coalesce_batch_size(&self) -> Option<u32> {
        let answer = call!(pw_biggest_coalesce_batch_size, self, [state as_ptr]);
        (answer >> 32 == 1).then_some(answer as u32)
    }

    /// Rows that wait for more.
    pub fn get_buffered_rows(&self) -> u32 {
        call!(pw_get_buffered_rows, self, [state as_ptr])
    }

    /// A batch can be taken.
    pub fn has_completed_batch(&self) -> bool {
        call!(pw_has_completed_batch, self, [state as_ptr]) == 1
    }

    /// Nothing is buffered and nothing can be taken.
    pub fn is_empty(&self) -> bool {
        call!(pw_is_empty, self, [state as_ptr]) == 1
    }
}
