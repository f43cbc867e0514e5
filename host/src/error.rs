//! What the crate itself answers in place of a result, before or beside a refusal of the port.

use crate::{Kind, Refusal};
use std::fmt;

/// Why something was not done. Whatever the error, the coalescer has the rows and buffers that it had. Its `Debug` is its sentence, so that
/// a `main` that answers with it prints that.
#[derive(Clone, Copy, PartialEq, Eq)]
#[non_exhaustive]
pub enum Error {
    /// The port refused the call.
    Refused(Refusal),
    /// A number of the set-up is outside its bounds.
    SetUp {
        /// the field of [`crate::SetUp`]
        field: &'static str,
        /// what it is
        is: usize,
        /// the least it may be
        least: usize,
        /// the most it may be
        most: usize,
    },
    /// The machine does not give so many bytes.
    NoMemory {
        /// the bytes asked for
        bytes: usize,
    },
    /// A column of a batch is wrong.
    Column {
        /// the column's number, the first 0
        column: usize,
        /// what is wrong with it
        fault: ColumnFault,
    },
    /// A batch of more than 16 columns.
    TooManyColumns {
        /// how many
        columns: usize,
    },
    /// A batch has no column of that number.
    NoColumn {
        /// the number asked for, the first 0
        column: usize,
        /// how many there are
        columns: usize,
    },
    /// A column is read as another kind than it has.
    WrongKind {
        /// the column's kind
        is: Kind,
        /// the kind that was asked for
        asked: Kind,
    },
    /// The bytes make no view of the form asked for.
    View(ViewFault),
}

/// What is wrong with a column.
#[derive(Clone, Copy, PartialEq, Eq, Debug)]
#[non_exhaustive]
pub enum ColumnFault {
    /// Fewer bytes of values than the rows want.
    ShortValues {
        /// the bytes there are
        bytes: usize,
        /// the bytes that the rows want
        wanted: u64,
    },
    /// A bitmap of fewer bits than `first_bit` and the rows want.
    ShortBitmap {
        /// the bits there are
        bits: u64,
        /// the bits wanted
        wanted: u64,
    },
    /// Other rows than the first column's.
    Rows {
        /// the rows of this column
        rows: usize,
        /// the rows of the first
        wanted: usize,
    },
    /// More bytes, rows or buffers than 32 bits count.
    TooLong,
}

/// Why bytes make no view.
#[derive(Clone, Copy, PartialEq, Eq, Debug)]
#[non_exhaustive]
pub enum ViewFault {
    /// Over 12 bytes, which lie in a buffer.
    NotInline,
    /// At most 12 bytes, which lie in the view.
    Inline,
    /// Not a part of the buffer's bytes, or past the range of 32 bits.
    OutsideBuffer,
}

impl Error {
    /// The refusal's number: the port's, or 1 for a set-up outside its bounds. None where the port has no number for it.
    pub fn number(&self) -> Option<u32> {
        match self {
            Error::Refused(refusal) => Some(refusal.number()),
            Error::SetUp { .. } => Some(Refusal::SetUp.number()),
            _ => None,
        }
    }
}

impl From<Refusal> for Error {
    fn from(refusal: Refusal) -> Error {
        Error::Refused(refusal)
    }
}

impl fmt::Display for Error {
    fn fmt(&self, f: &mut fmt::Formatter<'_>) -> fmt::Result {
        match self {
            Error::Refused(refusal) => refusal.fmt(f),
            Error::SetUp { field, is, least, most } => {
                write!(f, "refused (1): `{field}` of the set-up is {is}, and must be from {least} to {most}")
            }
            Error::NoMemory { bytes } => {
                write!(f, "no memory of {bytes} bytes for the coalescer; set up fewer rows, batches or a smaller pool")
            }
            Error::Column { column, fault } => write!(f, "column {column}: {fault}"),
            Error::TooManyColumns { columns } => write!(f, "{columns} columns, and a batch has at most 16"),
            Error::NoColumn { column, columns } => write!(f, "no column {column}: the batch has {columns}, the first is 0"),
            Error::WrongKind { is, asked } => write!(f, "the column is of kind {is:?}, and was read as {asked:?}"),
            Error::View(fault) => fault.fmt(f),
        }
    }
}

impl fmt::Debug for Error {
    fn fmt(&self, f: &mut fmt::Formatter<'_>) -> fmt::Result {
        fmt::Display::fmt(self, f)
    }
}

impl fmt::Display for ColumnFault {
    fn fmt(&self, f: &mut fmt::Formatter<'_>) -> fmt::Result {
        match self {
            ColumnFault::ShortValues { bytes, wanted } => write!(f, "its values are {bytes} bytes, and the rows want {wanted}"),
            ColumnFault::ShortBitmap { bits, wanted } => {
                write!(f, "its bitmap has {bits} bits, and the first bit and the rows want {wanted}")
            }
            ColumnFault::Rows { rows, wanted } => write!(f, "it has {rows} rows, and the first column {wanted}"),
            ColumnFault::TooLong => write!(f, "the batch is longer than 4,294,967,295 bytes up to here; cut it"),
        }
    }
}

impl fmt::Display for ViewFault {
    fn fmt(&self, f: &mut fmt::Formatter<'_>) -> fmt::Result {
        f.write_str(match self {
            ViewFault::NotInline => "over 12 bytes are no inline view: put them in a buffer",
            ViewFault::Inline => "at most 12 bytes are an inline view, not one into a buffer",
            ViewFault::OutsideBuffer => "the part is not inside the buffer's bytes",
        })
    }
}

impl std::error::Error for Error {
    fn source(&self) -> Option<&(dyn std::error::Error + 'static)> {
        match self {
            Error::Refused(refusal) => Some(refusal),
            _ => None,
        }
    }
}
