//! The numbers that refuse: what happened, and what to do about it.

use std::fmt;

/// Why a call was refused. A refused call changed nothing.
#[derive(Clone, Copy, PartialEq, Eq, Hash, PartialOrd, Ord, Debug)]
#[non_exhaustive]
pub enum Refusal {
    /// 1: set-up outside its bounds, or lent memory not of the set-up lengths
    SetUp,
    /// 2: the record bytes are not 32 for each column
    RecordBytes,
    /// 3: the batch has more rows than a slot
    TooManyRows,
    /// 4: a record of the wrong kind, or against its rules
    Record,
    /// 5: values, bitmap or list lie outside the body
    OutsideBody,
    /// 6: a listed buffer is not held by the caller
    NotHeld,
    /// 7: a view is not valid
    InvalidView,
    /// 8: a copied row would start past 4,294,967,295
    StartPastRange,
    /// 9: the queue is full
    QueueFull,
    /// 10: a list of buffers would be too long
    ListFull,
    /// 11: no buffer number is free
    NoNumber,
    /// 12: no gap of the pool has the room wanted
    NoRoom,
    /// 13: no such row or buffer, or it is not the caller's to let go, or its capacity is below its length
    NotThere,
    /// 14: the state is out of range
    State,
    /// 30: the batch has other columns than the strip reads; none of it was read
    OtherColumns,
    /// A number that this version of the crate has no name for.
    Unknown(u32),
}

/// A refusal with its number and its two sentences.
struct Row {
    number: u32,
    refusal: Refusal,
    happened: &'static str,
    remedy: &'static str,
}

const fn row(number: u32, refusal: Refusal, happened: &'static str, remedy: &'static str) -> Row {
    Row { number, refusal, happened, remedy }
}

/// Every refusal that has a name. It is searched by number: a new one is one more line, wherever it stands.
#[rustfmt::skip]
const ALL: &[Row] = &[
    row(1, Refusal::SetUp, "set-up outside its bounds, or lent memory not of the set-up lengths",
        "bring the set-up inside its bounds, and hand every call the four memories of that set-up"),
    row(2, Refusal::RecordBytes, "the record bytes are not 32 for each column",
        "push as many columns as the set-up has kinds"),
    row(3, Refusal::TooManyRows, "the batch has more rows than a slot",
        "cut the batch, or set up with more rows a slot (at most 65,536)"),
    row(4, Refusal::Record, "a record of the wrong kind, or against its rules",
        "give each column the kind of the set-up at its place, and buffers to view columns only"),
    row(5, Refusal::OutsideBody, "values, bitmap or list lie outside the body",
        "give each column values, bits and list for all its rows inside the body"),
    row(6, Refusal::NotHeld, "a listed buffer is not held by the caller",
        "list only buffers that are registered and not yet let go"),
    row(7, Refusal::InvalidView, "a view is not valid",
        "make views of null rows valid too: zero padding up to 12 bytes, else place, offset and first 4 bytes as in the buffer"),
    row(8, Refusal::StartPastRange, "a copied row would start past 4,294,967,295",
        "finish the buffered batch, take it, and push again"),
    row(9, Refusal::QueueFull, "the queue is full",
        "take completed batches and push again, or set up a longer queue (at most 1,024)"),
    row(10, Refusal::ListFull, "a list of buffers would be too long",
        "finish and take the batch, list fewer buffers, or set up longer lists (at most 1,024)"),
    row(11, Refusal::NoNumber, "no buffer number is free",
        "let buffers go, take completed batches, or set up more numbers (at most 65,536)"),
    row(12, Refusal::NoRoom, "no gap of the pool has the room wanted",
        "let buffers go, take completed batches, or set up a larger pool"),
    row(13, Refusal::NotThere, "no such row or buffer, or it is not the caller's to let go, or its capacity is below its length",
        "read rows and buffers that are there, let a buffer go once, and register a capacity of at least the length"),
    row(14, Refusal::State, "the state is out of range",
        "the lent memory was overwritten or is of another moment: set up anew and push the rows again"),
    row(30, Refusal::OtherColumns, "the batch has other columns than the strip reads; none of it was read",
        "set the coalescer up with the strip's columns: row number UInt64, side UInt8, event UInt8, name Utf8View"),
];

impl Refusal {
    /// The refusal of a number; [`Refusal::Unknown`] where it has no name here (0, which refuses nothing, is one).
    pub fn of(number: u32) -> Refusal {
        ALL.iter().find(|row| row.number == number).map_or(Refusal::Unknown(number), |row| row.refusal)
    }

    /// Every refusal that has a name.
    pub fn all() -> impl Iterator<Item = Refusal> {
        ALL.iter().map(|row| row.refusal)
    }

    fn row(self) -> Option<&'static Row> {
        ALL.iter().find(|row| row.refusal == self)
    }

    /// Its number, which the C layer answers with.
    pub fn number(self) -> u32 {
        match self {
            Refusal::Unknown(number) => number,
            named => named.row().map_or(0, |row| row.number),
        }
    }

    /// What happened.
    pub fn happened(self) -> &'static str {
        self.row().map_or("a number that this version of the crate does not know", |row| row.happened)
    }

    /// What to do about it.
    pub fn remedy(self) -> &'static str {
        self.row()
            .map_or("look the number up in the pages of the archive that is linked, or take the crate of that archive", |row| row.remedy)
    }
}

impl fmt::Display for Refusal {
    fn fmt(&self, f: &mut fmt::Formatter<'_>) -> fmt::Result {
        write!(f, "refused ({}): {}; {}", self.number(), self.happened(), self.remedy())
    }
}

impl std::error::Error for Refusal {}
