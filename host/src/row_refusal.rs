//! The numbers that refuse a row of a match: what happened, and what to do about it.

use std::fmt;

/// Why the strip refused a row. The row changed nothing, and the rows behind it were read.
#[derive(Clone, Copy, PartialEq, Eq, Hash, PartialOrd, Ord, Debug)]
#[non_exhaustive]
pub enum RowRefusal {
    /// 31: the row's number, side, event or name is null or out of range
    OutOfRange,
    /// 32: the row's number is not above that of the last accepted row
    NumberNotAbove,
    /// 33: seven players of that side are out, and this would be the eighth
    EighthOut,
    /// 34: a revive, and nobody of that side is out
    NobodyOut,
    /// 35: a player of that name is already out on that side
    AlreadyOut,
    /// A number that this version of the crate has no name for.
    Unknown(u32),
}

/// Number, refusal, what happened, what to do.
type Row = (u32, RowRefusal, &'static str, &'static str);

/// Every refusal of a row that has a name.
#[rustfmt::skip]
const ALL: &[Row] = &[
    (31, RowRefusal::OutOfRange, "the row's number, side, event or name is null or out of range",
        "send side 1 or 2, event 1 or 2, and a name of 1 to 64 bytes, with a revive too"),
    (32, RowRefusal::NumberNotAbove, "the row's number is not above that of the last accepted row",
        "number the rows upwards over both sides; a row that was sent before is not sent again"),
    (33, RowRefusal::EighthOut, "seven players of that side are out, and this would be the eighth",
        "see which revive is missing before this row, or whether the side is the other one"),
    (34, RowRefusal::NobodyOut, "a revive, and nobody of that side is out",
        "see which out is missing before this row, or whether the side is the other one"),
    (35, RowRefusal::AlreadyOut, "a player of that name is already out on that side",
        "see whether the row was sent twice; two players of one name need two names on the strip"),
];

impl RowRefusal {
    /// The refusal of a number; [`RowRefusal::Unknown`] where it has no name here (0, which refuses nothing, is one).
    pub fn of(number: u32) -> RowRefusal {
        ALL.iter().find(|row| row.0 == number).map_or(RowRefusal::Unknown(number), |row| row.1)
    }

    /// Every refusal of a row that has a name.
    pub fn all() -> impl Iterator<Item = RowRefusal> {
        ALL.iter().map(|row| row.1)
    }

    fn row(self) -> Option<&'static Row> {
        ALL.iter().find(|row| row.1 == self)
    }

    /// Its number, which the C layer answers with.
    pub fn number(self) -> u32 {
        match self {
            RowRefusal::Unknown(number) => number,
            named => named.row().map_or(0, |row| row.0),
        }
    }

    /// What happened.
    pub fn happened(self) -> &'static str {
        self.row().map_or("a number that this version of the crate does not know", |row| row.2)
    }

    /// What to do about it.
    pub fn remedy(self) -> &'static str {
        self.row().map_or("look the number up in the pages of the archive that is linked, or take the crate of that archive", |row| row.3)
    }
}

impl fmt::Display for RowRefusal {
    fn fmt(&self, f: &mut fmt::Formatter<'_>) -> fmt::Result {
        write!(f, "refused ({}): {}; {}", self.number(), self.happened(), self.remedy())
    }
}

impl std::error::Error for RowRefusal {}
