//! The player strip: who is out, by side, in the order they went out, from the batches that a coalescer completed.

use crate::layout::word;
use crate::{BatchCoalescer, CompletedBatch, Error, Kind, Refusal, RowRefusal, SetUp, front, memory};
use std::borrow::Cow;
use std::fmt;

/// A side of the court.
#[derive(Clone, Copy, PartialEq, Eq, Hash, PartialOrd, Ord, Debug)]
pub enum Side {
    /// 1
    Home = 1,
    /// 2
    Away = 2,
}

impl Side {
    /// Both.
    pub const ALL: [Side; 2] = [Side::Home, Side::Away];

    /// Its number in a row.
    pub fn number(self) -> u8 {
        self as u8
    }

    /// Where its count stands in the strip's bytes.
    fn start(self) -> usize {
        match self {
            Side::Home => 12,
            Side::Away => 492,
        }
    }
}

/// What a row tells of a player.
#[derive(Clone, Copy, PartialEq, Eq, Hash, PartialOrd, Ord, Debug)]
pub enum Event {
    /// 1: the player named goes out
    Out = 1,
    /// 2: who has been out longest comes back, whoever is named
    Revive = 2,
}

impl Event {
    /// Its number in a row.
    pub fn number(self) -> u8 {
        self as u8
    }
}

/// Bytes of a name with its length.
const NAME: usize = 68;

/// The players who are out, up to seven a side, longest out first, and the number of the last accepted row.
///
/// It reads batches of the four columns of [`Strip::KINDS`]; [`MatchRows`](crate::MatchRows) makes them. A refused row changes nothing and
/// the rows behind it are read, so that it makes no difference how the rows were cut into batches.
///
/// ```
/// use puffwidget::{BatchCoalescer, Event, MatchRows, RowRefusal, SetUp, Side, Strip};
/// # fn main() -> Result<(), puffwidget::Error> {
/// let mut coalescer = BatchCoalescer::new(&SetUp::new(&Strip::KINDS, 4))?;
/// let mut strip = Strip::new();
/// let mut rows = MatchRows::new();
/// rows.push(1, Side::Home, Event::Out, "Asha");
/// rows.push(2, Side::Home, Event::Out, "Chitralekha Rao");
/// rows.push(3, Side::Away, Event::Revive, "Lata");     // nobody of theirs is out
/// rows.push(4, Side::Home, Event::Revive, "Devika");   // Asha has been out longest
/// coalescer.push(&rows.columns())?;
/// let taken = strip.take_batch(&mut coalescer)?.expect("a batch of 4 rows");
/// assert!(taken.refused().eq([(2, RowRefusal::NobodyOut)]));
/// assert!(strip.texts(Side::Home).eq(["Chitralekha Rao"]));
/// assert_eq!((strip.out(Side::Away).len(), strip.last()), (0, Some(4)));
/// # Ok(())
/// # }
/// ```
#[derive(Clone, PartialEq, Eq)]
pub struct Strip {
    bytes: [u8; Strip::BYTES],
}

impl Strip {
    /// The kinds of the columns that it reads: row number, side, event, player's name.
    pub const KINDS: [Kind; 4] = [Kind::UInt64, Kind::UInt8, Kind::UInt8, Kind::Utf8View];

    /// The most players of a side that are out.
    pub const MOST_OUT: usize = 7;

    /// The longest name in bytes.
    pub const LONGEST_NAME: usize = 64;

    /// The bytes of a strip.
    pub const BYTES: usize = 972;

    /// Nobody is out, and no row was accepted.
    pub fn new() -> Strip {
        let mut bytes = [0; Strip::BYTES];
        let made = memory::strip_new(&mut bytes);
        debug_assert_eq!(made, Ok(()), "refused only where there are other than 972 bytes");
        Strip { bytes }
    }

    /// A strip that was kept as [`Strip::bytes`]; refused with 1 where they are not 972, with 14 where they are no strip.
    pub fn from_bytes(kept: &[u8]) -> Result<Strip, Error> {
        let bytes: [u8; Strip::BYTES] = kept.try_into().map_err(|_| Refusal::SetUp)?;
        let least = SetUp { rows: 1, queue: 1, lists: 1, numbers: 1, pool: 0, ..SetUp::new(&Strip::KINDS, 1) };
        let mut strip = Strip { bytes };
        strip.read_batch(&BatchCoalescer::new(&least)?)?; // of no rows: what is tested is the strip
        Ok(strip)
    }

    /// The strip's bytes, to keep. Two strips are the same exactly where these are.
    pub fn bytes(&self) -> &[u8; Strip::BYTES] {
        &self.bytes
    }

    /// Reads the rows of the front batch and takes it from the queue, in one call: what became of each row, or `None` where no batch is
    /// complete. Refused with 30 where the coalescer has other columns; nothing is read then, and the batch stays.
    pub fn take_batch(&mut self, coalescer: &mut BatchCoalescer) -> Result<Option<Taken>, Error> {
        let mut numbers = answers_for(coalescer)?;
        let rows = coalescer.memory_mut().strip_take(&mut self.bytes, &mut numbers).map_err(Refusal::of)?;
        Ok(Taken::of(numbers, rows))
    }

    /// The same, with the rows themselves, copied.
    pub fn take_rows(&mut self, coalescer: &mut BatchCoalescer) -> Result<Option<(CompletedBatch, Taken)>, Error> {
        let batch = front::read(coalescer.memory(), coalescer.kinds())?;
        let taken = self.take_batch(coalescer)?;
        Ok(batch.zip(taken))
    }

    /// Reads the rows of the front batch and leaves it in the queue. Who reads it a second time reads its rows once more: where their
    /// numbers rise that changes nothing; where they do not, a row that was refused at first may be accepted then.
    pub fn read_batch(&mut self, coalescer: &BatchCoalescer) -> Result<Option<Taken>, Error> {
        let mut numbers = answers_for(coalescer)?;
        let rows = coalescer.memory().strip_read(&mut self.bytes, &mut numbers).map_err(Refusal::of)?;
        Ok(Taken::of(numbers, rows))
    }

    /// The names of a side's players who are out, as bytes, longest out first: the first comes back next.
    pub fn out(&self, side: Side) -> impl ExactSizeIterator<Item = &[u8]> {
        let names = &self.bytes[side.start() + 4..][..Strip::MOST_OUT * NAME];
        let out = (word(&self.bytes, side.start()) as usize).min(Strip::MOST_OUT);
        names.chunks_exact(NAME).take(out).map(|name| &name[4..][..(word(name, 0) as usize).min(Strip::LONGEST_NAME)])
    }

    /// The same as text; bytes that are not UTF-8, which nobody checks on their way in, show as the replacement character.
    pub fn texts(&self, side: Side) -> impl ExactSizeIterator<Item = Cow<'_, str>> {
        self.out(side).map(String::from_utf8_lossy)
    }

    /// The number of the last accepted row, of either side.
    pub fn last(&self) -> Option<u64> {
        let number = u64::from(word(&self.bytes, 4)) | u64::from(word(&self.bytes, 8)) << 32;
        (word(&self.bytes, 0) == 1).then_some(number)
    }
}

/// Room for an answer for each row that a batch may have; refused where the machine does not give it.
fn answers_for(coalescer: &BatchCoalescer) -> Result<Vec<u8>, Error> {
    memory::zeros(coalescer.most_rows())
}

impl Default for Strip {
    fn default() -> Strip {
        Strip::new()
    }
}

impl fmt::Debug for Strip {
    fn fmt(&self, f: &mut fmt::Formatter<'_>) -> fmt::Result {
        let [home, away] = Side::ALL.map(|side| self.out(side).len());
        f.debug_struct("Strip").field("home_out", &home).field("away_out", &away).field("last", &self.last()).finish()
    }
}

/// What became of the rows of a batch that a strip read, in their order.
#[derive(Clone, PartialEq, Eq)]
pub struct Taken {
    numbers: Vec<u8>,
}

impl Taken {
    /// The first so many numbers; `None` where no batch was read.
    fn of(mut numbers: Vec<u8>, rows: u32) -> Option<Taken> {
        numbers.truncate(rows as usize);
        (rows > 0).then_some(Taken { numbers })
    }

    /// Its rows.
    pub fn num_rows(&self) -> usize {
        self.numbers.len()
    }

    /// Each row: accepted, or why not.
    pub fn rows(&self) -> impl ExactSizeIterator<Item = Result<(), RowRefusal>> {
        self.numbers.iter().map(|number| if *number == 0 { Ok(()) } else { Err(RowRefusal::of(u32::from(*number))) })
    }

    /// The rows that were refused, by their place in the batch, the first 0.
    pub fn refused(&self) -> impl Iterator<Item = (usize, RowRefusal)> {
        self.rows().enumerate().filter_map(|(row, answer)| answer.err().map(|refusal| (row, refusal)))
    }

    /// How many rows were accepted.
    pub fn accepted(&self) -> usize {
        self.numbers.iter().filter(|number| **number == 0).count()
    }

    /// The number of each row, 0 where it was accepted.
    pub fn numbers(&self) -> &[u8] {
        &self.numbers
    }
}

impl fmt::Debug for Taken {
    fn fmt(&self, f: &mut fmt::Formatter<'_>) -> fmt::Result {
        f.debug_struct("Taken").field("rows", &self.num_rows()).field("accepted", &self.accepted()).finish()
    }
}
