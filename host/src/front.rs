//! The front batch: where its columns stand in lent memory, and its bytes copied out into one piece of memory, one pass a column.

use crate::completed::{CompletedBatch, CompletedColumn, Part, Taken};
use crate::layout::{filled, word};
use crate::{Kind, Memory, Refusal};
use std::sync::Arc;

/// The front batch, copied, if there is one.
pub(crate) fn read(memory: &Memory, kinds: &[Kind]) -> Result<Option<CompletedBatch>, Refusal> {
    let mut told = [0; 512];
    let rows = match memory.front_batch(&mut told).map_err(Refusal::of) {
        Err(Refusal::NotThere) => return Ok(None),
        rows => rows? as usize,
    };
    let front = Front { memory, kinds, rows, told: &told };
    let taken = Arc::new(front.take()?);
    let mut columns = Vec::with_capacity(kinds.len());
    let (mut start, mut place) = (0, 0);
    for (kind, told) in front.columns() {
        let listed = place + listed(told);
        columns.push(CompletedColumn::of(kind, rows, &taken, start, place..listed).ok_or(Refusal::State)?);
        (start, place) = (start + rows * kind.width() + rows.div_ceil(8), listed);
    }
    Ok(Some(CompletedBatch::of(rows, columns)))
}

/// The front batch where it stands, and what was told of it: 32 bytes a column.
struct Front<'a> {
    memory: &'a Memory,
    kinds: &'a [Kind],
    rows: usize,
    told: &'a [u8; 512],
}

impl<'a> Front<'a> {
    /// The columns, each with the bytes that tell where it stands.
    fn columns(&self) -> impl Iterator<Item = (Kind, &'a [u8])> {
        self.kinds.iter().copied().zip(self.told.chunks_exact(32))
    }

    /// The bytes of all columns, and behind them the buffers that their lists name, each once.
    fn take(&self) -> Result<Taken, Refusal> {
        let listed = self.listed()?;
        let mut buffers: Vec<(u32, Part)> = listed.iter().map(|number| (*number, Part::default())).collect();
        buffers.sort_unstable_by_key(|(number, _)| *number);
        buffers.dedup_by_key(|(number, _)| *number);
        let rows: usize = self.kinds.iter().map(|kind| self.rows * kind.width() + self.rows.div_ceil(8)).sum();
        let filled: usize = buffers.iter().map(|(number, _)| filled(self.memory, *number)).sum();
        let mut bytes = Vec::with_capacity(rows + filled);
        for (kind, told) in self.columns() {
            if width(told) != kind.width() {
                return Err(Refusal::State);
            }
            bytes.extend_from_slice(self.part(told, 0, self.rows * kind.width())?);
            bytes.extend_from_slice(self.part(told, 8, self.rows.div_ceil(8))?);
        }
        for (number, part) in &mut buffers {
            *part = append(self.memory, *number, &mut bytes)?;
        }
        let part = |number: &u32| buffers.binary_search_by_key(number, |(number, _)| *number).map_or(Part::default(), |at| buffers[at].1);
        Ok(Taken { parts: listed.iter().map(part).collect(), bytes })
    }

    /// The numbers of all lists, one list behind the other.
    fn listed(&self) -> Result<Vec<u32>, Refusal> {
        let mut numbers = Vec::new();
        for (_, told) in self.columns().filter(|(_, told)| listed(told) > 0) {
            let list = self.part(told, 16, 4 * listed(told))?;
            numbers.extend(list.chunks_exact(4).map(|number| word(number, 0)));
        }
        Ok(numbers)
    }

    /// The part of the slots whose place is told at `at`.
    fn part(&self, told: &[u8], at: usize, length: usize) -> Result<&'a [u8], Refusal> {
        let start = word(told, at) as usize | (word(told, at + 4) as usize) << 32;
        self.memory.slots.get(start..).and_then(|rest| rest.get(..length)).ok_or(Refusal::State)
    }
}

/// The length of a column's list.
fn listed(told: &[u8]) -> usize {
    word(told, 24) as usize
}

/// The bytes of a row of a column.
fn width(told: &[u8]) -> usize {
    word(told, 28) as usize
}

/// The bytes of a buffer; none where the read is refused. By two calls: how many they are, and the bytes.
pub(crate) fn buffer(memory: &Memory, number: u32) -> Result<Vec<u8>, Refusal> {
    let mut bytes = Vec::new();
    append(memory, number, &mut bytes)?;
    Ok(bytes)
}

/// A buffer's bytes behind those that are there: where.
fn append(memory: &Memory, number: u32, bytes: &mut Vec<u8>) -> Result<Part, Refusal> {
    let start = bytes.len();
    let length = memory.append_buffer(number, bytes).ok_or(Refusal::State)?;
    Ok(Part { start, length })
}
