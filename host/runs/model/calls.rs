//! The calls of 01 on lent memory, each with its answer and the memory after it.

use super::basics::{Refused, put_word, unless, word};
use super::ranges::{Lengths, test_1, test_14};
use super::state::{Column, State, flag_and_word, held, test_coding, test_length};
use super::world::{Entry, World};
use puffwidget::{Memory, RowAnswer};

/// A call with its arguments.
#[derive(Clone, Debug)]
pub enum Call {
    /// kinds in bytes; T, R, Q, B, N
    SetUp(Vec<u8>, [u32; 5]),
    Push {
        records: Vec<u8>,
        body: Vec<u8>,
        rows: u32,
    },
    Finish,
    Drop,
    /// the bytes and the capacity
    Register(Vec<u8>, u32),
    LetGo(u32),
    /// column and row
    ReadRow(u32, u32),
    ReadBuffer(u32),
    Limit(Option<u32>),
    Counts,
}

/// What a call answers where it is not refused.
#[derive(Clone, PartialEq, Eq, Debug)]
pub enum Answer {
    Done,
    /// the rows dropped
    Rows(u32),
    /// the number registered
    Number(u32),
    Row(RowAnswer),
    Part(Vec<u8>),
    Counts(Counts),
}

/// The limit, the rows buffered, `has_completed_batch` and `is_empty`.
#[derive(Clone, Copy, PartialEq, Eq, Debug)]
pub struct Counts {
    pub limit: Option<u32>,
    pub buffered: u32,
    pub completed: bool,
    pub empty: bool,
}

/// A call on lent memory: its answer, and memory after it; or the refusal, and memory is as it was.
pub fn called(memory: &Memory, call: &Call) -> Result<(Answer, Memory), Refused> {
    match call {
        Call::SetUp(kinds, wanted) => {
            let state = new_state(Lengths::of(memory), kinds, *wanted)?;
            // "Set-up empties state and books, sets no limit, and changes no slot or pool byte."
            let books = vec![0; memory.books.len()];
            Ok((Answer::Done, Memory { state: state.coded(), books, slots: memory.slots.clone(), pool: memory.pool.clone() }))
        }
        Call::Limit(limit) => {
            // "only the limit and its setter, .. work on the state alone and refuse nothing"; bytes that are not 304 are no state
            test_length(&memory.state)?;
            let mut state = memory.state.clone();
            for (at, value) in [28, 32].into_iter().zip(flag_and_word(limit.map(|rows| rows as usize))) {
                put_word(&mut state, at, value);
            }
            Ok((Answer::Done, Memory { state, ..memory.clone() }))
        }
        Call::Counts => Ok((Answer::Counts(counts(&memory.state)), memory.clone())),
        _ => {
            test_length(&memory.state)?; // "Every call after set-up tests 1, then 14"
            let mut world = World::of(memory); // a copy
            test_1(&world.state, Lengths::of(memory))?;
            test_coding(&memory.state)?;
            test_14(&world)?;
            let answer = world.make(call)?;
            Ok((answer, world.memory()))
        }
    }
}

/// Set-up's state: T, R, Q, B and N as wanted, a kind a word, the pool of its length; or 1.
pub fn new_state(lent: Lengths, kinds: &[u8], wanted: [u32; 5]) -> Result<State, Refused> {
    unless(lent.state == 304, 1, "state bytes of another length")?;
    unless(kinds.len().is_multiple_of(4), 1, "kinds that are no whole words")?;
    let [target, rows, queue, lists, numbers] = wanted.map(|number| number as usize);
    let columns = kinds.len() / 4;
    // "Columns past C have kind 0, kept size 4,096 and no open block."
    let kind = |c: usize| if c < columns { word(kinds, 4 * c) } else { 0 };
    let column = (0..columns.max(16)).map(|c| Column { kind: kind(c), kept: 4_096, open: None }).collect();
    let pool = lent.pool;
    let (limit, place, queued, buffered) = (None, 0, 0, 0);
    let state = State { target, rows, queue, columns, lists, numbers, pool, limit, place, queued, buffered, column };
    test_1(&state, lent)?;
    Ok(state)
}

/// The calls on the state alone, which "refuse nothing"; of bytes that are not 304, those of a state of zeros.
pub fn counts(state: &[u8]) -> Counts {
    let s = held(if state.len() == 304 { state } else { &[0; 304] });
    Counts {
        limit: s.limit.map(|limit| limit as u32),
        buffered: s.buffered as u32,
        completed: s.queued > 0,
        empty: s.queued == 0 && s.buffered == 0,
    }
}

impl World {
    /// A call behind the tests of 1 and 14.
    fn make(&mut self, call: &Call) -> Result<Answer, Refused> {
        match call {
            Call::Push { records, body, rows } => self.push(records, body, *rows as usize).map(|()| Answer::Done),
            Call::Finish => self.finish("finishing 1 or more rows with Q queued").map(|()| Answer::Done),
            Call::Drop => Ok(Answer::Rows(self.drop_front() as u32)),
            Call::Register(bytes, capacity) => self.register(bytes, *capacity as usize).map(|number| Answer::Number(number as u32)),
            Call::LetGo(number) => self.let_go(*number as usize).map(|()| Answer::Done),
            Call::ReadRow(column, row) => self.read_row(*column as usize, *row as usize).map(Answer::Row),
            Call::ReadBuffer(number) => self.read_buffer(*number as usize).map(Answer::Part),
            Call::SetUp(..) | Call::Limit(_) | Call::Counts => unreachable!("made without the tests"),
        }
    }

    /// "dropping answers its row count, and 0 on an empty queue"; "a dropped slot's counts become zero".
    fn drop_front(&mut self) -> usize {
        if self.state.queued == 0 {
            return 0;
        }
        let slot = self.front();
        let rows = self.count(slot, 0);
        for c in 0..self.state.columns {
            for number in self.list(slot, c) {
                self.unlist_once(number);
            }
        }
        for k in 0..1 + self.state.columns {
            self.put_count(slot, k, 0);
        }
        self.state.queued -= 1;
        rows
    }

    /// "Registering: 13, 11, 12." The caller "gets the lowest free number and the caller's hold".
    fn register(&mut self, bytes: &[u8], capacity: usize) -> Result<usize, Refused> {
        unless(capacity >= bytes.len(), 13, "registering capacity below length")?;
        let number = self.free_number("registering: no free buffer number")?;
        let start = self.gap(capacity, "registering: no gap of the capacity wanted")?;
        self.take(number, Entry { start, capacity, length: bytes.len(), hold: 1, listings: 0 });
        self.pool[start..start + bytes.len()].copy_from_slice(bytes);
        Ok(number)
    }

    /// 13: "letting go of a buffer, that isn't there or isn't the caller's to let go".
    fn let_go(&mut self, number: usize) -> Result<(), Refused> {
        let buffer = self.buffer(number);
        unless(buffer.is_some(), 13, "letting go of a buffer that isn't there")?;
        unless(buffer.is_some_and(|entry| entry.hold == 1), 13, "letting go of a buffer that isn't the caller's")?;
        self.release(number);
        Ok(())
    }
}
