//! The port beside the Rust text: the same calls to both, and after each everything that can be seen of them compared.

use crate::cells::cell;
use crate::columns::{Held, Made, batch_of};
use crate::trace::Trace;
use judge::{Judge, JudgeBuffer, JudgeColumn, Prepared, Taken, prepare};
use puffwidget::layout::Reader;
use puffwidget::{Memory, RowAnswer, SetUp, layout::SetUpSizes};
use std::collections::{HashMap, VecDeque};

/// A call that the Rust text can be brought to again.
enum Step {
    Push(Prepared),
    Finish,
    Limit(Option<usize>),
}

/// What was compared, and the refusals by number.
#[derive(Default)]
pub struct Tally {
    pub histories: u64,
    pub pushes: u64,
    pub rows: u64,
    pub batches: u64,
    pub checks: u64,
    pub refused: [u64; 15],
}

/// One history: the port's memory, the Rust's coalescer, and the batches that both have queued.
pub struct Beside {
    pub set_up: SetUp,
    pub memory: Memory,
    pub held: Vec<Held>,
    judge: Judge,
    steps: Vec<Step>,
    queue: VecDeque<Taken>,
    buffers: HashMap<u32, JudgeBuffer>,
    /// every buffer that was registered, by the place of its bytes: kept, so that no block of the Rust comes to lie there
    lent: HashMap<usize, JudgeBuffer>,
    kept: Vec<usize>,
    pub trace: Trace,
}

impl Beside {
    pub fn new(set_up: SetUp) -> Beside {
        let sizes = SetUpSizes::of(&set_up).expect("small sizes");
        let mut memory = Memory::of(sizes.slots, sizes.pool, sizes.books).unwrap();
        let kinds: Vec<u8> = set_up.kinds.iter().flat_map(|kind| kind.number().to_le_bytes()).collect();
        let s = &set_up;
        memory.set_up(&kinds, s.target, s.rows, s.queue, s.lists, s.numbers).expect("a set-up within bounds");
        let judge = Judge::new(&numbers(&set_up), set_up.target as usize);
        let kept = vec![4_096; set_up.kinds.len()];
        let (steps, queue) = (Vec::new(), VecDeque::new());
        let (held, buffers, lent) = (Vec::new(), HashMap::new(), HashMap::new());
        let trace = Trace::new(&set_up, &sizes);
        Beside { set_up, memory, held, judge, steps, queue, buffers, lent, kept, trace }
    }

    /// Registers bytes; a refusal must be one of room, and leaves everything as it was.
    pub fn register(&mut self, bytes: Vec<u8>, capacity: usize, tally: &mut Tally) -> Option<u32> {
        let before = self.memory.clone();
        match self.memory.register_buffer(&bytes, capacity as u32) {
            Ok(number) => {
                self.trace.register(&bytes, capacity, number);
                let buffer = JudgeBuffer::new(&bytes, capacity);
                self.lent.insert(buffer.bytes().as_ptr() as usize, buffer.clone());
                self.buffers.insert(number, buffer);
                self.held.push(Held { number, bytes });
                Some(number)
            }
            Err(number) => {
                self.refused(number, &[11, 12], &before, tally);
                None
            }
        }
    }

    pub fn let_go(&mut self, i: usize) {
        let held = self.held.swap_remove(i);
        self.memory.let_go(held.number).expect("a buffer that is held");
        self.trace.let_go(held.number);
    }

    /// Pushes a batch to both. The Rust has a heap: what the port refuses for want of room is not pushed there.
    pub fn push(&mut self, rows: usize, columns: &[Made], tally: &mut Tally) {
        let before = self.memory.clone();
        let batch = batch_of(rows, columns);
        match self.memory.push_batch(batch.records(), batch.body(), batch.rows()) {
            Ok(()) => {
                let prepared = self.prepared(rows, columns);
                self.judge.push(&prepared);
                self.steps.push(Step::Push(prepared));
                self.drain(tally);
                self.trace.push(&batch, self.judge.buffered_rows(), self.queue.len());
                tally.pushes += 1;
                tally.rows += rows as u64;
                if rows == 0 {
                    assert!(self.memory == before, "0 rows change nothing");
                }
            }
            Err(number) => self.refused(number, &[9, 10, 11, 12], &before, tally),
        }
    }

    /// The batch as the Rust text gets it.
    fn prepared(&self, rows: usize, columns: &[Made]) -> Prepared {
        let columns: Vec<JudgeColumn> = columns
            .iter()
            .map(|made| JudgeColumn {
                kind: made.kind.number(),
                values: &made.values,
                validity: made.validity.as_ref().map(|(bitmap, first)| (&bitmap[..], *first as usize)),
                buffers: made.list.iter().map(|number| self.buffers[number].clone()).collect(),
            })
            .collect();
        prepare(&numbers(&self.set_up), rows, &columns)
    }

    pub fn finish(&mut self, tally: &mut Tally) {
        let before = self.memory.clone();
        match self.memory.finish_buffered_batch() {
            Ok(()) => {
                self.judge.finish();
                self.steps.push(Step::Finish);
                self.drain(tally);
                self.trace.finish(self.judge.buffered_rows(), self.queue.len());
            }
            Err(number) => self.refused(number, &[9], &before, tally),
        }
    }

    pub fn limit(&mut self, limit: Option<u32>) {
        self.memory.set_biggest_coalesce_batch_size(limit).expect("a state");
        assert_eq!(self.memory.biggest_coalesce_batch_size(), limit);
        let limit = limit.map(|rows| rows as usize);
        self.judge.set_limit(limit);
        self.trace.limit(limit);
        self.steps.push(Step::Limit(limit));
    }

    /// Drops the front batch of both, each of its rows read first.
    pub fn take(&mut self) {
        let Some(front) = self.queue.pop_front() else {
            assert_eq!(self.memory.next_completed_batch(), Ok(0));
            return;
        };
        self.read_front(&front);
        self.trace.take(&front, self.judge.buffered_rows(), self.queue.len());
        assert_eq!(self.memory.next_completed_batch(), Ok(front.rows as u32), "drop answers the rows of the batch");
    }

    fn refused(&self, number: u32, allowed: &[u32], before: &Memory, tally: &mut Tally) {
        assert!(allowed.contains(&number), "refused with {number}");
        assert!(self.memory == *before, "a refused call changed memory");
        tally.refused[number as usize] += 1;
    }

    /// The batches that the Rust has completed, taken into our queue.
    fn drain(&mut self, tally: &mut Tally) {
        while let Some(taken) = self.judge.next() {
            note_blocks(&mut self.kept, &taken, &self.lent);
            self.queue.push_back(taken);
            tally.batches += 1;
        }
    }

    /// Everything that can be seen, of the port and of the Rust.
    pub fn check(&mut self, tally: &mut Tally) {
        let reader = Reader::new(&self.memory);
        assert_eq!(reader.queued(), self.queue.len(), "batches queued");
        assert_eq!(self.memory.get_buffered_rows() as usize, self.judge.buffered_rows(), "rows buffered");
        assert_eq!(self.memory.has_completed_batch(), !self.queue.is_empty());
        assert_eq!(self.memory.is_empty(), self.queue.is_empty() && self.judge.buffered_rows() == 0);
        for (k, taken) in self.queue.iter().enumerate() {
            let slot = reader.queued_slot(k);
            assert_eq!(reader.rows_in(slot), taken.rows, "rows of batch {k}");
            same_columns(&reader, slot, taken, false);
        }
        check_books(&reader);
        self.check_buffered(&reader);
        tally.checks += 1;
    }

    /// The rows that are buffered, the open blocks and the kept sizes: a second coalescer is brought here and finished.
    fn check_buffered(&self, reader: &Reader) {
        let mut again = Judge::new(&numbers(&self.set_up), self.set_up.target as usize);
        for step in &self.steps {
            match step {
                Step::Push(batch) => again.push(batch),
                Step::Finish => again.finish(),
                Step::Limit(limit) => again.set_limit(*limit),
            }
            while again.drop_next().is_some() {}
        }
        again.finish();
        let mut kept = self.kept.clone();
        match again.next() {
            Some(left) => {
                assert_eq!(left.rows, reader.buffered());
                same_columns(reader, reader.place(), &left, true);
                note_blocks(&mut kept, &left, &self.lent);
            }
            None => assert_eq!(reader.buffered(), 0),
        }
        for c in (0..kept.len()).filter(|c| reader.kinds()[*c].is_view()) {
            assert_eq!(reader.kept(c), kept[c], "kept block size of column {c}");
        }
    }

    /// The front batch by the calls that read.
    fn read_front(&self, front: &Taken) {
        for (c, column) in front.columns.iter().enumerate() {
            for i in 0..front.rows {
                let shown = cell(column, front.rows, i);
                let answer = self.memory.read_row(c as u32, i as u32).expect("a row that is there");
                assert_eq!(self.bytes_of(answer), shown, "row {i} of column {c}");
            }
        }
        let past = self.memory.read_row(0, front.rows as u32);
        assert_eq!(past, Err(13), "a row past the last");
    }

    fn bytes_of(&self, answer: RowAnswer) -> Option<Vec<u8>> {
        match answer {
            RowAnswer::Null => None,
            RowAnswer::InRow { start, length } => Some(self.memory.slots[start as usize..][..length as usize].to_vec()),
            RowAnswer::InBuffer { number, offset, length } => {
                let mut bytes = vec![0; self.memory.read_buffer(number, &mut []) as usize];
                self.memory.read_buffer(number, &mut bytes);
                Some(bytes[offset as usize..][..length as usize].to_vec())
            }
        }
    }
}

/// The kinds by their numbers.
fn numbers(set_up: &SetUp) -> Vec<u32> {
    set_up.kinds.iter().map(|kind| kind.number()).collect()
}

/// Values, validity, views, lists and the buffers in them, of a slot of the port and a batch of the Rust.
fn same_columns(reader: &Reader, slot: usize, taken: &Taken, open: bool) {
    for (c, column) in taken.columns.iter().enumerate() {
        assert_eq!(reader.values(slot, c, taken.rows), column.values, "values of column {c}");
        same_validity(reader.bitmap(slot, c, taken.rows), taken.rows, column.validity.as_deref());
        let mut list = reader.list(slot, c);
        if open {
            list.extend(reader.open_block(c));
        }
        assert_eq!(list.len(), column.buffers.len(), "buffers in the list of column {c}");
        for (number, buffer) in list.iter().zip(&column.buffers) {
            assert_eq!(reader.entry(*number).capacity, buffer.capacity(), "capacity of a buffer of column {c}");
            assert!(reader.buffer(*number) == buffer.bytes(), "bytes of a buffer of column {c}");
        }
    }
}

/// A bitmap with no null equals an absent one; spare bits are zero.
fn same_validity(bitmap: &[u8], rows: usize, bits: Option<&[bool]>) {
    for i in 0..8 * bitmap.len() {
        let valid = bitmap[i / 8] >> (i % 8) & 1 == 1;
        let wanted = i < rows && bits.is_none_or(|bits| bits[i]);
        assert_eq!(valid, wanted, "validity of row {i} of {rows}");
    }
}

/// The kept size of a column is that of the last block it asked for, and at most 1 MiB. What was not lent is a block.
fn note_blocks(kept: &mut [usize], taken: &Taken, lent: &HashMap<usize, JudgeBuffer>) {
    for (kept, column) in kept.iter_mut().zip(&taken.columns) {
        for buffer in &column.buffers {
            if !lent.contains_key(&(buffer.bytes().as_ptr() as usize)) {
                *kept = buffer.capacity().min(1 << 20);
            }
        }
    }
}

/// The books: a buffer has as many listings as stand in lists and open blocks; one that nobody holds or lists is zero; no two share a byte.
fn check_books(reader: &Reader) {
    let mut listings = vec![0; reader.numbers()];
    let slots = (0..reader.queued()).map(|k| reader.queued_slot(k)).chain([reader.place()]);
    for slot in slots {
        for c in 0..reader.kinds().len() {
            reader.list(slot, c).iter().for_each(|number| listings[*number as usize] += 1);
        }
    }
    (0..reader.kinds().len()).filter_map(|c| reader.open_block(c)).for_each(|number| listings[number as usize] += 1);
    let mut taken: Vec<(usize, usize)> = Vec::new();
    for (number, listed) in listings.into_iter().enumerate() {
        let entry = reader.entry(number as u32);
        assert_eq!(entry.listings, listed, "listings of buffer {number}");
        if entry.hold == 0 && listed == 0 {
            assert_eq!((entry.start, entry.capacity, entry.length), (0, 0, 0), "the entry of free number {number}");
        } else if entry.capacity > 0 {
            taken.push((entry.start, entry.start + entry.capacity));
        }
    }
    taken.sort();
    assert!(taken.windows(2).all(|pair| pair[0].1 <= pair[1].0), "two buffers share a byte of the pool");
}
