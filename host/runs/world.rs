//! Valid histories from a seed: a small set-up, its memory, the buffers held, and calls that 01 refuses for want of room at most.

use crate::calls::Tally;
use puffwidget::layout::{Reader, SetUpSizes, word};
use puffwidget::{Kind, Memory, SetUp, inline_view};
use runs::columns::{Held, Made, Wanted, batch_of, edge, edge_sum, primitive, views};
use runs::model::{Answer, Call};
use runs::rng::Rng;

/// A history's set-up and memory, and the buffers that its caller holds.
#[derive(Clone)]
pub struct World {
    pub set_up: SetUp,
    pub memory: Memory,
    pub held: Vec<Held>,
}

/// A set-up within bounds, small, so that lists, numbers, pool and queue run out; half the time with some room, so that blocks are open.
fn small(rng: &mut Rng) -> SetUp {
    let roomy = rng.one_in(2);
    let columns = rng.pick(if roomy { &[1, 1, 2, 3] } else { &[0, 1, 1, 2, 2, 3, 4] });
    let kind = |rng: &mut Rng| match rng.below(if roomy { 6 } else { 3 }) {
        0 => Kind::of(rng.within(1, 17) as u32).unwrap(),
        _ => rng.pick(&[Kind::Utf8View, Kind::BinaryView]),
    };
    let target = rng.pick(if roomy { &[4, 8, 16, 24] } else { &[1, 2, 3, 4, 5, 8] });
    SetUp {
        kinds: (0..columns).map(|_| kind(rng)).collect(),
        target,
        rows: target + rng.below(12) as u32,
        queue: rng.pick(&[1, 1, 2, 3, 5]),
        lists: rng.pick(&[1, 2, 3, 4, 8]),
        numbers: rng.pick(if roomy { &[5, 8, 16] } else { &[1, 2, 3, 5, 8, 16] }),
        pool: match rng.below(150) {
            0 => 2_500_000,
            1..=9 => 300_000,
            _ if roomy => rng.pick(&[20_000, 30_000, 40_000, 60_000, 100_000]),
            _ => rng.pick(&[0, 300, 8_191, 8_192, 9_000, 12_000, 20_000, 30_000]),
        },
    }
}

/// The kinds in bytes, a word a column.
pub fn kinds_of(set_up: &SetUp) -> Vec<u8> {
    set_up.kinds.iter().flat_map(|kind| kind.number().to_le_bytes()).collect()
}

/// T, R, Q, B and N.
pub fn wanted_of(s: &SetUp) -> [u32; 5] {
    [s.target, s.rows, s.queue, s.lists, s.numbers]
}

/// Bytes from a seed for memory that set-up does not empty: they may hold anything.
fn dirty(rng: &mut Rng, n: usize) -> Vec<u8> {
    let byte = rng.next() as u8;
    vec![byte; n]
}

impl World {
    /// A small one.
    pub fn new(rng: &mut Rng, tally: &mut Tally) -> World {
        let set_up = small(rng);
        World::of(set_up, rng, tally)
    }

    /// One of this set-up.
    pub fn of(set_up: SetUp, rng: &mut Rng, tally: &mut Tally) -> World {
        let sizes = SetUpSizes::of(&set_up).expect("small sizes");
        let slots = dirty(rng, sizes.slots);
        let mut memory = Memory { state: dirty(rng, 304), slots, pool: dirty(rng, sizes.pool), books: dirty(rng, sizes.books) };
        let call = Call::SetUp(kinds_of(&set_up), wanted_of(&set_up));
        tally.check(&mut memory, &call, Some(0), "valid: set-up").expect("a set-up within bounds");
        World { set_up, memory, held: Vec::new() }
    }

    /// Makes a valid call on this memory.
    pub fn make(&mut self, call: &Call, tally: &mut Tally) -> Result<Answer, u32> {
        let answer = tally.check(&mut self.memory, call, None, "valid");
        match (call, &answer) {
            (Call::Register(bytes, _), Ok(Answer::Number(number))) => self.held.push(Held { number: *number, bytes: bytes.clone() }),
            (Call::LetGo(buffer), Ok(_)) => self.held.retain(|held| held.number != *buffer),
            _ => {}
        }
        answer
    }

    /// Lets buffers go while more than half of the numbers are held.
    pub fn let_some_go(&mut self, rng: &mut Rng, tally: &mut Tally) {
        while self.held.len() > self.set_up.numbers as usize / 2 {
            let call = Call::LetGo(self.held[rng.below(self.held.len())].number);
            let _ = self.make(&call, tally);
        }
    }

    /// A valid call, chosen by the seed.
    pub fn call(&mut self, rng: &mut Rng, tally: &mut Tally) -> Call {
        match rng.below(20) {
            0..=3 => {
                let length = rng.pick(&[0, 5, 13, 30, 100]) + rng.below(20);
                let capacity = length + rng.pick(&[0, 0, 1, 30, 3_000]);
                Call::Register(rng.bytes(length), capacity as u32)
            }
            4 | 5 if !self.held.is_empty() => Call::LetGo(self.held[rng.below(self.held.len())].number),
            6 => Call::Finish,
            7 => Call::Limit((!rng.one_in(3)).then(|| rng.below(8) as u32)),
            8 | 9 => Call::Drop,
            10 => self.read_row(rng),
            11 => Call::ReadBuffer(rng.below(word(&self.memory.books, 0) as usize) as u32),
            _ => self.push(rng, tally),
        }
    }

    /// A read of a row of the front batch, if there is one.
    pub fn read_row(&self, rng: &mut Rng) -> Call {
        let reader = Reader::new(&self.memory);
        let rows = if reader.queued() == 0 { 0 } else { reader.rows_in(reader.queued_slot(0)) };
        Call::ReadRow(rng.below(self.set_up.kinds.len()) as u32, rng.below(rows) as u32)
    }

    /// A push of columns of every sort, their edge buffers registered first.
    pub fn push(&mut self, rng: &mut Rng, tally: &mut Tally) -> Call {
        let most = self.set_up.rows as usize;
        let rows = match rng.below(10) {
            0 => 0,
            1 => most,
            2 => (self.set_up.target as usize - self.memory.get_buffered_rows() as usize).min(most),
            _ => rng.within(1, most),
        };
        let mut made = Vec::new();
        for (c, kind) in self.set_up.kinds.clone().into_iter().enumerate() {
            made.push(match kind.is_view() {
                false => primitive(rng, kind, rows),
                true if rng.below(3) > 0 || rows == 0 => views(rng, kind, rows, &self.held),
                true => self.edge_column(rng, kind, c, rows, tally),
            });
        }
        push_of(rows, &made)
    }

    /// A push of these views with this list in column c; the other columns' rows are plain and inline.
    pub fn push_in(&self, rows: usize, c: usize, views: Vec<u8>, list: Vec<u32>) -> Call {
        let plain = |kind: &Kind| if kind.is_view() { inline_view(b"row").unwrap().repeat(rows) } else { vec![1; rows * kind.width()] };
        let made = |kind: &Kind| Made { kind: *kind, values: plain(kind), validity: None, list: Vec::new() };
        let mut columns: Vec<Made> = self.set_up.kinds.iter().map(made).collect();
        if let Some(column) = columns.get_mut(c) {
            (column.values, column.list) = (views, list);
        }
        push_of(rows, &columns)
    }

    /// A push of rows that are plain and inline in every column.
    pub fn plain(&self, rows: usize) -> Call {
        self.push_in(rows, usize::MAX, Vec::new(), Vec::new())
    }

    /// A column at an edge; where its buffer finds no room, one over the buffers that are held.
    fn edge_column(&mut self, rng: &mut Rng, kind: Kind, c: usize, rows: usize, tally: &mut Tally) -> Made {
        let sum = edge_sum(rng, &Reader::new(&self.memory), c);
        let (mut column, Wanted { bytes, capacity }) = edge(rng, kind, rows, sum);
        match self.make(&Call::Register(bytes, capacity as u32), tally) {
            Ok(Answer::Number(number)) => {
                column.list = vec![number];
                column
            }
            _ => views(rng, kind, rows, &self.held),
        }
    }
}

/// The push of a batch.
fn push_of(rows: usize, columns: &[Made]) -> Call {
    let batch = batch_of(rows, columns);
    Call::Push { records: batch.records().to_vec(), body: batch.body().to_vec(), rows: batch.rows() }
}
