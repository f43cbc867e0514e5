//! What the programs `edges` and `replay` must print for a capture (docs/HOST.md, "A capture file"): a line a call, and the rows of a batch
//! before it is dropped.

use super::basics::{put_word, word};
use super::calls::{Answer, Call, Counts, called};
use crate::lines;
use puffwidget::{Memory, RowAnswer};
use std::io::Write;

/// A call of a capture: its number, its numbers a to h, and two runs of bytes.
struct Item<'a> {
    what: u32,
    numbers: [u32; 8],
    first: &'a [u8],
    second: &'a [u8],
}

/// The next call of a capture, taken off its front; a cut one is none.
fn next<'a>(capture: &mut &'a [u8]) -> Option<Item<'a>> {
    let header = capture.split_off(..48)?;
    let at = |i: usize| word(header, 4 * i);
    let first = capture.split_off(..at(9))?;
    let second = capture.split_off(..at(10))?;
    Some(Item { what: at(0) as u32, numbers: std::array::from_fn(|i| at(1 + i) as u32), first, second })
}

/// What must be printed for a capture.
pub fn said(mut capture: &[u8]) -> Vec<u8> {
    let mut player = Player { memory: Memory::of(0, 0, 0).unwrap(), lent: [0; 3], said: Vec::new() };
    while let Some(item) = next(&mut capture) {
        player.play(&item);
    }
    player.said
}

/// The memories, of which so many bytes of slots, books and pool are lent to a call; and what was said.
struct Player {
    memory: Memory,
    lent: [usize; 3],
    said: Vec<u8>,
}

impl Player {
    /// One call of the capture.
    fn play(&mut self, item: &Item) {
        let [a, b, c, d, e, ..] = item.numbers;
        match item.what {
            1 => {
                self.lend(item);
                self.tell(format!("set-up T {a} R {b} Q {c} B {d} N {e}"), &Call::SetUp(item.first.to_vec(), [a, b, c, d, e]));
                self.end_with_counts();
            }
            2 => self.register(item.second, a),
            3 => {
                self.tell(format!("let go {a}"), &Call::LetGo(a));
                self.say("\n");
            }
            4 => {
                let call = Call::Push { records: item.first.to_vec(), body: item.second.to_vec(), rows: a };
                self.tell(format!("push {a}"), &call);
                self.end_with_counts();
            }
            5 => {
                self.tell("finish".to_string(), &Call::Finish);
                self.end_with_counts();
            }
            6 => self.drop_front(),
            7 => self.limit((a != 0).then_some(b)),
            8 => self.row(a, b),
            9 => self.buffer(a),
            10 => self.counts(),
            11 => self.books(),
            12 => self.overwrite(a, b as usize, c as usize),
            13 => self.lend(item),
            14 => self.show(a, b as usize, c as usize),
            _ => {
                self.said.extend(lines::shown(item.second));
                self.say("\n");
            }
        }
    }

    fn say(&mut self, text: &str) {
        self.said.extend_from_slice(text.as_bytes());
    }

    /// Lends f bytes of slots, g of books and h of the pool from now on. Memory that was never lent is zero.
    fn lend(&mut self, item: &Item) {
        let [_, _, _, _, _, f, g, h] = item.numbers;
        self.lent = [f, g, h].map(|length| length as usize);
        for (bytes, length) in [&mut self.memory.slots, &mut self.memory.books, &mut self.memory.pool].into_iter().zip(self.lent) {
            bytes.resize(length.max(bytes.len()), 0);
        }
    }

    /// Makes a call on what is lent.
    fn call(&mut self, call: &Call) -> Result<Answer, u32> {
        let [slots, books, pool] = self.lent;
        let m = &mut self.memory;
        let lent = Memory {
            state: m.state.clone(),
            slots: m.slots[..slots].to_vec(),
            pool: m.pool[..pool].to_vec(),
            books: m.books[..books].to_vec(),
        };
        let (answer, after) = called(&lent, call).map_err(|refused| refused.number)?;
        m.state = after.state;
        m.slots[..slots].copy_from_slice(&after.slots);
        m.pool[..pool].copy_from_slice(&after.pool);
        m.books[..books].copy_from_slice(&after.books);
        Ok(answer)
    }

    /// Makes a call and says what it is and whether it was refused.
    fn tell(&mut self, what: String, call: &Call) -> Option<Answer> {
        let answer = self.call(call);
        self.say(&what);
        match answer {
            Ok(answer) => {
                self.say(": done");
                Some(answer)
            }
            Err(number) => {
                self.say(&format!(": refused {number}"));
                None
            }
        }
    }

    /// The limit and the counts that the calls on the state alone give.
    fn now(&mut self) -> Counts {
        match self.call(&Call::Counts) {
            Ok(Answer::Counts(counts)) => counts,
            _ => unreachable!("refuses nothing"),
        }
    }

    fn end_with_counts(&mut self) {
        let (buffered, queued) = (self.now().buffered, word(&self.memory.state, 40));
        self.say(&format!(", buffered {buffered}, queued {queued}\n"));
    }

    fn register(&mut self, bytes: &[u8], capacity: u32) {
        let what = format!("register {} of {capacity}", bytes.len());
        if let Some(Answer::Number(number)) = self.tell(what, &Call::Register(bytes.to_vec(), capacity)) {
            self.say(&format!(", number {number}"));
        }
        self.say("\n");
    }

    /// The rows of the front batch, then the drop. A batch with no columns has no row that can be read.
    fn drop_front(&mut self) {
        for row in 0.. {
            let cells: Vec<Option<Vec<u8>>> = (0..).map_while(|column| self.cell(column, row)).collect();
            if cells.is_empty() {
                break;
            }
            self.say(&lines::row(&cells));
            self.say("\n");
        }
        let rows = match self.tell("drop".to_string(), &Call::Drop) {
            Some(Answer::Rows(rows)) => rows,
            _ => 0,
        };
        self.say(&format!(", rows {rows}"));
        self.end_with_counts();
    }

    /// What a row of a column of the front batch shows, if it is there: null, or its bytes. A value outside its buffer, which no history
    /// leaves, shows as one of no bytes.
    fn cell(&mut self, column: u32, row: u32) -> Option<Option<Vec<u8>>> {
        let Ok(Answer::Row(answer)) = self.call(&Call::ReadRow(column, row)) else { return None };
        Some(match answer {
            RowAnswer::Null => None,
            RowAnswer::InRow { start, length } => Some(self.memory.slots[start as usize..][..length as usize].to_vec()),
            RowAnswer::InBuffer { number, offset, length } => {
                let part = match self.call(&Call::ReadBuffer(number)) {
                    Ok(Answer::Part(bytes)) => bytes,
                    _ => Vec::new(),
                };
                let end = offset as usize + length as usize;
                Some(part.get(offset as usize..end).unwrap_or_default().to_vec())
            }
        })
    }

    fn limit(&mut self, limit: Option<u32>) {
        let what = limit.map_or("limit none".to_string(), |rows| format!("limit {rows}"));
        self.tell(what, &Call::Limit(limit));
        let (set, rows) = self.now().limit.map_or((0, 0), |rows| (1, rows));
        self.say(&format!(", set {set} to {rows}\n"));
    }

    fn row(&mut self, column: u32, row: u32) {
        let place = match self.tell(format!("row {row} of column {column}"), &Call::ReadRow(column, row)) {
            Some(Answer::Row(RowAnswer::Null)) => ", null".to_string(),
            Some(Answer::Row(RowAnswer::InRow { start, length })) => format!(", in its row at {start}, length {length}"),
            Some(Answer::Row(RowAnswer::InBuffer { number, offset, length })) => {
                format!(", in buffer {number} at {offset}, length {length}")
            }
            _ => String::new(),
        };
        self.say(&format!("{place}\n"));
    }

    /// A buffer's bytes, at most 64 of them, and the number beside them.
    fn buffer(&mut self, number: u32) {
        let answer = self.call(&Call::ReadBuffer(number));
        let bytes = match &answer {
            Ok(Answer::Part(bytes)) => &bytes[..],
            _ => &[],
        };
        let refused = answer.as_ref().err().map_or("done".to_string(), |number| format!("refused {number}"));
        self.say(&format!("buffer {number}: bytes {}: {refused}, '", bytes.len()));
        self.said.extend(lines::shown(&bytes[..bytes.len().min(64)]));
        self.say("'\n");
    }

    fn counts(&mut self) {
        let Counts { buffered, completed, empty, .. } = self.now();
        self.say(&format!("counts: buffered {buffered}, completed {}, empty {}\n", completed as u32, empty as u32));
    }

    /// The entries in use, as far as the books go.
    fn books(&mut self) {
        let books = &self.memory.books[..self.lent[1]];
        if books.len() < 4 {
            return;
        }
        let _ = writeln!(self.said, "books: in use {}", word(books, 0));
        for (i, entry) in books[4..].chunks_exact(20).take(word(books, 0)).enumerate() {
            let [start, capacity, length, hold, listings] = [0, 4, 8, 12, 16].map(|at| word(entry, at));
            let place = format!("start {start}, capacity {capacity}, length {length}");
            let _ = writeln!(self.said, "  {i}: {place}, hold {hold}, listings {listings}");
        }
    }

    /// Bytes of what is lent as they stand: 0 the state, 1 the slots, 2 the books, else the pool; none where they are not all there.
    fn show(&mut self, memory: u32, at: usize, length: usize) {
        let [slots, books, pool] = self.lent;
        let m = &self.memory;
        let (name, bytes) = match memory {
            0 => ("state", &m.state[..]),
            1 => ("slots", &m.slots[..slots]),
            2 => ("books", &m.books[..books]),
            _ => ("pool", &m.pool[..pool]),
        };
        let shown = bytes.get(at..at + length).unwrap_or_default().to_vec();
        self.say(&format!("{name} at {at}: {}\n", lines::cell(&Some(shown))));
    }

    /// A word overwritten, as no history would, where it lies in what is lent: 0 the state, 1 the slots, else the books.
    fn overwrite(&mut self, memory: u32, at: usize, value: usize) {
        let [slots, books, _] = self.lent;
        let bytes = match memory {
            0 => &mut self.memory.state[..],
            1 => &mut self.memory.slots[..slots],
            _ => &mut self.memory.books[..books],
        };
        if at + 4 <= bytes.len() {
            put_word(bytes, at, value);
        }
    }
}
