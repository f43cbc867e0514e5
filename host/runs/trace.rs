//! A history as a capture (docs/HOST.md), and what must be printed for it, a line a call: what `replay` is held to.
//!
//! Rows, row counts and batches queued are the Rust text's. The numbers of buffers are the port's own, since the Rust has none: a caller
//! names them in lists and when it lets go, so that they stand in the capture too.

use crate::cells::cell;
use crate::lines;
use judge::Taken;
use puffwidget::layout::SetUpSizes;
use puffwidget::{Batch, SetUp};
use std::fmt::Write;

/// The calls' bytes, and the lines.
pub struct Trace {
    pub calls: Vec<u8>,
    pub said: String,
}

impl Trace {
    pub fn new(set_up: &SetUp, sizes: &SetUpSizes) -> Trace {
        let mut trace = Trace { calls: Vec::new(), said: String::new() };
        let kinds: Vec<u8> = set_up.kinds.iter().flat_map(|kind| kind.number().to_le_bytes()).collect();
        let SetUp { target, rows, queue, lists, numbers, .. } = set_up;
        let lengths = [sizes.slots as u32, sizes.books as u32, sizes.pool as u32];
        trace.call(1, &[*target, *rows, *queue, *lists, *numbers, lengths[0], lengths[1], lengths[2]], &kinds, &[]);
        trace.say(format!("set-up T {target} R {rows} Q {queue} B {lists} N {numbers}: done, buffered 0, queued 0"));
        trace
    }

    /// A call: a header of twelve words, then two runs of bytes.
    fn call(&mut self, what: u32, numbers: &[u32], first: &[u8], second: &[u8]) {
        let mut words = [0; 12];
        words[0] = what;
        words[1..1 + numbers.len()].copy_from_slice(numbers);
        words[9] = first.len() as u32;
        words[10] = second.len() as u32;
        self.calls.extend(words.iter().flat_map(|word| word.to_le_bytes()));
        self.calls.extend_from_slice(first);
        self.calls.extend_from_slice(second);
    }

    fn say(&mut self, line: String) {
        writeln!(self.said, "{line}").expect("a string takes all");
    }

    pub fn register(&mut self, bytes: &[u8], capacity: usize, number: u32) {
        self.call(2, &[capacity as u32], &[], bytes);
        self.say(format!("register {} of {capacity}: done, number {number}", bytes.len()));
    }

    pub fn let_go(&mut self, number: u32) {
        self.call(3, &[number], &[], &[]);
        self.say(format!("let go {number}: done"));
    }

    pub fn limit(&mut self, limit: Option<usize>) {
        let (set, rows) = limit.map_or((0, 0), |rows| (1, rows));
        self.call(7, &[set, rows as u32], &[], &[]);
        let what = if set == 1 { rows.to_string() } else { "none".to_string() };
        self.say(format!("limit {what}: done, set {set} to {rows}"));
    }

    pub fn push(&mut self, batch: &Batch, buffered: usize, queued: usize) {
        self.call(4, &[batch.rows()], batch.records(), batch.body());
        self.say(format!("push {}: done, buffered {buffered}, queued {queued}", batch.rows()));
    }

    pub fn finish(&mut self, buffered: usize, queued: usize) {
        self.call(5, &[], &[], &[]);
        self.say(format!("finish: done, buffered {buffered}, queued {queued}"));
    }

    /// A batch taken, of which each row is a line; with no columns there are none.
    pub fn take(&mut self, taken: &Taken, buffered: usize, queued: usize) {
        self.call(6, &[], &[], &[]);
        for i in 0..if taken.columns.is_empty() { 0 } else { taken.rows } {
            let cells: Vec<_> = taken.columns.iter().map(|column| cell(column, taken.rows, i)).collect();
            self.say(lines::row(&cells));
        }
        self.say(format!("drop: done, rows {}, buffered {buffered}, queued {queued}", taken.rows));
    }
}
