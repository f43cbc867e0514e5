//! Rows through a coalescer and a strip, with cuts, a target, a limit and finishes from a seed, each batch compared with the model.

use super::tally::Tally;
use puffwidget::layout::Reader;
use puffwidget::{BatchCoalescer, Kind, SetUp, Side, Strip, inline_view, long_view};
use runs::columns::{Made, batch_of};
use runs::rng::Rng;
use runs::strip_model::{Row, Strip as Model};

/// A court: the coalescer, the strip, and the model of what the strip has taken.
pub struct Court {
    pub coalescer: BatchCoalescer,
    pub strip: Strip,
    model: Model,
    /// rows taken so far
    taken: usize,
}

/// The four columns of some rows, their long names in a buffer that is registered for them.
pub fn columns(rng: &mut Rng, coalescer: &mut BatchCoalescer, rows: &[Row], tally: &mut Tally) -> Vec<Made> {
    let lead = rng.below(3); // names do not all begin at 0
    let mut text = rng.bytes(lead);
    let starts: Vec<usize> = rows.iter().map(|row| start(&mut text, row)).collect();
    let spread = rng.pick(&[1, 1, 3]);
    let long = rows.iter().any(|row| name(row).len() > 12);
    tally.count(
        "pushes",
        match (long, spread) {
            (false, _) => "short names",
            (true, 1) => "long names, attached",
            (true, _) => "long names, compacted",
        },
    );
    let capacity = (text.len() * spread) as u32;
    let list: Vec<u32> = long.then(|| coalescer.register_buffer(&text, capacity).expect("room for a buffer").0).into_iter().collect();
    let views = rows.iter().zip(starts).flat_map(|(row, at)| match name(row) {
        name if name.len() <= 12 => inline_view(name).expect("an inline view"),
        name => long_view(&text, 0, at, name.len()).expect("a long view"),
    });
    let values = [
        rows.iter().flat_map(|row| row.number.unwrap_or(9).to_le_bytes()).collect(),
        rows.iter().map(|row| row.side.unwrap_or(1)).collect(),
        rows.iter().map(|row| row.event.unwrap_or(1)).collect(),
        views.collect::<Vec<u8>>(),
    ];
    let valid: [fn(&Row) -> bool; 4] =
        [|row| row.number.is_some(), |row| row.side.is_some(), |row| row.event.is_some(), |row| row.name.is_some()];
    let made = Strip::KINDS.into_iter().zip(values).zip(valid);
    made.map(|((kind, values), valid)| Made {
        kind,
        values,
        validity: bits(rng, rows.iter().map(valid).collect()),
        list: if kind == Kind::Utf8View { list.clone() } else { vec![] },
    })
    .collect()
}

/// A name; what a null row's view shows is no part of the row.
fn name(row: &Row) -> &[u8] {
    row.name.as_deref().unwrap_or(b"under null")
}

/// Where a long name lies in the text.
fn start(text: &mut Vec<u8>, row: &Row) -> usize {
    let at = text.len();
    if name(row).len() > 12 {
        text.extend(name(row));
    }
    at
}

/// Validity from a first bit that need not be 0; none where no row is null, now and then.
fn bits(rng: &mut Rng, valid: Vec<bool>) -> Option<(Vec<u8>, u32)> {
    if valid.iter().all(|bit| *bit) && rng.one_in(2) {
        return None;
    }
    let first = rng.pick(&[0, 0, 1, 7, 8, 13]);
    let mut bitmap = rng.bytes((first + valid.len()).div_ceil(8));
    for (i, valid) in valid.into_iter().enumerate() {
        let bit = 1 << ((first + i) % 8);
        bitmap[(first + i) / 8] &= !bit;
        bitmap[(first + i) / 8] |= if valid { bit } else { 0 };
    }
    Some((bitmap, first as u32))
}

impl Court {
    pub fn new(rng: &mut Rng, tally: &mut Tally) -> Court {
        let target = rng.pick(&[1, 1, 2, 3, 4, 5, 8, 17, 64]);
        let set_up = SetUp { rows: 64, queue: 160, lists: 256, numbers: 2_048, pool: 256 << 20, ..SetUp::new(&Strip::KINDS, target) };
        let limit = rng.pick(&[None, None, Some(0), Some(2), Some(5), Some(20)]);
        tally.count("targets", target);
        tally.count("limits", limit.map_or("none".to_string(), |rows| rows.to_string()));
        let coalescer = BatchCoalescer::new(&set_up).expect("a court").with_biggest_coalesce_batch_size(limit);
        Court { coalescer, strip: Strip::new(), model: Model::default(), taken: 0 }
    }

    /// Pushes some rows; their buffer is let go at once, now and then.
    pub fn push(&mut self, rng: &mut Rng, rows: &[Row], tally: &mut Tally) {
        let made = columns(rng, &mut self.coalescer, rows, tally);
        self.coalescer.push_batch(&batch_of(rows.len(), &made)).expect("room for the rows");
        for number in &made[3].list {
            self.coalescer.let_go(puffwidget::BufferNumber(*number)).expect("a buffer that is held");
        }
    }

    /// Takes a batch and compares: each row's number, every name, the last number, every byte.
    fn take(&mut self, rows: &[Row], tally: &mut Tally) -> bool {
        let Some(taken) = self.strip.take_batch(&mut self.coalescer).expect("a strip and a court") else { return false };
        for (number, row) in taken.numbers().iter().zip(&rows[self.taken..]) {
            let wanted = self.model.take(row);
            assert_eq!(u32::from(*number), wanted, "row {} is {row:?}", self.taken);
            self.taken += 1;
        }
        for (side, out) in Side::ALL.into_iter().zip(&self.model.out) {
            assert!(self.strip.out(side).eq(out.iter().map(|name| &name[..])), "{side:?} behind row {}", self.taken);
        }
        assert_eq!(self.strip.last(), self.model.last, "behind row {}", self.taken);
        assert!(self.strip.bytes()[..] == self.model.bytes(), "the bytes behind row {}", self.taken);
        tally.batches += 1;
        true
    }

    /// All rows, cut anew: the strip's bytes and each row's number.
    pub fn play(mut self, rng: &mut Rng, rows: &[Row], tally: &mut Tally) -> Strip {
        let (mut at, most) = (0, rng.pick(&[1, 3, 10, 64]));
        while at < rows.len() {
            let next = rows.len().min(at + rng.within(1, most));
            self.push(rng, &rows[at..next], tally);
            at = next;
            if rng.one_in(6) {
                self.coalescer.finish_buffered_batch().expect("room in the queue");
                tally.count("pushes", "finished behind");
            }
            // now and then batches wait; the queue has room for those of one push more
            let waits = Reader::new(self.coalescer.memory()).queued();
            for _ in 0..if waits > 60 { waits } else { rng.below(waits + 2) } {
                self.take(rows, tally);
            }
        }
        self.coalescer.finish_buffered_batch().expect("room in the queue");
        while self.take(rows, tally) {}
        assert_eq!((self.taken, self.coalescer.is_empty()), (rows.len(), true), "rows were lost");
        self.strip
    }
}
