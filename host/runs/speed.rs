//! Speed: the same batches through the port and through the Rust text, in turns, best of several runs, as ratios.
//!
//! A run pushes one batch many times and drops batches as they complete. Memory is not cleared between pushes: the port's pool, slots
//! and books are warm, and so is what the Rust's allocator gives again. `memcpy` copies the bytes that a push moves, to warm memory.
//! `speed [ROUNDS [NAME]]`: the rows whose name has NAME in it; times are of this machine, ratios travel better. The last rows are of the
//! port alone: batches read back by the crate, and calls with many live buffers; those of the strip stand beside a plain loop over the same memory.

mod crowd;
mod reading;
mod taking;

use judge::{Judge, JudgeBuffer, JudgeColumn, Prepared, prepare};
use puffwidget::layout::SetUpSizes;
use puffwidget::{Batch, Kind, Memory, SetUp, inline_view, long_view};
use runs::columns::{Made, batch_of};
use runs::rng::Rng;
use std::hint::black_box;
use std::time::Instant;

/// One row of the table.
struct Case {
    name: &'static str,
    kinds: Vec<Kind>,
    rows: usize,
    target: u32,
    limit: Option<u32>,
    /// every eighth row null
    nulls: bool,
    /// bytes of each string, 0 for columns without views
    string: usize,
    /// capacity of the buffer for each byte in it
    spread: usize,
}

fn cases() -> Vec<Case> {
    let case = |name, kind, columns, string, spread| Case {
        name,
        kinds: vec![kind; columns],
        rows: 1_000,
        target: 1_024,
        limit: None,
        nulls: false,
        string,
        spread,
    };
    let mut all = vec![
        case("8 columns of UInt64", Kind::UInt64, 8, 0, 1),
        case("8 columns of UInt64, every 8th null", Kind::UInt64, 8, 0, 1),
        case("4 columns of Decimal256", Kind::Decimal256, 4, 0, 1),
        case("8 columns of UInt8", Kind::UInt8, 8, 0, 1),
        case("views of 8 bytes, inline", Kind::Utf8View, 1, 8, 1),
        case("views of 20 bytes, attached", Kind::Utf8View, 1, 20, 1),
        case("views of 200 bytes, attached", Kind::Utf8View, 1, 200, 1),
        case("views of 20 bytes, compacted", Kind::Utf8View, 1, 20, 3),
        case("views of 200 bytes, compacted", Kind::Utf8View, 1, 200, 3),
        case("8 columns of UInt64, queued whole", Kind::UInt64, 8, 0, 1),
        case("views of 20 bytes, queued whole", Kind::Utf8View, 1, 20, 1),
        case("8 columns of UInt64, 10 rows a push", Kind::UInt64, 8, 0, 1),
        case("views of 20 bytes, 10 rows a push, compacted", Kind::Utf8View, 1, 20, 3),
    ];
    all[1].nulls = true;
    all[9].limit = Some(500);
    all[10].limit = Some(500);
    all[11].rows = 10;
    all[12].rows = 10;
    all
}

/// The views of the rows, strings one behind the other in one buffer.
fn strings(case: &Case, rng: &mut Rng) -> (Vec<u8>, Vec<u8>) {
    let bytes = rng.bytes(case.rows * case.string);
    let view = |i: usize| match case.string {
        0..=12 => inline_view(&bytes[i * case.string..][..case.string]).unwrap(),
        length => long_view(&bytes, 0, i * length, length).unwrap(),
    };
    let values = (0..case.rows).flat_map(view).collect();
    (values, bytes)
}

/// The port set up for a case, with the batch; a case's columns are the same bytes in each.
struct Bench {
    memory: Memory,
    batch: Batch,
    judge: Judge,
    prepared: Prepared,
    /// bytes that a push moves
    moved: usize,
}

fn bench(case: &Case) -> Bench {
    let mut rng = Rng::new(7);
    let is_view = case.kinds[0].is_view();
    let set_up = SetUp { rows: 1_024, queue: 4, lists: 2_048.min(1_024), pool: 8 << 20, ..SetUp::new(&case.kinds, case.target) };
    let sizes = SetUpSizes::of(&set_up).unwrap();
    let mut memory = Memory::of(sizes.slots, sizes.pool, sizes.books).unwrap();
    let kinds: Vec<u8> = case.kinds.iter().flat_map(|kind| kind.number().to_le_bytes()).collect();
    memory.set_up(&kinds, set_up.target, set_up.rows, set_up.queue, set_up.lists, set_up.numbers).unwrap();
    memory.set_biggest_coalesce_batch_size(case.limit).unwrap();
    let (values, bytes) = match is_view {
        true => strings(case, &mut rng),
        false => (rng.bytes(case.rows * case.kinds[0].width()), Vec::new()),
    };
    let long = is_view && case.string > 12;
    let list = if long { vec![memory.register_buffer(&bytes, (bytes.len() * case.spread) as u32).unwrap()] } else { vec![] };
    let validity = case.nulls.then(|| (vec![0x7f; case.rows.div_ceil(8)], 0));
    let made: Vec<Made> = case
        .kinds
        .iter()
        .map(|kind| Made { kind: *kind, values: values.clone(), validity: validity.clone(), list: list.clone() })
        .collect();
    let buffer = JudgeBuffer::new(&bytes, bytes.len() * case.spread);
    let columns: Vec<JudgeColumn> = made
        .iter()
        .map(|made| JudgeColumn {
            kind: made.kind.number(),
            values: &made.values,
            validity: made.validity.as_ref().map(|(bitmap, first)| (&bitmap[..], *first as usize)),
            buffers: if long { vec![buffer.clone()] } else { vec![] },
        })
        .collect();
    let numbers: Vec<u32> = case.kinds.iter().map(|kind| kind.number()).collect();
    let prepared = prepare(&numbers, case.rows, &columns);
    let mut judge = Judge::new(&numbers, case.target as usize);
    judge.set_limit(case.limit.map(|rows| rows as usize));
    let strings = if long && case.spread > 2 { bytes.len() } else { 0 };
    Bench { memory, batch: batch_of(case.rows, &made), judge, prepared, moved: case.kinds.len() * values.len() + strings }
}

impl Bench {
    /// Nanoseconds of one push, over n of them.
    fn port(&mut self, n: usize) -> f64 {
        let started = Instant::now();
        for _ in 0..n {
            self.memory.push_batch(self.batch.records(), self.batch.body(), self.batch.rows()).expect("room");
            while self.memory.has_completed_batch() {
                black_box(self.memory.next_completed_batch().unwrap());
            }
        }
        started.elapsed().as_nanos() as f64 / n as f64
    }

    fn rust(&mut self, n: usize) -> f64 {
        let started = Instant::now();
        for _ in 0..n {
            self.judge.push(&self.prepared);
            while self.judge.has_completed_batch() {
                black_box(self.judge.drop_next());
            }
        }
        started.elapsed().as_nanos() as f64 / n as f64
    }

    /// The bytes that a push moves, copied in one piece.
    fn memcpy(&mut self, n: usize, to: &mut [u8], from: &[u8]) -> f64 {
        let started = Instant::now();
        for _ in 0..n {
            black_box(&mut *to)[..self.moved].copy_from_slice(&black_box(from)[..self.moved]);
        }
        started.elapsed().as_nanos() as f64 / n as f64
    }
}

fn main() {
    let rounds: usize = std::env::args().nth(1).map_or(60, |text| text.parse().expect("a number of rounds"));
    println!("| a push of 1,000 rows (or 10) | port | Rust text | port's speed by the Rust's | GB/s | of memcpy |");
    println!("|---|---|---|---|---|---|");
    let only = std::env::args().nth(2);
    for case in cases().iter().filter(|case| only.as_ref().is_none_or(|word| case.name.contains(&word[..]))) {
        let mut bench = bench(case);
        let n = if case.rows < 100 { 2_000 } else { 100 };
        let (from, mut to) = (vec![1u8; bench.moved], vec![0u8; bench.moved]);
        let mut best = [f64::MAX; 3];
        for _ in 0..rounds {
            for (least, took) in best.iter_mut().zip([bench.port(n), bench.rust(n), bench.memcpy(n, &mut to, &from)]) {
                *least = least.min(took);
            }
        }
        let [port, rust, memcpy] = best;
        println!(
            "| {} | {port:.0} ns | {rust:.0} ns | {:.2} | {:.1} | {:.0} % |",
            case.name,
            rust / port,
            bench.moved as f64 / port,
            100.0 * memcpy / port
        );
    }
    if only.as_ref().is_none_or(|word| "read back".contains(&word[..])) {
        reading::rows(rounds);
    }
    if only.as_ref().is_none_or(|word| "taken by the strip".contains(&word[..])) {
        taking::strips(rounds);
    }
    if only.is_none_or(|word| "live buffers".contains(&word[..])) {
        crowd::lying_in_order(rounds);
        crowd::lying_backwards(rounds);
    }
}
