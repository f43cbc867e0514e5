//! Speed of taking a batch by column, beside a plain copy of its values: the crate reads slices, tests once and drops.

use puffwidget::{BatchCoalescer, Kind, SetUp, StringColumn, TypedColumn, UInt64Column};
use std::hint::black_box;
use std::time::{Duration, Instant};

/// Batches taken in a round.
const TAKEN: u32 = 100;

fn timed<T>(one: impl FnOnce() -> T) -> Duration {
    let started = Instant::now();
    black_box(one());
    started.elapsed()
}

/// The rows of the table: a batch of 1,000 rows read by column and dropped, beside a copy of its values and strings to warm memory.
pub fn rows(rounds: usize) {
    let numbers = UInt64Column::from_values(0..1_000);
    let names = StringColumn::from_values((0..1_000).map(|i| format!("a name of 20 b {i:05}")));
    row("8 columns of UInt64, read back and dropped", rounds, Kind::UInt64, &[&numbers as &dyn TypedColumn; 8], 8 * 8_000);
    row("views of 20 bytes, read back and dropped", rounds, Kind::Utf8View, &[&names], 16_000 + 20_000);
}

fn row(name: &str, rounds: usize, kind: Kind, columns: &[&dyn TypedColumn], bytes: usize) {
    let set_up = SetUp { rows: 1_024, queue: 4, ..SetUp::new(&vec![kind; columns.len()], 1_000) };
    let mut coalescer = BatchCoalescer::new(&set_up).expect("a set-up within bounds");
    let (from, mut to) = (vec![1u8; bytes], vec![0u8; bytes]);
    let mut best = [Duration::MAX; 2];
    for _ in 0..rounds {
        let mut took = [Duration::ZERO; 2];
        for _ in 0..TAKEN {
            coalescer.push(columns).expect("room");
            took[0] += timed(|| coalescer.next_completed_batch().expect("a state").expect("a batch"));
            took[1] += timed(|| black_box(&mut to).copy_from_slice(black_box(&from)));
        }
        best = [best[0].min(took[0]), best[1].min(took[1])];
    }
    let [take, copy] = best.map(|took| took.as_nanos() as f64 / f64::from(TAKEN));
    println!("| {name} | {take:.0} ns | - | - | {:.1} | {:.0} % |", bytes as f64 / take, 100.0 * copy / take);
}
