//! Speed of the port with many live buffers: what the tests and the searches of each call cost. The Rust has no counterpart.

use puffwidget::layout::SetUpSizes;
use puffwidget::{Batch, Kind, Memory, SetUp, long_view};
use runs::columns::{Made, batch_of};
use std::hint::black_box;
use std::time::Instant;

/// Bytes of each of the many buffers.
const SIZE: usize = 16;

/// Nanoseconds of one call, over n of them, the best of some rounds.
fn best(rounds: usize, n: usize, mut one: impl FnMut()) -> f64 {
    let mut round = || {
        let started = Instant::now();
        (0..n).for_each(|_| one());
        started.elapsed().as_nanos() as f64 / n as f64
    };
    (0..rounds).map(|_| round()).fold(f64::MAX, f64::min)
}

fn row(name: &str, port: f64) {
    println!("| {name} | {port:.0} ns | - | - | - | - |");
}

/// A column of views, 65,536 numbers, a pool of 8 MiB.
fn set_up() -> Memory {
    let set_up = SetUp { rows: 1_024, queue: 4, lists: 1_024, numbers: 65_536, pool: 8 << 20, ..SetUp::new(&[Kind::Utf8View], 1_024) };
    let sizes = SetUpSizes::of(&set_up).expect("sizes");
    let mut memory = Memory::of(sizes.slots, sizes.pool, sizes.books).unwrap();
    let kinds = Kind::Utf8View.number().to_le_bytes();
    memory.set_up(&kinds, set_up.target, set_up.rows, set_up.queue, set_up.lists, set_up.numbers).expect("a set-up within bounds");
    memory
}

fn register_and_let_go(memory: &mut Memory) {
    let number = memory.register_buffer(&[7; SIZE], SIZE as u32).expect("room");
    memory.let_go(number).expect("a buffer that is held");
}

/// A push of 1,000 views of 20 bytes; its buffer has `spread` bytes of capacity for each of its own.
fn views(memory: &mut Memory, spread: usize) -> Batch {
    let bytes: Vec<u8> = (0..20_000).map(|i| i as u8).collect();
    let number = memory.register_buffer(&bytes, (spread * bytes.len()) as u32).expect("room");
    let values = (0..1_000).flat_map(|i| long_view(&bytes, 0, 20 * i, 20).unwrap()).collect();
    batch_of(1_000, &[Made { kind: Kind::Utf8View, values, validity: None, list: vec![number] }])
}

fn push_and_drop(memory: &mut Memory, batch: &Batch) {
    memory.push_batch(batch.records(), batch.body(), batch.rows()).expect("room");
    while memory.has_completed_batch() {
        black_box(memory.next_completed_batch().expect("a batch"));
    }
}

/// The rows with 10, 1,000 and 60,000 live buffers.
pub fn lying_in_order(rounds: usize) {
    let (mut memory, mut live) = (set_up(), 0);
    for (wanted, name, n) in [(10, "10", 1_000), (1_000, "1,000", 100), (60_000, "60,000", 4)] {
        while live < wanted {
            memory.register_buffer(&[7; SIZE], SIZE as u32).expect("room");
            live += 1;
        }
        row(
            &format!("a push of 0 rows (the tests), {name} live buffers"),
            best(rounds, n, || memory.push_batch(&[], &[], 0).expect("done")),
        );
        row(&format!("register and let go, {name} live buffers"), best(rounds, n, || register_and_let_go(&mut memory)));
    }
    for (name, spread) in [("attached", 1), ("compacted", 3)] {
        let batch = views(&mut memory, spread);
        let took = best(rounds, 4, || push_and_drop(&mut memory, &batch));
        row(&format!("views of 20 bytes, {name}, 60,000 live buffers"), took);
    }
}

/// The row with 1,000 buffers whose order in the pool is the reverse of their numbers': each was registered while one buffer, let go at
/// once, had all the room before it.
pub fn lying_backwards(rounds: usize) {
    let mut memory = set_up();
    for left in (0..1_000).rev() {
        let all_before = memory.register_buffer(&[], (SIZE * left) as u32).expect("room");
        memory.register_buffer(&[7; SIZE], SIZE as u32).expect("room");
        memory.let_go(all_before).expect("a buffer that is held");
    }
    row("register and let go, 1,000 live buffers lying backwards", best(rounds, 2, || register_and_let_go(&mut memory)));
}
