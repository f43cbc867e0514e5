//! Speed of a strip that takes a batch, beside a plain loop over the same memory with a queue of vectors a side.

use puffwidget::layout::{Reader, word};
use puffwidget::{Batch, BatchCoalescer, Memory, SetUp, Side, Strip, inline_view, long_view};
use runs::columns::{Made, batch_of};
use runs::rng::Rng;
use std::collections::VecDeque;
use std::hint::black_box;
use std::time::{Duration, Instant};

/// Rows of a batch.
const ROWS: usize = 1_000;

/// Batches taken in a round.
const TAKEN: u32 = 100;

/// The strip as a Rust program would write it.
#[derive(Default)]
struct Plain {
    last: Option<u64>,
    out: [VecDeque<Vec<u8>>; 2],
}

impl Plain {
    fn row(&mut self, number: u64, side: u8, event: u8, name: &[u8]) -> u8 {
        if !(1..=2).contains(&side) || !(1..=2).contains(&event) || name.is_empty() || name.len() > 64 {
            return 31;
        }
        if self.last.is_some_and(|last| number <= last) {
            return 32;
        }
        let out = &mut self.out[side as usize - 1];
        match event {
            1 if out.len() == 7 => return 33,
            1 if out.iter().any(|other| other == name) => return 35,
            1 => out.push_back(name.to_vec()),
            _ if out.pop_front().is_none() => return 34,
            _ => {}
        }
        self.last = Some(number);
        0
    }

    /// The rows of the front batch by the places of its columns; then it is dropped.
    fn take(&mut self, memory: &mut Memory, numbers: &mut [u8]) -> usize {
        let mut told = [0; 512];
        let rows = memory.front_batch(&mut told).expect("a batch") as usize;
        let place = |i: usize| word(&told, 8 * i) as usize | (word(&told, 8 * i + 4) as usize) << 32;
        let (slots, reader) = (&memory.slots, Reader::new(memory));
        for (i, answer) in numbers[..rows].iter_mut().enumerate() {
            let valid = |c: usize| slots[place(4 * c + 1) + i / 8] >> (i % 8) & 1 == 1;
            if !(0..4).all(valid) {
                *answer = 31;
                continue;
            }
            let number = u64::from_le_bytes(slots[place(0) + 8 * i..][..8].try_into().expect("8 bytes"));
            let view = &slots[place(12) + 16 * i..][..16];
            let name = match word(view, 0) as usize {
                length @ 0..=12 => &view[4..4 + length],
                length => {
                    let buffer = reader.buffer(word(slots, place(14) + 4 * word(view, 8) as usize));
                    &buffer[word(view, 12) as usize..][..length]
                }
            };
            *answer = self.row(number, slots[place(4) + i], slots[place(8) + i], name);
        }
        memory.next_completed_batch().expect("a batch");
        rows
    }
}

/// A court whose strip takes batches of 1,000 rows that are all accepted, with names of so many bytes; three or four of a side are out most
/// of the time.
fn court(bytes: usize) -> (Memory, Batch) {
    let (mut rng, mut out) = (Rng::new(7), [VecDeque::new(), VecDeque::new()]);
    let (mut numbers, mut sides, mut events, mut views) = (Vec::new(), Vec::new(), Vec::new(), Vec::new());
    let names: Vec<u8> = (0..20).flat_map(|name| format!("{name:0bytes$}").into_bytes()).collect();
    for number in 0..ROWS as u64 {
        let side = rng.below(2);
        let out: &mut VecDeque<usize> = &mut out[side];
        let name = (0..).map(|_| rng.below(20)).find(|name| !out.contains(name)).expect("one of twenty names");
        let goes_out = out.is_empty() || out.len() < 7 && rng.below(7) >= out.len();
        match goes_out {
            true => out.push_back(name),
            false => assert!(out.pop_front().is_some()),
        }
        numbers.extend(number.to_le_bytes());
        sides.push(side as u8 + 1);
        events.push(if goes_out { 1 } else { 2 });
        let (at, text) = (bytes * name, &names[bytes * name..][..bytes]);
        views.extend(if bytes <= 12 { inline_view(text).expect("a view") } else { long_view(&names, 0, at, bytes).expect("a view") });
    }
    let set_up = SetUp { rows: 1_024, queue: 4, ..SetUp::new(&Strip::KINDS, ROWS as u32) };
    let mut memory = BatchCoalescer::new(&set_up).expect("a set-up within bounds").memory().clone();
    let list = if bytes > 12 { vec![memory.register_buffer(&names, 40_000).expect("room")] } else { vec![] };
    let values = [numbers, sides, events, views];
    let made = Strip::KINDS.into_iter().zip(values).map(|(kind, values)| Made {
        kind,
        values,
        validity: None,
        list: if kind.is_view() { list.clone() } else { vec![] },
    });
    (memory, batch_of(ROWS, &made.collect::<Vec<_>>()))
}

fn timed<T>(one: impl FnOnce() -> T) -> Duration {
    let started = Instant::now();
    black_box(one());
    started.elapsed()
}

/// The rows of the table: a batch of 1,000 rows read and dropped, by the strip and by the plain loop, each in a memory of its own.
pub fn strips(rounds: usize) {
    for bytes in [8, 20] {
        let (mut ours, batch) = court(bytes);
        let mut theirs = ours.clone();
        let (mut best, mut numbers) = ([Duration::MAX; 2], vec![0; ROWS]);
        for _ in 0..rounds {
            let mut took = [Duration::ZERO; 2];
            for _ in 0..TAKEN {
                for memory in [&mut ours, &mut theirs] {
                    memory.push_batch(batch.records(), batch.body(), batch.rows()).expect("room");
                }
                let (mut strip, mut plain) = (*Strip::new().bytes(), Plain::default());
                took[0] += timed(|| ours.strip_take(&mut strip, &mut numbers).expect("a batch"));
                assert!(numbers.iter().all(|number| *number == 0), "a row was refused");
                took[1] += timed(|| plain.take(&mut theirs, &mut numbers));
                let strip = Strip::from_bytes(&strip).expect("a strip");
                assert!(strip.out(Side::Home).eq(plain.out[0].iter()) && strip.out(Side::Away).eq(plain.out[1].iter()));
            }
            best = [best[0].min(took[0]), best[1].min(took[1])];
        }
        let [port, rust] = best.map(|took| took.as_nanos() as f64 / f64::from(TAKEN));
        println!("| a match, names of {bytes} bytes, taken by the strip | {port:.0} ns | {rust:.0} ns | {:.2} | - | - |", rust / port);
    }
}
