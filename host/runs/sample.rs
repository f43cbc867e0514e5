//! Writes the list that the program `replay` is held to: histories from a seed in which nothing was refused, as a capture, and what must
//! be printed for it, from what the Rust text answered (`trace`).
//!
//! `sample HISTORIES SEED CAPTURE ANSWERS`. Histories over small memories are taken, so that the list is short and the program small; two of three
//! have opened a block.

use puffwidget::Memory;
use puffwidget::layout::Reader;
use runs::beside::Tally;
use runs::histories::history;

fn main() {
    let arguments: Vec<String> = std::env::args().skip(1).collect();
    let [wanted, seed, capture, answers] = &arguments[..] else {
        panic!("sample HISTORIES SEED CAPTURE ANSWERS");
    };
    let wanted: usize = wanted.parse().expect("a number of histories");
    let mut seed = seed.parse::<u64>().expect("a seed") * 1_000_000_000;
    let (mut calls, mut said, mut found) = (Vec::new(), String::new(), 0);
    let mut all = Tally::default();
    while found < wanted {
        let mut tally = Tally::default();
        let run = history(seed, &mut tally);
        seed += 1;
        let small = run.memory.slots.len() <= 65_536 && run.memory.pool.len() <= 300_000 && run.memory.books.len() <= 65_536;
        let short = run.trace.said.len() <= 4_000 && run.trace.calls.len() <= 12_000;
        let refused = tally.refused.iter().sum::<u64>() > 0;
        if refused || !small || !short || tally.pushes < 3 || (found % 3 > 0 && !compacted(&run.memory)) {
            continue;
        }
        calls.extend_from_slice(&run.trace.calls);
        said.push_str(&run.trace.said);
        found += 1;
        all.pushes += tally.pushes;
        all.rows += tally.rows;
        all.batches += tally.batches;
    }
    std::fs::write(capture, &calls).expect("the capture can be written");
    std::fs::write(answers, &said).expect("the answers can be written");
    println!(
        "{found} histories, {} pushes of {} rows, {} batches: {} bytes of calls, {} of answers",
        all.pushes,
        all.rows,
        all.batches,
        calls.len(),
        said.len()
    );
}

/// A block was opened in some column: its kept size is not the first.
fn compacted(memory: &Memory) -> bool {
    let reader = Reader::new(memory);
    (0..reader.kinds().len()).any(|c| reader.kept(c) > 4_096)
}
