//! Differential runs: histories from a seed through the port and through the Rust text, compared after every call.
//!
//! `differential [PUSHES [SEED]]` runs until so many pushes were accepted; `differential one SEED` replays one history.

use runs::beside::Tally;
use runs::histories::history;

fn main() {
    let arguments: Vec<String> = std::env::args().skip(1).collect();
    let number = |i: usize, other: u64| arguments.get(i).map_or(other, |text| text.parse().expect("a number"));
    let mut tally = Tally::default();
    if arguments.first().is_some_and(|word| word == "one") {
        history(number(1, 0), &mut tally);
        println!("one history: {} pushes, {} comparisons, equal", tally.pushes, tally.checks);
        return;
    }
    let (pushes, first) = (number(0, 100_000), number(1, 1));
    let started = std::time::Instant::now();
    let mut seed = first * 1_000_000_000;
    while tally.pushes < pushes {
        let outcome = std::panic::catch_unwind(std::panic::AssertUnwindSafe(|| history(seed, &mut tally)));
        if outcome.is_err() {
            println!("DIFFERENT in the history of seed {seed}; replay: differential one {seed}");
            std::process::exit(1);
        }
        seed += 1;
    }
    println!("seed {first}: {} histories, {} pushes accepted of {} rows", tally.histories, tally.pushes, tally.rows);
    println!("{} batches cut, {} comparisons of everything, all equal", tally.batches, tally.checks);
    let refused: Vec<String> = (1..15).filter(|n| tally.refused[*n] > 0).map(|n| format!("{n}: {}", tally.refused[n])).collect();
    println!("refused for want of room (memory unchanged), by number: {}", refused.join(", "));
    println!("{:.1} s", started.elapsed().as_secs_f64());
}
