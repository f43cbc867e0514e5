//! The strip beside a plain queue: rows of a match from a seed, a quarter of them at fault, through coalescer and strip, compared batch by batch
//! with the model of change request K6; each history a second time with other cuts, target, limit and finishes; and calls on damaged strips.
//!
//! `strip [ROWS [SEED]]` runs until so many rows were compared, 200,000 where nothing is said; `strip one SEED` replays one history.

mod strips;

use runs::rng::Rng;
use runs::strip_model::{Row, Strip as Model};
use strips::court::Court;
use strips::rows::Maker;
use strips::tally::Tally;

/// Counts what the rows are, by the model alone, and what it then holds.
fn counted(rows: &[Row], tally: &mut Tally) -> Model {
    let mut model = Model::default();
    for row in rows {
        let number = model.take(row);
        tally.count("rows by number", format!("{number:2}"));
        if let (0, Some(event), Some(name)) = (number, row.event, &row.name) {
            tally.count("accepted", if event == 1 { "outs" } else { "revives" });
            let length = match name.len() {
                length @ (1 | 12 | 13 | 64) => length.to_string(),
                2..=11 => "2 to 11".to_string(),
                _ => "14 to 63".to_string(),
            };
            tally.count("accepted names by bytes", length);
        }
        if number == 0 && model.out.iter().any(|out| out.len() == 7) {
            tally.count("accepted", "with seven out");
        }
        match row.number {
            Some(0) if number == 0 => tally.count("accepted numbers", "0"),
            Some(u64::MAX) if number == 0 => tally.count("accepted numbers", u64::MAX),
            Some(n) if number == 0 && n >> 32 > 0 => tally.count("accepted numbers", "over 32 bits"),
            _ => {}
        }
    }
    model
}

/// A history from its seed, in two ways of cutting, and calls on damaged strips.
fn history(seed: u64, tally: &mut Tally) {
    let mut rng = Rng::new(seed);
    let count = rng.within(20, 300);
    let rows = Maker::behind(&mut rng, Model::default()).rows(&mut rng, count, tally);
    let model = counted(&rows, tally);
    let [one, two] = [0, 1].map(|_| {
        let court = Court::new(&mut rng, tally);
        court.play(&mut rng, &rows, tally)
    });
    assert!(one.bytes() == two.bytes(), "other cuts, another strip");
    strips::damage::calls(&mut rng, &one, model, tally);
    tally.rows += rows.len() as u64;
    tally.histories += 1;
}

/// Every number came, and every way.
fn assert_all_came(tally: &Tally) {
    for number in [0, 31, 32, 33, 34, 35] {
        assert!(tally.of("rows by number", format!("{number:2}")) > 0, "no row was answered {number}");
    }
    assert!(tally.of("accepted", "with seven out") > 0, "no side reached seven");
    for name in ["long names, attached", "long names, compacted", "short names"] {
        assert!(tally.of("pushes", name) > 0, "no push of {name}");
    }
}

fn main() {
    let arguments: Vec<String> = std::env::args().skip(1).collect();
    let number = |i: usize, other: u64| arguments.get(i).map_or(other, |text| text.parse().expect("a number"));
    let mut tally = Tally::default();
    if arguments.first().is_some_and(|word| word == "one") {
        history(number(1, 0), &mut tally);
        println!("one history: {} rows, {} batches, all as the queue says", tally.rows, tally.batches);
        return;
    }
    let (rows, first) = (number(0, 200_000), number(1, 1));
    let started = std::time::Instant::now();
    let mut seed = first * 1_000_000_000;
    while tally.rows < rows {
        let outcome = std::panic::catch_unwind(std::panic::AssertUnwindSafe(|| history(seed, &mut tally)));
        if outcome.is_err() {
            println!("DIFFERENT in the history of seed {seed}; replay: strip one {seed}");
            std::process::exit(1);
        }
        seed += 1;
    }
    println!(
        "seed {first}: {} histories of {} rows, each cut in two ways, {} batches compared",
        tally.histories, tally.rows, tally.batches
    );
    println!("every row's number, every name, the last number and all 972 bytes are as the queue says");
    tally.print();
    assert_all_came(&tally);
    println!("{:.1} s", started.elapsed().as_secs_f64());
}
