//! Histories from a seed: set-ups, buffers, batches and calls, over everything at which the rules turn.

use crate::beside::{Beside, Tally};
use crate::columns::{Made, edge, edge_sum, primitive, views};
use crate::rng::Rng;
use puffwidget::layout::Reader;
use puffwidget::{Kind, SetUp};

/// A set-up within bounds: small targets, so that there are many parts.
fn set_up(rng: &mut Rng, large: bool) -> SetUp {
    let columns = rng.pick(&[0, 1, 1, 2, 2, 3, 4, 5, 8, 16]);
    let kind = |rng: &mut Rng| {
        if rng.one_in(2) { rng.pick(&[Kind::Utf8View, Kind::BinaryView]) } else { Kind::of(rng.within(1, 17) as u32).unwrap() }
    };
    let target = rng.pick(&[1, 1, 2, 3, 4, 5, 8, 16, 64]);
    SetUp {
        kinds: (0..columns).map(|_| kind(rng)).collect(),
        target,
        rows: target + rng.below(48) as u32,
        queue: rng.within(1, 40) as u32,
        lists: rng.pick(&[1, 2, 4, 8, 24, 24]),
        numbers: rng.pick(&[2, 8, 32, 64, 64]),
        pool: if large { 16 << 20 } else { rng.pick(&[20_000, 100_000, 300_000, 1_000_000]) },
    }
}

/// A batch to push: columns of every sort, their edge buffers registered first.
fn batch(rng: &mut Rng, run: &mut Beside, large: bool, tally: &mut Tally) -> (usize, Vec<Made>) {
    let most = run.set_up.rows as usize;
    let rows = match rng.below(8) {
        0 => 0,
        1 => most,
        2 => (run.set_up.target as usize - run.memory.get_buffered_rows() as usize).min(most),
        _ => rng.within(1, most),
    };
    let kinds = run.set_up.kinds.clone();
    let mut made = Vec::new();
    for (c, kind) in kinds.into_iter().enumerate() {
        made.push(match kind.is_view() {
            false => primitive(rng, kind, rows),
            true if rng.one_in(2) || rows == 0 => views(rng, kind, rows, &run.held),
            true => edge_column(rng, run, kind, c, rows, large, tally),
        });
    }
    (rows, made)
}

/// A column at an edge; where its buffer finds no room, one over the buffers that are held.
fn edge_column(rng: &mut Rng, run: &mut Beside, kind: Kind, c: usize, rows: usize, large: bool, tally: &mut Tally) -> Made {
    let sum = match large && rng.one_in(2) {
        true => rng.within(1_048_570, 1_048_590) + rng.pick(&[0, 0, 900_000]),
        false => edge_sum(rng, &Reader::new(&run.memory), c),
    };
    let (mut column, wanted) = edge(rng, kind, rows, sum);
    match run.register(wanted.bytes, wanted.capacity, tally) {
        Some(number) => {
            column.list = vec![number];
            column
        }
        None => views(rng, kind, rows, &run.held),
    }
}

/// One call, chosen by the seed.
fn call(rng: &mut Rng, run: &mut Beside, large: bool, tally: &mut Tally) {
    match rng.below(20) {
        0..=3 => {
            let length = rng.pick(&[0, 12, 13, 50, 300, 1_000]) + rng.below(20);
            let capacity = length + rng.pick(&[0, 0, 1, 30, 5_000]);
            run.register(rng.bytes(length), capacity, tally);
        }
        4 | 5 if !run.held.is_empty() => run.let_go(rng.below(run.held.len())),
        6 => run.finish(tally),
        7 => run.limit((!rng.one_in(3)).then(|| rng.below(20) as u32)),
        8..=10 => run.take(),
        _ => {
            if rng.one_in(2) {
                while run.memory.has_completed_batch() {
                    run.take();
                }
            }
            let (rows, made) = batch(rng, run, large, tally);
            run.push(rows, &made, tally);
        }
    }
}

/// A history from its seed, compared after every call.
pub fn history(seed: u64, tally: &mut Tally) -> Beside {
    let mut rng = Rng::new(seed);
    let large = rng.one_in(200);
    let mut run = Beside::new(set_up(&mut rng, large));
    for _ in 0..rng.within(6, 20) {
        call(&mut rng, &mut run, large, tally);
        run.check(tally);
    }
    while run.memory.has_completed_batch() {
        run.take();
        run.check(tally);
    }
    run.finish(tally);
    run.check(tally);
    tally.histories += 1;
    run
}
