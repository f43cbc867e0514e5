//! Walks: worlds of their own in which blocks have room, so that pushes which fill a block to its end and open the next one are accepted, at
//! every size at which a block's size turns.

use super::room::pieces;
use crate::calls::Tally;
use crate::world::World;
use puffwidget::layout::Reader;
use puffwidget::{Kind, SetUp, inline_view, long_view};
use runs::columns::Held;
use runs::model::Call;
use runs::rng::Rng;

/// Columns of views, with room for blocks.
fn roomy(rng: &mut Rng, large: bool) -> SetUp {
    let target = rng.pick(&[3, 8, 24, 48]);
    SetUp {
        kinds: vec![rng.pick(&[Kind::Utf8View, Kind::BinaryView]); rng.within(1, 2)],
        target,
        rows: target + 40,
        queue: 24,
        lists: rng.pick(&[4, 8, 16]),
        numbers: 24,
        pool: if large { 6_000_000 } else { 300_000 },
    }
}

/// A few pushes to one column; batches are dropped now and then. One in forty begins with a kept size near the largest.
pub fn walks(rng: &mut Rng, tally: &mut Tally) {
    let large = rng.one_in(40);
    let mut world = World::of(roomy(rng, large), rng, tally);
    let c = rng.below(world.set_up.kinds.len());
    if large {
        let kept = rng.pick(&[262_144u32, 524_288, 1_048_576]);
        world.memory.state[4 * (13 + 4 * c)..][..4].copy_from_slice(&kept.to_le_bytes());
    }
    let length = if large { 60_000 } else { 6_000 };
    let _ = world.make(&Call::Register(rng.bytes(length), length as u32), tally);
    let buffer = world.held[0].clone();
    for _ in 0..rng.within(2, 5) {
        let call = walk(rng, &world, c, &buffer);
        let _ = world.make(&call, tally);
        while world.memory.has_completed_batch() && rng.below(3) > 0 {
            let _ = world.make(&Call::Drop, tally);
        }
    }
    let _ = world.make(&Call::Finish, tally);
}

/// A push of about what the open block's rest is, and then of about what the next size is, or twice that; inline rows between. Its list has
/// the buffer so often that it is compacted, or now and then once.
fn walk(rng: &mut Rng, world: &World, c: usize, buffer: &Held) -> Call {
    let reader = Reader::new(&world.memory);
    let (most, next) = (buffer.bytes.len(), (2 * reader.kept(c)).min(1 << 20));
    let mut lengths = Vec::new();
    if let Some(block) = reader.open_block(c) {
        let rest = reader.entry(block).capacity - reader.entry(block).length;
        let about = (rest + 1).saturating_sub(rng.below(14)).max(13);
        lengths.extend(pieces(rng, about, most));
        lengths.extend((0..rng.below(3)).map(|_| rng.below(13)));
    }
    if lengths.is_empty() || rng.below(4) > 0 {
        let asked = rng.pick(&[14, next / 2, next, 2 * next]) - 1 + rng.below(3);
        lengths.extend(pieces(rng, asked, most));
    }
    lengths.extend((0..rng.below(3)).map(|_| rng.below(13)));
    lengths.truncate(world.set_up.rows as usize);
    let view = |length: usize, rng: &mut Rng| match length {
        0..=12 => inline_view(&buffer.bytes[..length]).unwrap(),
        _ => long_view(&buffer.bytes, 0, rng.below(most + 1 - length), length).unwrap(),
    };
    let views = lengths.iter().flat_map(|length| view(*length, rng)).collect();
    let count = if rng.one_in(6) { 1 } else { 2 * lengths.iter().sum::<usize>() / most + 1 };
    world.push_in(lengths.len(), c, views, vec![buffer.number; count])
}
