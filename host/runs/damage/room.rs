//! Calls where room is just enough or just not: registering (11, 12), lists (10), the queue (9), and blocks that are closed and opened.

use super::memory::Facts;
use crate::calls::Tally;
use crate::world::World;
use puffwidget::layout::Reader;
use puffwidget::long_view;
use runs::columns::Held;
use runs::model::Call;
use runs::rng::Rng;

const MAX: u32 = u32::MAX;

/// The largest gap of the pool: between one buffer's end and the next one's start, or the pool's end.
fn largest_gap(reader: &Reader, numbers: u32, pool: u32) -> u32 {
    let live = (0..numbers).map(|n| reader.entry(n)).filter(|e| e.capacity > 0 && (e.hold == 1 || e.listings > 0));
    let mut busy: Vec<(usize, usize)> = live.map(|e| (e.start, e.start + e.capacity)).collect();
    busy.sort();
    busy.push((pool as usize, 0));
    let (mut from, mut most) = (0, 0);
    for (start, end) in busy {
        most = most.max(start.saturating_sub(from));
        from = from.max(end);
    }
    most as u32
}

/// Registering the largest gap, and one byte more: 12; without a number 11 first; with a capacity below the length 13 before both.
pub fn register_edges(rng: &mut Rng, world: &World, tally: &mut Tally) {
    let mut world = world.clone();
    let all = world.set_up.numbers;
    let exhaust = rng.one_in(2);
    while exhaust && world.make(&Call::Register(Vec::new(), 0), tally).is_ok() {}
    let reader = Reader::new(&world.memory);
    let gap = largest_gap(&reader, all, world.set_up.pool);
    let free = (0..all).any(|n| reader.entry(n).hold == 0 && reader.entry(n).listings == 0);
    let (name, capacity, number) = match rng.below(4) {
        0 => ("register: the largest gap", gap, 0),
        1 => ("register: one over the largest gap", gap + 1, 12),
        2 => ("register: one over the pool", world.set_up.pool + 1, 12),
        _ => ("register: largest capacity", MAX, 12),
    };
    let number = if free { number } else { 11 };
    let _ = tally.check(&mut world.memory.clone(), &Call::Register(Vec::new(), capacity), Some(number), name);
    let (bytes, below) = (rng.bytes(9), rng.below(9) as u32);
    let _ = tally.check(&mut world.memory.clone(), &Call::Register(bytes, below), Some(13), "register: 13 before 11 and 12");
    push_on(rng, &mut world, "numbers or pool used up", tally);
}

/// A push on a clone, of which only the model knows the number.
fn push_on(rng: &mut Rng, world: &mut World, name: &'static str, tally: &mut Tally) {
    let call = world.push(rng, tally);
    let _ = tally.check(&mut world.memory.clone(), &call, None, name);
}

/// Lists just short enough and just too long, on a queue that is full or not: attached, compacted, or queued whole.
pub fn list_edges(rng: &mut Rng, world: &World, tally: &mut Tally) {
    let mut world = world.clone();
    let fits: Vec<Held> = world.held.iter().filter(|held| held.bytes.len() > 12).cloned().collect();
    let Some(c) = Facts::of(&world.memory).view_column(rng) else { return };
    if fits.is_empty() {
        return;
    }
    let most = world.set_up.rows as usize;
    let full = rng.one_in(2);
    if full {
        fill_queue(rng, &mut world, tally);
    }
    let whole = rng.one_in(2);
    let _ = world.make(&Call::Limit(whole.then(|| rng.below(3) as u32)), tally);
    let lists = world.set_up.lists as usize;
    let count = (lists + 2).saturating_sub(rng.below(4)).max(1);
    let rows = rng.within(1, most);
    let buffer = &fits[rng.below(fits.len())];
    let views = long_view(&buffer.bytes, 0, 0, buffer.bytes.len()).unwrap().repeat(rows);
    let call = world.push_in(rows, c, views, vec![buffer.number; count]);
    let name = if full { "a list's edge, the queue full" } else { "a list's edge" };
    let _ = tally.check(&mut world.memory.clone(), &call, foretold(&world, rows, buffer, count), name);
}

/// What a list about B long and the queue must give: queued whole 9 first, attached 10 first ("the copying, which comes first, names
/// 10"). None where it is compacted.
fn foretold(world: &World, rows: usize, buffer: &Held, count: usize) -> Option<u32> {
    let reader = Reader::new(&world.memory);
    let limit = world.memory.biggest_coalesce_batch_size().map(|limit| limit as usize);
    let too_long = count > world.set_up.lists as usize;
    let whole = limit.is_some_and(|limit| rows > limit && (reader.buffered() == 0 || reader.buffered() > limit));
    let batches = 1 + (reader.buffered() > 0) as usize;
    let attached = count * reader.entry(buffer.number).capacity <= 2 * rows * buffer.bytes.len();
    match whole {
        true if reader.queued() + batches > world.set_up.queue as usize => Some(9),
        true => Some(if too_long { 10 } else { 0 }),
        false => (attached && too_long).then_some(10),
    }
}

/// Finishes rows until the queue is full; a finish then refuses with 9 if rows are buffered.
fn fill_queue(rng: &mut Rng, world: &mut World, tally: &mut Tally) {
    let _ = world.make(&Call::Limit(None), tally);
    let row = world.plain(1);
    while Reader::new(&world.memory).queued() < world.set_up.queue as usize {
        let _ = world.make(&row, tally);
        let _ = world.make(&Call::Finish, tally);
    }
    if rng.one_in(2) && world.set_up.target > 1 {
        let _ = world.make(&row, tally);
    }
    let some = world.memory.get_buffered_rows() > 0;
    let _ = tally.check(&mut world.memory.clone(), &Call::Finish, Some(if some { 9 } else { 0 }), "finish: the queue full");
}

/// Pushes on a full queue: a part that ends at T, or one below it.
pub fn queue_edges(rng: &mut Rng, world: &World, tally: &mut Tally) {
    let mut world = world.clone();
    fill_queue(rng, &mut world, tally);
    let left = (world.set_up.target - world.memory.get_buffered_rows()) as usize;
    let _ = tally.check(&mut world.memory.clone(), &world.plain(left), Some(9), "push: ends at T, the queue full");
    let _ = tally.check(&mut world.memory.clone(), &world.plain(left - 1), Some(0), "push: ends below T, the queue full");
    push_on(rng, &mut world, "push: the queue full", tally);
}

/// A compacted push of about what the open block's rest is, so that it is used to its end or another is opened; the numbers or the pool
/// may be used up before. The list names one buffer so often that actual is over twice ideal.
pub fn block_edges(rng: &mut Rng, world: &World, tally: &mut Tally) {
    let mut world = world.clone();
    let columns = world.set_up.kinds.len();
    let Some((c, block)) = (0..columns).find_map(|c| Reader::new(&world.memory).open_block(c).map(|block| (c, block))) else { return };
    if world.make(&Call::Register(rng.bytes(1_200), 1_200), tally).is_err() {
        return;
    }
    let buffer = world.held.last().expect("registered").clone();
    use_up(rng, &mut world, tally);
    let entry = Reader::new(&world.memory).entry(block);
    let rows = rng.within(1, world.set_up.rows as usize);
    let each = ((entry.capacity - entry.length) / rows).clamp(13, 1_200);
    let lengths: Vec<usize> = (0..rows).map(|_| rng.pick(&[each, each + 1, each - 1, each / 2, 2 * each]).clamp(13, 1_200)).collect();
    let views = lengths.iter().flat_map(|length| long_view(&buffer.bytes, 0, rng.below(1_201 - length), *length).unwrap()).collect();
    let count = 2 * lengths.iter().sum::<usize>() / 1_200 + 1;
    let call = world.push_in(rows, c, views, vec![buffer.number; count]);
    let _ = tally.check(&mut world.memory.clone(), &call, None, "push: about the open block's rest");
}

/// Lengths of 13 to `most` that add up to a sum of 13 or more.
pub fn pieces(rng: &mut Rng, sum: usize, most: usize) -> Vec<usize> {
    let (mut left, mut all) = (sum, Vec::new());
    while left > 0 {
        let piece = if left <= most { left } else { rng.within(most / 2, most).min(left - 13) };
        all.push(piece);
        left -= piece;
    }
    all
}

/// A walk to the open block's last byte, or one byte past it; what is left asks for the size that comes next, or one byte more or less;
/// the pool's largest gap is that size, or one byte less, or as it was.
pub fn walk_edges(rng: &mut Rng, world: &World, tally: &mut Tally) {
    let mut world = world.clone();
    let columns = world.set_up.kinds.len();
    let Some((c, block)) = (0..columns).find_map(|c| Reader::new(&world.memory).open_block(c).map(|block| (c, block))) else { return };
    if world.make(&Call::Register(rng.bytes(3_000), 3_000), tally).is_err() {
        return;
    }
    let buffer = world.held.last().expect("registered").clone();
    let reader = Reader::new(&world.memory);
    let (entry, next) = (reader.entry(block), (2 * reader.kept(c)).min(1 << 20));
    let gap = largest_gap(&reader, world.set_up.numbers, world.set_up.pool) as usize;
    if gap > next && rng.below(3) > 0 {
        let _ = world.make(&Call::Register(Vec::new(), (gap - next + rng.below(2)) as u32), tally);
    }
    let rest = entry.capacity - entry.length + rng.pick(&[0, 0, 1]);
    let asked = next + 1 - rng.below(3);
    let lengths = [pieces(rng, rest.max(13), 3_000), pieces(rng, asked, 3_000)].concat();
    if lengths.len() > world.set_up.rows as usize {
        return;
    }
    let views = lengths.iter().flat_map(|length| long_view(&buffer.bytes, 0, rng.below(3_001 - length), *length).unwrap()).collect();
    let count = 2 * lengths.iter().sum::<usize>() / 3_000 + 1;
    let call = world.push_in(lengths.len(), c, views, vec![buffer.number; count]);
    let _ = tally.check(&mut world.memory.clone(), &call, None, "push: a walk to the open block's end");
}

/// Registers until no number is free, or until the pool's largest gap is below any block.
fn use_up(rng: &mut Rng, world: &mut World, tally: &mut Tally) {
    match rng.below(3) {
        0 => while world.make(&Call::Register(Vec::new(), 0), tally).is_ok() {},
        1 => {
            let gap = largest_gap(&Reader::new(&world.memory), world.set_up.numbers, world.set_up.pool);
            let _ = world.make(&Call::Register(Vec::new(), gap), tally);
        }
        _ => {}
    }
}
