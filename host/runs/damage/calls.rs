//! Calls that are wrong by their arguments: set-up on both sides of each bound (1), and 13 in all its forms.

use super::memory::Facts;
use crate::calls::Tally;
use crate::world::{World, kinds_of, wanted_of};
use puffwidget::layout::{Reader, SetUpSizes};
use puffwidget::{Kind, Memory, SetUp};
use runs::model::{Call, Lengths, new_state};
use runs::rng::Rng;
use std::ops::RangeInclusive;

const MAX: u32 = u32::MAX;

/// Set-up with one number below, at or above a bound, in memory of the lengths that its numbers ask for. Large memory is rare.
pub fn set_up_bound(rng: &mut Rng, tally: &mut Tally) {
    let kind = |rng: &mut Rng| rng.pick(&[Kind::UInt8, Kind::Int16, Kind::Utf8View]);
    let kinds: Vec<Kind> = (0..rng.below(3)).map(|_| kind(rng)).collect();
    let mut s = SetUp { kinds, target: 3, rows: 5, queue: 2, lists: 2, numbers: 4, pool: 100 };
    let large = rng.one_in(6);
    let (name, number) = match rng.below(11) {
        0 | 1 => ("set-up: T", bound(rng, &mut s.target, &[0, 1, 5, 6, MAX], 1..=5)),
        2 if large => ("set-up: R, large", bound(rng, &mut s.rows, &[65_536, 65_537], 3..=65_536)),
        2 => ("set-up: R", bound(rng, &mut s.rows, &[0, 2, 3], 3..=65_536)),
        3 if large => ("set-up: T and R, large", both_rows(rng, &mut s)),
        3 | 4 => ("set-up: Q", bound(rng, &mut s.queue, &[0, 1, 1_024, 1_025], 1..=1_024)),
        5 => ("set-up: B", bound(rng, &mut s.lists, &[0, 1, 1_024, 1_025], 1..=1_024)),
        6 if large => ("set-up: N, large", bound(rng, &mut s.numbers, &[65_536, 65_537], 1..=65_536)),
        6 => ("set-up: N", bound(rng, &mut s.numbers, &[0, 1], 1..=65_536)),
        7 => ("set-up: pool", bound(rng, &mut s.pool, &[0, 1, 5_000], 0..=MAX)),
        n => return columns(rng, &s, n, tally),
    };
    let sizes = SetUpSizes::of(&s).expect("sizes");
    let mut memory = Memory::of(sizes.slots, sizes.pool, sizes.books).unwrap();
    let _ = tally.check(&mut memory, &Call::SetUp(kinds_of(&s), wanted_of(&s)), Some(number), name);
}

/// One of these values; 1 where it lies outside the bounds.
fn bound(rng: &mut Rng, value: &mut u32, values: &[u32], inside: RangeInclusive<u32>) -> u32 {
    *value = rng.pick(values);
    !inside.contains(value) as u32
}

/// T and R at 65,536, or one above.
fn both_rows(rng: &mut Rng, s: &mut SetUp) -> u32 {
    let more = rng.below(2) as u32;
    (s.target, s.rows, s.queue) = (65_536 + more, 65_536 + more, 1);
    more
}

/// 16 columns and 17; a kind outside the table; kinds that are no whole words; memories one byte short or long.
fn columns(rng: &mut Rng, s: &SetUp, n: usize, tally: &mut Tally) {
    let mut s = s.clone();
    if n == 8 {
        s.kinds = vec![Kind::UInt8; rng.within(15, 17)];
    }
    let sizes = SetUpSizes::of(&s).expect("sizes");
    let mut memory = Memory::of(sizes.slots, sizes.pool, sizes.books).unwrap();
    let mut kinds = kinds_of(&s);
    let (name, number) = match n {
        8 => ("set-up: columns", (s.kinds.len() > 16) as u32),
        9 if !kinds.is_empty() && rng.one_in(2) => {
            let at = 4 * rng.below(kinds.len() / 4);
            kinds[at..at + 4].copy_from_slice(&rng.pick(&[0, 20, 256, MAX]).to_le_bytes());
            ("set-up: kind", 1)
        }
        9 => {
            kinds.extend_from_slice(&[1, 0, 0][..rng.within(1, 3)]);
            ("set-up: kinds of no whole words", 1)
        }
        _ => {
            let which = rng.below(3); // the pool's size is its length
            let bytes = [&mut memory.state, &mut memory.slots, &mut memory.books].into_iter().nth(which).expect("three");
            if bytes.is_empty() || rng.one_in(2) {
                bytes.push(0)
            } else {
                bytes.truncate(bytes.len() - 1)
            }
            ("set-up: memory one byte short or long", 1)
        }
    };
    let _ = tally.check(&mut memory, &Call::SetUp(kinds, wanted_of(&s)), Some(number), name);
}

/// A pool of 4,294,967,295 bytes is set up; one of a byte more is not. Nothing reads, writes or copies the pool, so that its zeros take no
/// room.
pub fn largest_pool(tally: &mut Tally) {
    for (pool, wanted) in [(1usize << 32, 1), ((1 << 32) - 1, 0)] {
        let mut memory = Memory::of(0, pool, 4 + 20 + 4 * 2).unwrap();
        let model = new_state(Lengths::of(&memory), &[], [1; 5]);
        let got = memory.set_up(&[], 1, 1, 1, 1, 1).err().unwrap_or(0);
        let state = model.as_ref().map_or(vec![0; 304], |state| state.coded());
        assert!(memory.state == state && memory.books == [0; 32], "what set-up leaves");
        let refused = model.err();
        assert_eq!((refused.map_or(0, |refused| refused.number), got), (wanted, wanted), "a pool of {pool} bytes");
        tally.count(&Call::SetUp(Vec::new(), [1; 5]), refused, Some(wanted), "set-up: largest pool");
    }
}

/// 13 in all its forms.
pub fn not_there(rng: &mut Rng, world: &World, tally: &mut Tally) {
    let mut memory = world.memory.clone();
    let facts = Facts::of(&world.memory);
    let (columns, all, used) = (facts.kinds.len() as u32, facts.state(5), facts.used());
    let reader = Reader::new(&world.memory);
    let rows = if reader.queued() == 0 { 0 } else { reader.rows_in(reader.queued_slot(0)) as u32 };
    let not_held: Vec<u32> = (0..all).filter(|n| *n >= used || reader.entry(*n).hold == 0).collect();
    let not_live: Vec<u32> = not_held.iter().copied().filter(|n| *n >= used || reader.entry(*n).listings == 0).collect();
    let outside = rng.pick(&[all, all + 1, 1 << 31, MAX]);
    let some = |rng: &mut Rng, from: &[u32]| if from.is_empty() { outside } else { rng.pick(from) };
    let any = rng.below(20) as u32;
    let (name, call) = match rng.below(8) {
        0 => ("row: column not there", Call::ReadRow(rng.pick(&[columns, columns + 1, 16, MAX]).max(columns), any)),
        1 => ("row: row not there", Call::ReadRow(rng.below(facts.kinds.len()) as u32, rng.pick(&[rows, rows + 1, MAX]))),
        2 => ("buffer: not below N", Call::ReadBuffer(outside)),
        3 => ("buffer: not live", Call::ReadBuffer(some(rng, &not_live))),
        4 => ("let go: not below N", Call::LetGo(outside)),
        5 => ("let go: not held", Call::LetGo(some(rng, &not_held))),
        6 => ("let go: not live", Call::LetGo(some(rng, &not_live))),
        _ => {
            let length = rng.within(1, 30);
            ("register: capacity below length", Call::Register(rng.bytes(length), rng.pick(&[0, length as u32 - 1])))
        }
    };
    let _ = tally.check(&mut memory, &call, Some(13), name);
}

/// A row of the front batch made valid and its view long, its index at its list's length: 13, "outside its list"; one below it is read.
pub fn outside_list(rng: &mut Rng, world: &World, tally: &mut Tally) {
    let (facts, reader) = (Facts::of(&world.memory), Reader::new(&world.memory));
    let Some(c) = facts.view_column(rng) else { return };
    if reader.queued() == 0 {
        return;
    }
    let (slot, row) = (reader.queued_slot(0), rng.below(reader.rows_in(reader.queued_slot(0))));
    let (rows, list) = (facts.state(1) as usize, facts.list_at(slot as u32, c));
    let bits = list - rows.div_ceil(8);
    let view = bits - 16 * rows + 16 * row;
    let listed = reader.list(slot, c).len() as u32;
    let index = rng.pick(&[listed, listed.wrapping_sub(1), MAX]);
    let mut memory = world.memory.clone();
    memory.slots[bits + row / 8] |= 1 << (row % 8);
    memory.slots[view..view + 4].copy_from_slice(&rng.pick(&[13, MAX]).to_le_bytes());
    memory.slots[view + 8..view + 12].copy_from_slice(&index.to_le_bytes());
    let number = if index < listed { 0 } else { 13 };
    let _ = tally.check(&mut memory, &Call::ReadRow(c as u32, row as u32), Some(number), "row: view outside its list");
}
