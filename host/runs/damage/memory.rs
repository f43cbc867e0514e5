//! Damages of lent memory: lengths and bounds (1), ranges (14), words at the edge of their range, and random words.

use super::{Bytes, Change, Damage};
use puffwidget::layout::word;
use puffwidget::{Kind, Memory};
use runs::rng::Rng;

/// What the damages need to know of memory that is not damaged yet.
pub struct Facts<'a> {
    memory: &'a Memory,
    pub kinds: Vec<Kind>,
}

impl<'a> Facts<'a> {
    pub fn of(memory: &'a Memory) -> Facts<'a> {
        let at = |i: usize| word(&memory.state, 4 * i);
        let kinds = (0..at(3)).map(|c| Kind::of(at(12 + 4 * c as usize)).expect("a kind")).collect();
        Facts { memory, kinds }
    }

    /// A word of the state.
    pub fn state(&self, i: usize) -> u32 {
        word(&self.memory.state, 4 * i)
    }

    /// A word of the books.
    pub fn books(&self, at: usize) -> u32 {
        word(&self.memory.books, at)
    }

    pub fn used(&self) -> u32 {
        self.books(0)
    }

    /// Where the counts of a slot stand in the books.
    fn counts_at(&self, slot: u32) -> usize {
        4 + 20 * self.state(5) as usize + 4 * (1 + self.kinds.len()) * slot as usize
    }

    /// Where the list of a column stands in the slots.
    pub fn list_at(&self, slot: u32, c: usize) -> usize {
        let (rows, lists) = (self.state(1) as usize, self.state(4) as usize);
        let own = |kind: &Kind| rows * kind.width() + rows.div_ceil(8);
        let size = |kind: &Kind| own(kind) + if kind.is_view() { 4 * lists } else { 0 };
        let slot_size: usize = self.kinds.iter().map(size).sum();
        slot as usize * slot_size + self.kinds[..c].iter().map(size).sum::<usize>() + own(&self.kinds[c])
    }

    /// A column of views, if any.
    pub fn view_column(&self, rng: &mut Rng) -> Option<usize> {
        let views: Vec<usize> = (0..self.kinds.len()).filter(|c| self.kinds[*c].is_view()).collect();
        if views.is_empty() { None } else { Some(rng.pick(&views)) }
    }
}

const MAX: u32 = u32::MAX;

fn state(i: usize, value: u32) -> Change {
    Change::Word(Bytes::State, 4 * i, value)
}

fn books(at: usize, value: u32) -> Change {
    Change::Word(Bytes::Books, at, value)
}

/// A damage of memory, chosen by the seed.
pub fn damage(rng: &mut Rng, memory: &Memory) -> Option<Damage> {
    let facts = Facts::of(memory);
    match rng.below(12) {
        0 | 1 => length(rng, memory),
        2 | 3 => bound(rng, &facts),
        4 => coding(rng, &facts),
        5 => range(rng, &facts),
        6 => view_range(rng, &facts),
        7 => entry(rng, &facts),
        8 => counts(rng, &facts),
        9 => listed(rng, &facts),
        10 => edge(rng, &facts),
        _ => Some(random(rng, memory)),
    }
}

/// 1: "lent memory not of the set-up lengths", one byte short or long.
fn length(rng: &mut Rng, memory: &Memory) -> Option<Damage> {
    let (bytes, empty) = rng.pick(&[
        (Bytes::State, false),
        (Bytes::Slots, memory.slots.is_empty()),
        (Bytes::Pool, memory.pool.is_empty()),
        (Bytes::Books, false),
    ]);
    let long = rng.one_in(2);
    let name = match (bytes, long) {
        (Bytes::State, false) => "state one byte short",
        (Bytes::State, true) => "state one byte long",
        (Bytes::Slots, false) => "slots one byte short",
        (Bytes::Slots, true) => "slots one byte long",
        (Bytes::Pool, false) => "pool one byte short",
        (Bytes::Pool, true) => "pool one byte long",
        (_, false) => "books one byte short",
        (_, true) => "books one byte long",
    };
    let change = if long { Change::Long(bytes) } else { Change::Short(bytes) };
    (long || !empty).then(|| Damage::of(name, change, Some(1)))
}

/// 1: a word that set-up fixes outside its bounds, or one off, so that lengths are not its.
fn bound(rng: &mut Rng, facts: &Facts) -> Option<Damage> {
    let at = |i: usize| facts.state(i);
    let columns = facts.kinds.len();
    let (name, i, values) = match rng.below(8) {
        0 => ("state: T", 0, vec![0, 65_537, at(1) + 1, MAX]),
        1 if columns > 0 => ("state: R", 1, vec![0, at(0) - 1, 65_537, at(1) + 1, at(1) - 1, MAX]),
        1 => ("state: R, no columns", 1, vec![0, at(0) - 1, 65_537, MAX]),
        2 => ("state: Q", 2, vec![0, 1_025, at(2) + 1, at(2) - 1, MAX]),
        3 => ("state: columns", 3, vec![17, at(3) + 1, at(3).wrapping_sub(1), MAX]),
        4 if facts.view_column(rng).is_some() => ("state: B", 4, vec![0, 1_025, at(4) + 1, at(4) - 1, MAX]),
        4 => ("state: B, no views", 4, vec![0, 1_025, MAX]),
        5 => ("state: N", 5, vec![0, 65_537, at(5) + 1, at(5) - 1, MAX]),
        6 => ("state: P", 6, vec![at(6) + 1, at(6).wrapping_sub(1), MAX]),
        _ if columns == 0 => return None,
        _ => ("state: kind", 12 + 4 * rng.below(columns), vec![0, 20, MAX]),
    };
    Some(Damage::of(name, state(i, rng.pick(&values)), Some(1)))
}

/// 14: "bytes that code no state".
fn coding(rng: &mut Rng, facts: &Facts) -> Option<Damage> {
    let c = rng.below(16);
    let (name, flag) = if rng.one_in(2) { ("state: limit set", 7) } else { ("state: open", 14 + 4 * c) };
    let (set, beside) = (facts.state(flag), facts.state(flag + 1));
    match rng.below(3) {
        0 => Some(Damage::of(name, state(flag, rng.pick(&[2, 256, MAX])), Some(14))),
        1 if set == 1 && beside != 0 => Some(Damage::of("state: flag 0 beside a word", state(flag, 0), Some(14))),
        1 => None,
        _ if set == 0 => Some(Damage::of("state: word beside a flag of 0", state(flag + 1, rng.pick(&[1, MAX])), Some(14))),
        _ => None,
    }
}

/// 14: "buffered not below T, queued over Q, .. a slot's place over Q".
fn range(rng: &mut Rng, facts: &Facts) -> Option<Damage> {
    let at = |i: usize| facts.state(i);
    let (name, i, value) = match rng.below(5) {
        0 => ("state: place", 9, at(2) + 1),
        1 => ("state: queued", 10, at(2) + 1),
        2 => ("state: buffered", 11, at(0)),
        3 if at(11) > 0 => ("state: T at buffered", 0, at(11)),
        3 => return None,
        _ => ("state: place, queued or buffered, largest", rng.within(9, 11), MAX),
    };
    Some(Damage::of(name, state(i, value), Some(14)))
}

/// 14: "a view column's kept block size", an open block that is not in use, or that its list has no place for.
fn view_range(rng: &mut Rng, facts: &Facts) -> Option<Damage> {
    let c = facts.view_column(rng)?;
    let open = facts.state(14 + 4 * c) == 1;
    let damage = |name, change| Some(Damage::of(name, change, Some(14)));
    match rng.below(5) {
        0 => damage("state: kept size", state(13 + 4 * c, rng.pick(&[0, 1, 4_095, 1_048_577, MAX]))),
        1 if open => damage("state: open block's number", state(15 + 4 * c, rng.pick(&[facts.used(), facts.state(5), MAX]))),
        2 if open => shared(rng, facts, c),
        _ if open => Some(full_list(facts, c)),
        _ => {
            let changes = vec![state(14 + 4 * c, 1), state(15 + 4 * c, rng.pick(&[facts.used(), MAX]))];
            Some(Damage::at("state: opened, not in use", changes, Some(14), 0, 0))
        }
    }
}

/// 14: another column of views has the open block of column c.
fn shared(rng: &mut Rng, facts: &Facts, c: usize) -> Option<Damage> {
    let other = facts.view_column(rng).filter(|d| *d != c)?;
    let changes = vec![state(14 + 4 * other, 1), state(15 + 4 * other, facts.state(15 + 4 * c))];
    Some(Damage::at("state: an open block of two columns", changes, Some(14), 0, 0))
}

/// 14: the list of the slot being filled has B numbers, each of them below N, so that the open block has no place in it.
fn full_list(facts: &Facts, c: usize) -> Damage {
    let (slot, lists) = (facts.state(9), facts.state(4));
    let list = facts.list_at(slot, c);
    let mut changes = vec![books(facts.counts_at(slot) + 4 + 4 * c, lists)];
    changes.extend((0..lists as usize).map(|i| Change::Word(Bytes::Slots, list + 4 * i, 0)));
    Damage::at("books: no place for the open block", changes, Some(14), 0, 0)
}

/// 14: `used`, and an entry in use: "a buffer past the pool or longer than its capacity", a hold that is neither 0 nor 1.
fn entry(rng: &mut Rng, facts: &Facts) -> Option<Damage> {
    let damage = |name, at, value| Some(Damage::of(name, books(at, value), Some(14)));
    if rng.one_in(6) {
        return damage("books: used over N", 0, rng.pick(&[facts.state(5) + 1, MAX]));
    }
    if facts.used() == 0 {
        return None;
    }
    let at = 4 + 20 * rng.below(facts.used() as usize);
    let (start, capacity, pool) = (facts.books(at), facts.books(at + 4), facts.state(6));
    match rng.below(4) {
        0 => damage("books: start", at, rng.pick(&[pool + 1 - capacity, MAX])),
        1 => damage("books: capacity", at + 4, rng.pick(&[pool + 1 - start, MAX])),
        2 => damage("books: length", at + 8, rng.pick(&[capacity + 1, MAX])),
        _ => damage("books: hold", at + 12, rng.pick(&[2, 256, MAX])),
    }
}

/// 14: "its rows over R, a list over B", of every slot, and a list of a column that is not of views.
fn counts(rng: &mut Rng, facts: &Facts) -> Option<Damage> {
    let at = facts.counts_at(rng.below(facts.state(2) as usize + 1) as u32);
    let damage = |name, at, value| Some(Damage::of(name, books(at, value), Some(14)));
    if facts.kinds.is_empty() || rng.one_in(3) {
        return damage("books: rows of a slot", at, rng.pick(&[facts.state(1) + 1, MAX]));
    }
    let c = rng.below(facts.kinds.len());
    match facts.kinds[c].is_view() {
        true => damage("books: list length", at + 4 + 4 * c, rng.pick(&[facts.state(4) + 1, MAX])),
        false => damage("books: list of another kind", at + 4 + 4 * c, rng.pick(&[1, MAX])),
    }
}

/// 14: "a listed number not below N", in a slot that has a list.
fn listed(rng: &mut Rng, facts: &Facts) -> Option<Damage> {
    let c = facts.view_column(rng)?;
    let count = |slot: u32| facts.books(facts.counts_at(slot) + 4 + 4 * c) as usize;
    let slots: Vec<u32> = (0..=facts.state(2)).filter(|slot| count(*slot) > 0).collect();
    if slots.is_empty() {
        return None;
    }
    let slot = rng.pick(&slots);
    let at = facts.list_at(slot, c) + 4 * rng.below(count(slot));
    Some(Damage::of("slots: listed number", Change::Word(Bytes::Slots, at, rng.pick(&[facts.state(5), MAX])), Some(14)))
}

/// Words at the last value of their range, which 14 lets pass, and words that it does not look at.
fn edge(rng: &mut Rng, facts: &Facts) -> Option<Damage> {
    let at = |i: usize| facts.state(i);
    let (c, slot) = (rng.below(16), rng.below(at(2) as usize + 1) as u32);
    let counts = facts.counts_at(slot);
    let entry = 4 + 20 * rng.below(at(5) as usize);
    let changes = match rng.below(12) {
        0 => vec![state(9, rng.below(at(2) as usize + 1) as u32)],
        1 => vec![state(10, rng.below(at(2) as usize + 1) as u32)],
        2 => vec![state(11, rng.below(at(0) as usize) as u32)],
        3 => vec![state(13 + 4 * c, rng.pick(&[0, 4_096, 5_000, 600_000, 1_048_575, 1_048_576]))],
        4 => vec![state(14 + 4 * c, 1), state(15 + 4 * c, rng.below(at(5) as usize) as u32)],
        5 => vec![state(12 + 4 * c, rng.within(1, 19) as u32)],
        6 => vec![books(0, rng.below(at(5) as usize + 1) as u32)],
        7 => vec![books(counts, rng.below(at(1) as usize + 1) as u32)],
        8 if !facts.kinds.is_empty() => vec![books(counts + 4 + 4 * (c % facts.kinds.len()), rng.below(at(4) as usize + 1) as u32)],
        9 => vec![books(entry + 12, rng.below(2) as u32), books(entry + 16, rng.pick(&[0, 1, MAX]))],
        10 => vec![books(entry, at(6).saturating_sub(facts.books(entry + 4)))],
        _ => vec![books(entry + 4, at(6).saturating_sub(facts.books(entry))), books(entry + 8, facts.books(entry + 4))],
    };
    Some(Damage::at("a word within its range", changes, None, 0, 0))
}

/// One to three random words anywhere in memory.
fn random(rng: &mut Rng, memory: &Memory) -> Damage {
    let (slots, pool, books) = (memory.slots.len(), memory.pool.len(), memory.books.len());
    let all = [(Bytes::State, 304), (Bytes::Books, books), (Bytes::Slots, slots), (Bytes::Pool, pool)];
    let changes = (0..rng.within(1, 3)).map(|_| {
        let (bytes, length) = rng.pick(&all);
        let any = rng.next() as u32;
        let value = rng.pick(&[0, 1, 2, 3, 13, 4_096, 8_192, MAX, any, any % 16, any % 256, any % 65_536]);
        let at = rng.below(length);
        Change::Word(bytes, if rng.one_in(8) { at } else { at / 4 * 4 }, value)
    });
    let changes = changes.collect();
    Damage::at("random words", changes, None, 0, 0)
}
