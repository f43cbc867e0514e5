//! Damages of a pushed batch: record bytes (2), rows (3), record words (4), places in the body (5) and listed numbers (6).

use super::memory::Facts;
use super::pushed::Pushed;
use super::{Bytes, Change, Damage, views};
use puffwidget::{Kind, Memory};
use runs::model::Call;
use runs::rng::Rng;

const MAX: u32 = u32::MAX;

/// A damage of a batch, chosen by the seed.
pub fn damage(rng: &mut Rng, memory: &Memory, call: &Call) -> Option<Damage> {
    let Call::Push { records, body, rows } = call else { return None };
    let facts = Facts::of(memory);
    let columns = facts.kinds.len();
    if *rows == 0 {
        return Some(no_rows(rng, columns));
    }
    let more = facts.state(1) + 1;
    match rng.below(16) {
        0 => return Some(Damage::of("records one byte long", Change::Long(Bytes::Records), Some(2))),
        1 if columns > 0 => return Some(Damage::of("records one byte short", Change::Short(Bytes::Records), Some(2))),
        2 => return Some(Damage::of("rows over R", Change::Rows(rng.pick(&[more, 65_536, MAX])), Some(3))),
        3 if rng.one_in(2) => return Some(Damage::of("one row more", Change::Rows(rows + 1), None)),
        3 => return Some(Damage::of("body one byte long", Change::Long(Bytes::Body), None)),
        4 if columns > 0 => return Some(Damage::at("body one byte short", vec![Change::Short(Bytes::Body)], Some(5), columns - 1, 0)),
        _ if columns == 0 => return None,
        _ => {}
    }
    let pushed = Pushed::of(records, body, *rows as usize, rng.below(columns));
    match rng.below(12) {
        0 => kind(rng, &pushed),
        1 | 2 => rules(rng, &pushed),
        3 => values(rng, &pushed),
        4 => bitmap(rng, &pushed),
        5 => list(rng, &pushed),
        6 | 7 => not_held(rng, &facts, &pushed),
        8 => random(rng, &pushed),
        _ => views::damage(rng, &facts, &pushed),
    }
}

/// "0 rows: done, nothing changes, before any batch check": no damage of the batch is seen.
fn no_rows(rng: &mut Rng, columns: usize) -> Damage {
    let change = match rng.below(3) {
        0 => Change::Long(Bytes::Records),
        1 => Change::Short(Bytes::Records),
        _ => Change::Word(Bytes::Records, 4 * rng.below(8 * columns), MAX),
    };
    Damage::of("0 rows, damaged records", change, Some(0))
}

/// 4: "a record of the wrong kind".
fn kind(rng: &mut Rng, pushed: &Pushed) -> Option<Damage> {
    let other = rng.pick(&[0, 20, 256 + pushed.kind.number(), MAX, other_kind(pushed.kind)]);
    pushed.damage("record: kind", pushed.record(0, other), 4)
}

/// Another kind of the table, of the same width where there is one.
fn other_kind(kind: Kind) -> u32 {
    let same = (1..20).find(|n| *n != kind.number() && Kind::of(*n).is_some_and(|other| other.width() == kind.width()));
    same.unwrap_or(1)
}

/// 4: "or against its rules".
fn rules(rng: &mut Rng, pushed: &Pushed) -> Option<Damage> {
    match rng.below(6) {
        0 => pushed.damage("record: word 6", pushed.record(6, rng.pick(&[1, 1 << 31, MAX])), 4),
        1 => pushed.damage("record: word 7", pushed.record(7, rng.pick(&[1, 1 << 31, MAX])), 4),
        2 if pushed.validity.is_none() => pushed.damage("record: first bit, no validity", pushed.record(3, rng.pick(&[1, 8, MAX])), 4),
        3 if pushed.first != 0 => pushed.damage("record: no validity beside a first bit", pushed.record(2, MAX), 4),
        4 if pushed.count == 0 => pushed.damage("record: list start, count 0", pushed.record(4, rng.pick(&[1, MAX])), 4),
        4 if pushed.list != 0 => pushed.damage("record: count 0 beside a list start", pushed.record(5, 0), 4),
        5 if !pushed.kind.is_view() => pushed.damage("record: list of another kind", pushed.record(5, rng.pick(&[1, MAX])), 4),
        _ => None,
    }
}

/// 5: values from a start so that they end one past the body, at its end, and at the largest number; or just inside.
fn values(rng: &mut Rng, pushed: &Pushed) -> Option<Damage> {
    let need = pushed.rows * pushed.kind.width();
    let last = (pushed.body.len() - need) as u32;
    if rng.one_in(4) {
        return Some(Damage::at("record: values at the body's end", vec![pushed.record(1, last)], None, pushed.column, 0));
    }
    pushed.damage("record: values past the body", pushed.record(1, rng.pick(&[last + 1, pushed.body.len() as u32, MAX])), 5)
}

/// 5: the bitmap, "from its start through the byte of the last row's bit".
fn bitmap(rng: &mut Rng, pushed: &Pushed) -> Option<Damage> {
    let body = pushed.body.len();
    let start = pushed.validity?;
    let last = (body - (pushed.first + pushed.rows).div_ceil(8)) as u32;
    let first = (8 * (body - start) - pushed.rows) as u32; // the last row's bit is the body's last bit
    let inside = |i, value| Some(Damage::at("record: bitmap to the body's end", vec![pushed.record(i, value)], None, pushed.column, 0));
    match rng.below(4) {
        0 => inside(2, last),
        1 => inside(3, first),
        2 => pushed.damage("record: bitmap past the body", pushed.record(2, rng.pick(&[last + 1, body as u32, MAX - 1])), 5),
        _ => pushed.damage("record: first bit past the body", pushed.record(3, rng.pick(&[first + 1, MAX - 1, MAX])), 5),
    }
}

/// 5: the list.
fn list(rng: &mut Rng, pushed: &Pushed) -> Option<Damage> {
    if !pushed.kind.is_view() || pushed.count == 0 {
        return None;
    }
    let body = pushed.body.len() as u32;
    let last = body - 4 * pushed.count as u32;
    let most = (body - pushed.list as u32) / 4;
    match rng.below(4) {
        0 => Some(Damage::at("record: list at the body's end", vec![pushed.record(4, last)], None, pushed.column, 0)),
        1 => Some(Damage::at("record: list to the body's end", vec![pushed.record(5, most)], None, pushed.column, 0)),
        2 => pushed.damage("record: list past the body", pushed.record(4, rng.pick(&[last + 1, body, MAX])), 5),
        _ => pushed.damage("record: list count past the body", pushed.record(5, rng.pick(&[most + 1, 1 << 30, MAX])), 5),
    }
}

/// 6: numbers that the caller does not hold: not below N, free, past `used`, let go but still listed, the open block's.
fn not_held(rng: &mut Rng, facts: &Facts, pushed: &Pushed) -> Option<Damage> {
    if pushed.count == 0 {
        return None;
    }
    let all = facts.state(5);
    let held = |n: u32| n < facts.used() && facts.books(4 + 20 * n as usize + 12) == 1;
    let lists = |n: u32| n < facts.used() && facts.books(4 + 20 * n as usize + 16) > 0;
    let listed: Vec<u32> = (0..all).filter(|n| !held(*n) && lists(*n)).collect();
    let free: Vec<u32> = (0..all).filter(|n| !held(*n) && !lists(*n)).collect();
    let (name, from) = match rng.below(3) {
        0 if !listed.is_empty() => ("list: number let go, or of a block", listed),
        1 if !free.is_empty() => ("list: free number", free),
        _ => ("list: number not below N", vec![all, all + 1, MAX]),
    };
    let at = pushed.list + 4 * rng.below(pushed.count);
    pushed.damage(name, Change::Word(Bytes::Body, at, rng.pick(&from)), 6)
}

/// A random word of the record, or byte of the body.
fn random(rng: &mut Rng, pushed: &Pushed) -> Option<Damage> {
    let any = rng.next() as u32;
    let value = rng.pick(&[0, 1, 2, MAX, any, any % 64]);
    let change = match rng.one_in(2) {
        true => pushed.record(rng.below(8), value),
        false => Change::Byte(Bytes::Body, rng.below(pushed.body.len()), value as u8),
    };
    Some(Damage::at("random word of a batch", vec![change], None, pushed.column, 0))
}
