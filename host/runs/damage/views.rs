//! Damages of views (7), in null rows too: padding, index, offset and length, prefix.

use super::memory::Facts;
use super::pushed::Pushed;
use super::{Bytes, Change, Damage};
use puffwidget::layout::word;
use runs::rng::Rng;

const MAX: u32 = u32::MAX;

/// A view that is not valid, in a row chosen by the seed; half the time the row is made null.
pub fn damage(rng: &mut Rng, facts: &Facts, pushed: &Pushed) -> Option<Damage> {
    if !pushed.kind.is_view() {
        return None;
    }
    let row = rng.below(pushed.rows);
    let at = pushed.values + 16 * row;
    let (name, mut changes) = match word(pushed.body, at) {
        _ if rng.one_in(4) => past_count(rng, pushed, at),
        0..=12 => padding(rng, pushed, at)?,
        _ => long(rng, facts, pushed, at),
    };
    if rng.one_in(2)
        && let Some(start) = pushed.validity
    {
        let bit = pushed.first + row;
        changes.push(Change::Byte(Bytes::Body, start + bit / 8, pushed.body[start + bit / 8] & !(1 << (bit % 8))));
        return Some(Damage::at("view of a null row", changes, Some(7), pushed.column, row));
    }
    Some(Damage::at(name, changes, Some(7), pushed.column, row))
}

fn put(at: usize, value: u32) -> Change {
    Change::Word(Bytes::Body, at, value)
}

/// "inline padding is zero": one bit of it set; a view of 12 bytes has none, one byte less gives it one.
fn padding(rng: &mut Rng, pushed: &Pushed, at: usize) -> Option<(&'static str, Vec<Change>)> {
    let length = word(pushed.body, at) as usize;
    if length < 12 {
        let byte = at + rng.within(4 + length, 15);
        return Some(("view: padding bit", vec![Change::Byte(Bytes::Body, byte, 1 << rng.below(8))]));
    }
    (pushed.body[at + 15] != 0).then(|| ("view: last byte becomes padding", vec![put(at, 11)]))
}

/// A view of 13 bytes whose index is the list count: "a long view's index is below the list count".
fn past_count(rng: &mut Rng, pushed: &Pushed, at: usize) -> (&'static str, Vec<Change>) {
    let index = rng.pick(&[pushed.count as u32, pushed.count as u32 + 1, MAX]);
    ("view: index at the list count", vec![put(at, 13), put(at + 8, index), put(at + 12, 0)])
}

/// A long view: its index, its end one past the buffer's length (not its capacity), sums that wrap, or a prefix byte.
fn long(rng: &mut Rng, facts: &Facts, pushed: &Pushed, at: usize) -> (&'static str, Vec<Change>) {
    let (length, index, offset) = (word(pushed.body, at), word(pushed.body, at + 8), word(pushed.body, at + 12));
    let number = word(pushed.body, pushed.list + 4 * index as usize) as usize;
    let filled = facts.books(4 + 20 * number + 8);
    match rng.below(6) {
        0 => ("view: index", vec![put(at + 8, rng.pick(&[pushed.count as u32, 1 << 31, MAX]))]),
        1 => ("view: length one over", vec![put(at, filled - offset + 1)]),
        2 => ("view: offset one over", vec![put(at + 12, filled - length + 1)]),
        3 => ("view: offset + length wraps", vec![put(at + 12, MAX - length + 1 + rng.below(2) as u32)]),
        4 => ("view: largest length or offset", vec![put(at + rng.pick(&[0, 12]), MAX)]),
        _ => {
            let byte = at + rng.within(4, 7);
            ("view: prefix byte", vec![Change::Byte(Bytes::Body, byte, pushed.body[byte] ^ (1 << rng.below(8)))])
        }
    }
}
