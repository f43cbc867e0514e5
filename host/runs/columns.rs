//! Columns made from a seed: values, validity and views with the lengths, lists and capacities at which the rules turn.

use crate::rng::Rng;
use puffwidget::layout::Reader;
use puffwidget::{Batch, BufferNumber, Column, Kind, Validity, inline_view, long_view};

/// A buffer that the caller holds: its number and its bytes.
#[derive(Clone, Debug)]
pub struct Held {
    pub number: u32,
    pub bytes: Vec<u8>,
}

/// A column to push.
#[derive(Clone, Debug)]
pub struct Made {
    pub kind: Kind,
    pub values: Vec<u8>,
    pub validity: Option<(Vec<u8>, u32)>,
    /// buffers of its list, by number
    pub list: Vec<u32>,
}

/// A buffer that must be registered before the column is pushed, to hit an edge.
pub struct Wanted {
    pub bytes: Vec<u8>,
    pub capacity: usize,
}

/// Validity of n rows: none, or bits from a first bit that need not be 0.
pub fn validity(rng: &mut Rng, n: usize) -> Option<(Vec<u8>, u32)> {
    if rng.one_in(3) {
        return None;
    }
    let first = rng.pick(&[0, 0, 1, 3, 7, 8, 13, 64]);
    let mut bitmap = rng.bytes((first + n).div_ceil(8));
    match rng.below(4) {
        0 => bitmap.fill(255),
        1 => bitmap.iter_mut().for_each(|byte| *byte |= 0xee),
        _ => {}
    }
    Some((bitmap, first as u32))
}

/// A column of values that are no views.
pub fn primitive(rng: &mut Rng, kind: Kind, n: usize) -> Made {
    Made { kind, values: rng.bytes(n * kind.width()), validity: validity(rng, n), list: Vec::new() }
}

/// A length of a row: around 12 and 13 most often.
fn length(rng: &mut Rng, most: usize) -> usize {
    let wish = match rng.below(6) {
        0 => 12,
        1 => 13,
        2 => rng.below(12),
        3 => rng.within(13, 40),
        4 => rng.within(13, 400),
        _ => rng.within(0, 20),
    };
    wish.min(most)
}

/// A view of a row of this length into one of the buffers, or inline.
fn view(rng: &mut Rng, buffers: &[&[u8]], length: usize) -> [u8; 16] {
    if length <= 12 {
        return inline_view(&rng.bytes(length)).unwrap();
    }
    let fitting: Vec<usize> = (0..buffers.len()).filter(|i| buffers[*i].len() >= length).collect();
    if fitting.is_empty() {
        return inline_view(&rng.bytes(length % 13)).unwrap();
    }
    let index = rng.pick(&fitting);
    let offset = rng.below(buffers[index].len() - length + 1);
    long_view(buffers[index], index as u32, offset, length).unwrap()
}

/// A column of views over buffers that are held, some of them listed twice.
pub fn views(rng: &mut Rng, kind: Kind, n: usize, held: &[Held]) -> Made {
    let count = if held.is_empty() { 0 } else { rng.pick(&[0, 1, 1, 2, 3, 4]) };
    let list: Vec<&Held> = (0..count).map(|_| &held[rng.below(held.len())]).collect();
    let buffers: Vec<&[u8]> = list.iter().map(|held| &held.bytes[..]).collect();
    let most = buffers.iter().map(|bytes| bytes.len()).max().unwrap_or(12).max(12);
    let values = (0..n).flat_map(|_| {
        let length = length(rng, most);
        view(rng, &buffers, length)
    });
    let values = values.collect();
    Made { kind, values, validity: validity(rng, n), list: list.iter().map(|held| held.number).collect() }
}

/// The sum of lengths over 12.
pub fn ideal(values: &[u8]) -> usize {
    let lengths = values.chunks(16).map(|view| puffwidget::layout::word(view, 0) as usize);
    lengths.filter(|length| *length > 12).sum()
}

/// A column whose one buffer is made for it, so that actual is one below, at or one above twice its ideal; its rows' lengths add up to
/// `sum` where that can be.
pub fn edge(rng: &mut Rng, kind: Kind, n: usize, sum: usize) -> (Made, Wanted) {
    let each = (sum / n.max(1)).max(13);
    let more = rng.below(30);
    let bytes = rng.bytes(each + 13 + more);
    let mut left = sum;
    let mut values = Vec::new();
    for i in 0..n {
        let long = if i + 1 == n { left } else { each.min(left) };
        let long = if long > bytes.len() { each } else { long };
        values.extend_from_slice(&view(rng, &[&bytes], long));
        left = left.saturating_sub(long);
    }
    let twice = 2 * ideal(&values);
    let capacity = rng.pick(&[twice.saturating_sub(1), twice, twice + 1, twice + 1, twice + 500]).max(bytes.len());
    (Made { kind, values, validity: validity(rng, n), list: vec![0] }, Wanted { bytes, capacity })
}

/// How many bytes an edge is about: what is left of the open block, one more or less; that and more than the next block would have; or any.
pub fn edge_sum(rng: &mut Rng, reader: &Reader, c: usize) -> usize {
    if let Some(number) = reader.open_block(c)
        && rng.below(3) > 0
    {
        let entry = reader.entry(number);
        let rest = entry.capacity - entry.length;
        let more = if rng.one_in(3) { 2 * reader.kept(c) } else { 0 };
        return (rest + more + rng.below(3)).saturating_sub(1).max(13);
    }
    match rng.below(8) {
        0 => rng.within(8_190, 8_194),
        1 => rng.within(16_383, 16_386),
        _ => rng.within(13, 2_000),
    }
}

/// The batch as the port gets it.
pub fn batch_of(rows: usize, columns: &[Made]) -> Batch {
    let lists: Vec<Vec<BufferNumber>> = columns.iter().map(|made| made.list.iter().map(|n| BufferNumber(*n)).collect()).collect();
    let columns: Vec<Column> = columns
        .iter()
        .zip(&lists)
        .map(|(made, list)| Column {
            kind: made.kind,
            values: &made.values,
            validity: made.validity.as_ref().map(|(bitmap, first)| Validity { bitmap, first_bit: *first }),
            buffers: list,
        })
        .collect();
    Batch::new(rows as u32, &columns).expect("columns of these rows")
}
