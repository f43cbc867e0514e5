//! What a row of the Rust's batch shows.

use judge::{JudgeBuffer, TakenColumn};

/// A row of a column of the Rust's batch: null, or what it shows.
pub fn cell(column: &TakenColumn, rows: usize, i: usize) -> Option<Vec<u8>> {
    let width = column.values.len() / rows;
    let valid = column.validity.as_ref().is_none_or(|bits| bits[i]);
    valid.then(|| shown(&column.values[i * width..][..width], column.kind >= 18, &column.buffers))
}

/// What a value shows there.
fn shown(value: &[u8], is_view: bool, buffers: &[JudgeBuffer]) -> Vec<u8> {
    let at = |i: usize| puffwidget::layout::word(value, 4 * i) as usize;
    match is_view {
        false => value.to_vec(),
        true if at(0) <= 12 => value[4..4 + at(0)].to_vec(),
        true => buffers[at(2)].bytes()[at(3)..at(3) + at(0)].to_vec(),
    }
}
