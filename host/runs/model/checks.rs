//! Refusals 2 to 7: a pushed batch, its records by columns and its views by rows.

use super::basics::{Refused, is_view, unless, width, word};
use super::world::{Entry, World};

/// A pushed column that passed the checks: each row's bytes and whether it is valid, and the numbers in its list.
pub struct Pushed {
    pub cells: Vec<Vec<u8>>,
    pub valid: Vec<bool>,
    pub list: Vec<usize>,
}

/// A column's record: kind, values, validity, first bit, list, count, and two words that are zero.
type Record = [usize; 8];

/// "start of validity, 4,294,967,295 for none".
const NO_VALIDITY: usize = 4_294_967_295;

/// The batch's columns, or the first refusal: "2, 3, then per column 4, 5, 6, and 7 by rows".
pub fn checked(world: &World, records: &[u8], body: &[u8], rows: usize) -> Result<Vec<Pushed>, Refused> {
    let s = &world.state;
    unless(records.len() == 32 * s.columns, 2, "record bytes not 32 x columns")?;
    unless(rows <= s.rows, 3, "rows over R")?;
    let mut columns = Vec::new();
    for c in 0..s.columns {
        let record: Record = std::array::from_fn(|i| word(records, 32 * c + 4 * i));
        test_4(record, s.column[c].kind)?;
        test_5(record, body.len(), rows)?;
        test_6(world, record, body)?;
        let column = pushed(record, body, rows);
        if is_view(record[0]) {
            test_7(world, &column)?;
        }
        columns.push(column);
    }
    Ok(columns)
}

/// 4: "a record of the wrong kind or against its rules".
fn test_4(record: Record, wanted: usize) -> Result<(), Refused> {
    let [kind, _, validity, first, list, count, six, seven] = record;
    unless(kind == wanted, 4, "a record of the wrong kind")?;
    unless(six == 0, 4, "two words that are zero: the first")?;
    unless(seven == 0, 4, "two words that are zero: the second")?;
    unless(validity != NO_VALIDITY || first == 0, 4, "No validity: first bit 0.")?;
    unless(count != 0 || list == 0, 4, "List count 0: list start 0.")?;
    unless(is_view(kind) || count == 0, 4, "Non-view kinds have list count 0.")
}

/// 5: "values, bitmap (from its start through the byte of the last row's bit) or list outside the body". There is 1 row or more.
fn test_5(record: Record, body: usize, rows: usize) -> Result<(), Refused> {
    let [kind, values, validity, first, list, count, ..] = record;
    unless(values + rows * width(kind).expect("4 was tested") <= body, 5, "values outside the body")?;
    if validity != NO_VALIDITY {
        let last = first + rows - 1;
        unless(validity + last / 8 < body, 5, "bitmap outside the body")?;
    }
    unless(list + 4 * count <= body, 5, "list outside the body")
}

/// 6: "a listed buffer that the caller does not hold"; "a pushed number not below N is 6".
fn test_6(world: &World, record: Record, body: &[u8]) -> Result<(), Refused> {
    let [_, _, _, _, list, count, ..] = record;
    for i in 0..count {
        let number = word(body, list + 4 * i);
        unless(number < world.state.numbers, 6, "a pushed number not below N")?;
        let buffer = world.buffer(number);
        unless(buffer.is_some(), 6, "a listed buffer that is free")?;
        unless(buffer.is_some_and(|entry| entry.hold == 1), 6, "a listed buffer that the caller does not hold")?;
    }
    Ok(())
}

/// The column that a record tells of; it lies in the body. "Validity is one bit a row, least significant bit first, 1 valid."
fn pushed(record: Record, body: &[u8], rows: usize) -> Pushed {
    let [kind, values, validity, first, list, count, ..] = record;
    let wide = width(kind).expect("4 was tested");
    let bit = |i: usize| body[validity + (first + i) / 8] >> ((first + i) % 8) & 1 == 1;
    Pushed {
        cells: (0..rows).map(|i| body[values + i * wide..][..wide].to_vec()).collect(),
        valid: (0..rows).map(|i| validity == NO_VALIDITY || bit(i)).collect(),
        list: (0..count).map(|i| word(body, list + 4 * i)).collect(),
    }
}

/// 7: "an invalid view", by rows, "null rows included".
fn test_7(world: &World, column: &Pushed) -> Result<(), Refused> {
    let list: Vec<Entry> = column.list.iter().map(|number| world.entry(*number)).collect();
    for view in &column.cells {
        test_view(&world.pool, view, &list)?;
    }
    Ok(())
}

/// A view is valid: four words, of which the second to fourth are the bytes where there are at most 12.
fn test_view(pool: &[u8], view: &[u8], list: &[Entry]) -> Result<(), Refused> {
    let (length, index, offset) = (word(view, 0), word(view, 8), word(view, 12));
    if length <= 12 {
        let padding = &view[4 + length..];
        return unless(padding.iter().all(|byte| *byte == 0), 7, "inline padding is zero");
    }
    unless(index < list.len(), 7, "a long view's index is below the list count")?;
    let buffer = &list[index];
    unless(offset + length <= buffer.capacity, 7, "offset + length is at most that buffer's length, past its capacity")?;
    unless(offset + length <= buffer.length, 7, "offset + length is at most that buffer's length (not its capacity)")?;
    let at = buffer.start + offset;
    unless(pool[at..at + 4] == view[4..8], 7, "its 4 bytes are the buffer's at the offset")
}
