//! What every part of the model uses: a refusal, the table of kinds, words.

/// A refusal: its number, and the words that ask for it, by which runs count what they reached.
#[derive(Clone, Copy, PartialEq, Eq, Debug)]
pub struct Refused {
    pub number: u32,
    pub clause: &'static str,
}

/// The clauses of the model that can refuse. 8 ("a copied row would start past 4,294,967,295") is tested and can't: a block lies in the pool,
/// which is shorter than that.
pub const CLAUSES: usize = 76;

/// A test: the refusal where it does not hold.
pub fn unless(holds: bool, number: u32, clause: &'static str) -> Result<(), Refused> {
    if holds { Ok(()) } else { Err(Refused { number, clause }) }
}

/// 01: "The kinds and their widths stand in one fixed table", kind 1 first.
const WIDTHS: [usize; 19] = [1, 2, 4, 8, 1, 2, 4, 8, 2, 4, 8, 4, 8, 8, 8, 16, 32, 16, 16];

/// The width of a kind in the table.
pub fn width(kind: usize) -> Option<usize> {
    WIDTHS.get(kind.checked_sub(1)?).copied()
}

pub fn is_view(kind: usize) -> bool {
    kind == 18 || kind == 19
}

/// The little-endian word at a place.
pub fn word(bytes: &[u8], at: usize) -> usize {
    (0..4).map(|i| (bytes[at + i] as usize) << (8 * i)).sum()
}

/// A word put at a place.
pub fn put_word(bytes: &mut [u8], at: usize, value: usize) {
    for i in 0..4 {
        bytes[at + i] = (value >> (8 * i)) as u8;
    }
}
