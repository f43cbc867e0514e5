//! Rows of a match from a seed: three in four as a match would have them, one in four with a fault, of every kind in turn.

use super::tally::Tally;
use runs::rng::Rng;
use runs::strip_model::{Row, Strip};

/// The faults that a row is given.
const FAULTS: [&str; 18] = [
    "null number",
    "null side",
    "null event",
    "null name",
    "side 0",
    "side 3",
    "side over 3",
    "event 0",
    "event 3",
    "event over 3",
    "name of 0 bytes",
    "name of 65 bytes",
    "name of over 65 bytes",
    "number equal to the last",
    "number below the last",
    "an eighth out",
    "revive with nobody out",
    "name already out",
];

/// Lengths of names, those at which views and the strip turn most often.
const LENGTHS: [usize; 14] = [1, 1, 2, 4, 5, 11, 12, 12, 13, 13, 20, 63, 64, 64];

/// Names of one history: some differ in their last byte, in their first, or by a byte more.
pub fn names(rng: &mut Rng) -> Vec<Vec<u8>> {
    let mut names: Vec<Vec<u8>> = Vec::new();
    for _ in 0..rng.within(5, 12) {
        let length = rng.pick(&LENGTHS);
        let mut name = rng.bytes(length);
        if rng.one_in(2) {
            name.iter_mut().for_each(|byte| *byte = b'A' + *byte % 26);
        }
        let mut other = name.clone();
        let at = if rng.one_in(2) { 0 } else { length - 1 };
        other[at] ^= 1 << rng.below(8);
        names.extend([[&name[..], b"\0"].concat(), name, other].into_iter().take(rng.within(1, 3)));
    }
    names.retain(|name| name.len() <= 64);
    names
}

/// Makes rows beside the strip that they leave.
pub struct Maker {
    names: Vec<Vec<u8>>,
    strip: Strip,
    /// outs among so many events of this history
    outs: usize,
}

impl Maker {
    /// Behind rows that left this strip.
    pub fn behind(rng: &mut Rng, strip: Strip) -> Maker {
        Maker { names: names(rng), strip, outs: rng.pick(&[4, 5, 6, 9]) }
    }

    /// So many rows.
    pub fn rows(mut self, rng: &mut Rng, count: usize, tally: &mut Tally) -> Vec<Row> {
        let rows = (0..count).map(|i| {
            let mut row = self.right(rng, i);
            if rng.one_in(4) {
                for _ in 0..rng.pick(&[1, 1, 1, 2]) {
                    self.spoil(rng, &mut row, tally);
                }
            }
            if i + 5 > count && rng.one_in(40) {
                row.number = Some(u64::MAX);
            }
            self.strip.take(&row);
            row
        });
        rows.collect()
    }

    fn side(&self, side: u8) -> &std::collections::VecDeque<Vec<u8>> {
        &self.strip.out[usize::from(side == 2)]
    }

    /// A row that is accepted where it can be: above the last, an out with a name that is not out, or a revive where somebody is.
    fn right(&self, rng: &mut Rng, i: usize) -> Row {
        let side = rng.within(1, 2) as u8;
        let out = rng.below(10) < self.outs && self.side(side).len() < 7 || self.side(side).is_empty();
        let mut name = self.names[rng.below(self.names.len())].clone();
        if out && self.side(side).contains(&name) {
            let length = rng.pick(&LENGTHS);
            name = rng.bytes(length);
        }
        let number = match self.strip.last {
            None if i == 0 => rng.pick(&[0, 0, 1, 7, u64::from(u32::MAX) - 9, u64::from(u32::MAX), 1 << 32, 1 << 63]),
            last if rng.one_in(40) => last.unwrap_or(0).saturating_add(rng.pick(&[1 << 31, 1 << 32])),
            last => last.unwrap_or(0).saturating_add(rng.pick(&[1, 1, 1, 2, 5])),
        };
        Row { number: Some(number), side: Some(side), event: Some(if out { 1 } else { 2 }), name: Some(name) }
    }

    /// A side with so many out.
    fn with_out(&self, count: usize) -> Option<u8> {
        [1, 2].into_iter().find(|side| self.side(*side).len() == count)
    }

    /// An event that the strip refuses, some numbers ahead now and then: the rows behind it are lower than it, and are accepted.
    fn refused(&self, rng: &mut Rng, row: &mut Row, event: u8, side: Option<u8>) {
        (row.event, row.side) = (Some(event), side);
        if rng.one_in(2) {
            row.number = row.number.map(|number| number.saturating_add(9));
        }
    }

    /// A fault, where the strip has what it wants.
    fn spoil(&self, rng: &mut Rng, row: &mut Row, tally: &mut Tally) {
        let fault = rng.pick(&FAULTS);
        let any = |rng: &mut Rng| rng.within(4, 255) as u8;
        let side = row.side.unwrap_or(1);
        match fault {
            "null number" => row.number = None,
            "null side" => row.side = None,
            "null event" => row.event = None,
            "null name" => row.name = None,
            "side 0" => row.side = Some(0),
            "side 3" => row.side = Some(3),
            "side over 3" => row.side = Some(any(rng)),
            "event 0" => row.event = Some(0),
            "event 3" => row.event = Some(3),
            "event over 3" => row.event = Some(any(rng)),
            "name of 0 bytes" => row.name = Some(Vec::new()),
            "name of 65 bytes" => row.name = Some(rng.bytes(65)),
            "name of over 65 bytes" => row.name = Some(vec![b'n'; rng.within(66, 300)]),
            "number equal to the last" if self.strip.last.is_some() => row.number = self.strip.last,
            "number below the last" if self.strip.last > Some(0) => row.number = self.strip.last.map(|last| below(rng, last)),
            "an eighth out" if self.with_out(7).is_some() => self.refused(rng, row, 1, self.with_out(7)),
            "revive with nobody out" if self.with_out(0).is_some() => self.refused(rng, row, 2, self.with_out(0)),
            "name already out" if !self.side(side).is_empty() => {
                let at = rng.below(self.side(side).len());
                row.name = Some(self.side(side)[at].clone());
                self.refused(rng, row, 1, row.side);
            }
            _ => return,
        }
        tally.count("faults made", fault);
    }
}

/// A number below the last: by one, by all, or with a larger low word and a smaller high one.
fn below(rng: &mut Rng, last: u64) -> u64 {
    match rng.below(3) {
        0 => last - 1,
        1 if last >> 32 > 0 => (last - (1 << 32)) | 0xffff_ffff,
        _ => rng.next() % last,
    }
}
