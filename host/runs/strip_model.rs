//! The player strip in plain Rust, from the words of change request K6 and nothing else: a queue a side.

use std::collections::VecDeque;

/// A row: "row number (UInt64), side 1 or 2 (UInt8), event 1 out, 2 revive (UInt8), player name"; `None` is null.
#[derive(Clone, PartialEq, Eq, Debug)]
pub struct Row {
    pub number: Option<u64>,
    pub side: Option<u8>,
    pub event: Option<u8>,
    pub name: Option<Vec<u8>>,
}

/// "For each side it keeps the out players .. in the order they went out", and the last accepted row's number.
#[derive(Clone, Default, PartialEq, Eq, Debug)]
pub struct Strip {
    pub last: Option<u64>,
    pub out: [VecDeque<Vec<u8>>; 2],
}

impl Strip {
    /// A row's number, "lowest number first, the row changing nothing", or 0 where it is accepted.
    pub fn take(&mut self, row: &Row) -> u32 {
        // "31 side, event, number or name null or out of range"
        let Row { number: Some(number), side: Some(side @ 1..=2), event: Some(event @ 1..=2), name: Some(name) } = row else { return 31 };
        if !(1..=64).contains(&name.len()) {
            return 31;
        }
        // "32 row number not above the last accepted row's"
        if self.last.is_some_and(|last| *number <= last) {
            return 32;
        }
        let out = &mut self.out[*side as usize - 1];
        match event {
            1 if out.len() == 7 => return 33,     // "an eighth out"
            1 if out.contains(name) => return 35, // "a name already out on that side"
            1 => out.push_back(name.clone()),
            _ if out.is_empty() => return 34, // "revive with nobody out"
            _ => drop(out.pop_front()),       // "a revive takes the one who has been out longest"
        }
        self.last = Some(*number);
        0
    }

    /// The strip's 972 bytes, as docs/LAYOUT.md says.
    pub fn bytes(&self) -> Vec<u8> {
        let mut bytes: Vec<u8> = u32::from(self.last.is_some()).to_le_bytes().to_vec();
        bytes.extend(self.last.unwrap_or(0).to_le_bytes());
        for (out, end) in self.out.iter().zip([492, 972]) {
            bytes.extend((out.len() as u32).to_le_bytes());
            for name in out {
                let next = bytes.len() + 68;
                bytes.extend((name.len() as u32).to_le_bytes());
                bytes.extend(name);
                bytes.resize(next, 0);
            }
            bytes.resize(end, 0);
        }
        bytes
    }
}
