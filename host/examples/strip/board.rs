//! What is shown: the strip, the rows that wait, and the last faults, as text that a screen may have.

use puffwidget::{Side, Strip};

/// The faults that are shown below the strip.
const TOLD: usize = 4;

/// What a screen, a page or a line of JSON shows.
#[derive(Clone, Debug, Default)]
pub struct Board {
    /// by side, the names of those who are out, longest out first
    pub out: [Vec<String>; 2],
    /// the last accepted row's number
    pub last: Option<u64>,
    /// rows that wait for more
    pub waiting: usize,
    /// the last faults, one line each
    pub told: Vec<String>,
}

impl Board {
    /// The names and the number as the strip has them.
    pub fn see(&mut self, strip: &Strip) {
        self.out = Side::ALL.map(|side| strip.out(side).map(shown).collect());
        self.last = strip.last();
    }

    /// One more fault.
    pub fn tell(&mut self, fault: String) {
        self.told.push(fault);
        if self.told.len() > TOLD {
            self.told.remove(0);
        }
    }

    /// The number, or `-`.
    pub fn last_text(&self) -> String {
        self.last.map_or("-".to_string(), |number| number.to_string())
    }
}

/// Bytes as text that a screen may have: `?` for a control character, the replacement character for what is no UTF-8 or no character.
pub fn shown(bytes: &[u8]) -> String {
    let one = |c: char| match c {
        c if c.is_control() => '?',
        '\u{fffe}' | '\u{ffff}' => char::REPLACEMENT_CHARACTER,
        c => c,
    };
    String::from_utf8_lossy(bytes).chars().map(one).collect()
}
