//! What the program `block_edges` must print: each of its asks is asked of the model's block size.

use super::view_columns::asked;
use std::fmt::Write;

/// The lines that must be printed, by the lines that are: a title begins with a fresh size, and under `fresh` every ask does.
pub fn sizes_said(lines: &str) -> Vec<u8> {
    let (mut said, mut kept, mut anew) = (String::new(), 4_096, false);
    for line in lines.lines() {
        let minimum = line.strip_prefix("ask ").and_then(|rest| rest.split(' ').next()?.parse().ok());
        match minimum {
            Some(minimum) => {
                kept = if anew { 4_096 } else { kept };
                let size = asked(&mut kept, minimum);
                let _ = writeln!(said, "ask {minimum} gives {size}, keeps {kept}");
            }
            None => {
                (kept, anew) = (4_096, line == "fresh");
                let _ = writeln!(said, "{line}");
            }
        }
    }
    said.into_bytes()
}
