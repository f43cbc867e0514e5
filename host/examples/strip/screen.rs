//! The strip on standard output: a frame for a person, drawn in place on a terminal, or a line of JSON for a program.

use super::board::Board;
use std::fmt::Write;

/// The frame: two blocks of eight lines, and the last faults.
pub fn frame(board: &Board) -> String {
    let mut frame = format!("row {}, waiting {}\n", board.last_text(), board.waiting);
    for (side, out) in ["HOME", "AWAY"].iter().zip(&board.out) {
        let _ = writeln!(frame, "{side}  {} of 7 out", out.len());
        for place in 0..7 {
            let next = if place == 0 && !out.is_empty() { "next back > " } else { "            " };
            let _ = writeln!(frame, "{}", format!("{next}{}  {}", place + 1, out.get(place).map_or("-", |name| name)).trim_end());
        }
    }
    for fault in &board.told {
        let _ = writeln!(frame, "! {fault}");
    }
    frame
}

/// The same over the frame before it.
pub fn in_place(board: &Board) -> String {
    format!("\x1b[H\x1b[J{}", frame(board))
}

/// A text of JSON.
fn quoted(text: &str) -> String {
    let mut out = String::from("\"");
    for c in text.chars() {
        match c {
            '"' | '\\' => out.extend(['\\', c]),
            c if c.is_control() || matches!(c, '\u{2028}' | '\u{2029}') => {
                let _ = write!(out, "\\u{:04x}", c as u32);
            }
            c => out.push(c),
        }
    }
    out + "\""
}

/// Texts as a list.
fn list(texts: &[String]) -> String {
    let texts: Vec<String> = texts.iter().map(|text| quoted(text)).collect();
    format!("[{}]", texts.join(","))
}

/// A line of JSON for a batch: its rows, those refused by line and number, and the strip behind it.
pub fn json(board: &Board, rows: usize, refused: &[(u64, u32)]) -> String {
    let refused: Vec<String> = refused.iter().map(|(line, number)| format!("{{\"line\":{line},\"number\":{number}}}")).collect();
    format!(
        "{{\"rows\":{rows},\"refused\":[{}],\"last\":{},\"waiting\":{},\"home\":{},\"away\":{}}}\n",
        refused.join(","),
        board.last.map_or("null".to_string(), |number| number.to_string()),
        board.waiting,
        list(&board.out[0]),
        list(&board.out[1])
    )
}
