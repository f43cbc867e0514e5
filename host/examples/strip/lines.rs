//! Lines of a court box: `14 away out Nandini`.

use super::board::shown;
use puffwidget::{Event, Side};
use std::io::{self, BufRead};

/// The longest line that is read.
const LONGEST: usize = 1_000;

/// A row as a line has it.
#[derive(Debug, PartialEq, Eq)]
pub struct Row {
    pub number: u64,
    pub side: Side,
    pub event: Event,
    pub name: Vec<u8>,
}

/// The next word and what is behind it.
fn word(line: &[u8]) -> (&[u8], &[u8]) {
    let line = line.trim_ascii_start();
    line.split_at(line.iter().position(u8::is_ascii_whitespace).unwrap_or(line.len()))
}

/// The row of a line; `None` for a line with nothing on it or a remark behind `#`. Else what is wrong with it.
pub fn row(line: &[u8]) -> Result<Option<Row>, String> {
    let line = line.trim_ascii();
    if line.is_empty() || line[0] == b'#' {
        return Ok(None);
    }
    let ((number, rest), most) = (word(line), u64::MAX);
    let digits = std::str::from_utf8(number).ok().filter(|text| text.bytes().all(|byte| byte.is_ascii_digit()));
    let number = digits
        .and_then(|text| text.parse().ok())
        .ok_or_else(|| format!("the row number is `{}`, and must be from 0 to {most}", shown(number)))?;
    let (side, rest) = word(rest);
    let side = match &side.to_ascii_lowercase()[..] {
        b"home" | b"1" => Side::Home,
        b"away" | b"2" => Side::Away,
        _ => return Err(format!("the side is `{}`, and must be home or away", shown(side))),
    };
    let (event, rest) = word(rest);
    let event = match &event.to_ascii_lowercase()[..] {
        b"out" | b"1" => Event::Out,
        b"revive" | b"2" => Event::Revive,
        _ => return Err(format!("the event is `{}`, and must be out or revive", shown(event))),
    };
    match rest.trim_ascii() {
        b"" => Err("there is no player's name, and every row has one, a revive too".to_string()),
        name => Ok(Some(Row { number, side, event, name: name.to_vec() })),
    }
}

/// The next line without its end; `None` at the end of input. A line that is too long is passed over and told.
pub fn next(input: &mut impl BufRead) -> io::Result<Option<Result<Vec<u8>, String>>> {
    let (mut line, mut length) = (Vec::new(), 0);
    loop {
        let bytes = input.fill_buf()?;
        let (nothing, end) = (bytes.is_empty(), bytes.iter().position(|byte| *byte == b'\n'));
        if nothing && length == 0 {
            return Ok(None);
        }
        let part = &bytes[..end.unwrap_or(bytes.len())];
        length += part.len();
        if length <= LONGEST {
            line.extend(part);
        }
        let used = part.len() + usize::from(end.is_some());
        input.consume(used);
        if nothing || end.is_some() {
            let long = format!("the line is longer than {LONGEST} bytes");
            return Ok(Some(if length <= LONGEST { Ok(line) } else { Err(long) }));
        }
    }
}
