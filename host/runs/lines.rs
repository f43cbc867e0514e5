//! A row as the programs print it.

/// Two spaces, then the cells: `-` for null, `.` for a value of no bytes, else two digits a byte.
pub fn row(cells: &[Option<Vec<u8>>]) -> String {
    let cells: Vec<String> = cells.iter().map(cell).collect();
    format!("  {}", cells.join(" "))
}

/// A cell, or bytes of a memory.
pub fn cell(cell: &Option<Vec<u8>>) -> String {
    match cell {
        None => "-".to_string(),
        Some(bytes) if bytes.is_empty() => ".".to_string(),
        Some(bytes) => bytes.iter().map(|byte| format!("{byte:02x}")).collect(),
    }
}

/// Bytes as a screen may have them: `?` for a control byte, one of ASCII's or the second of a letter from U+0080 to U+009F, and for a
/// byte from 128 to 159 behind what shows as ASCII, which begins no letter.
pub fn shown(bytes: &[u8]) -> Vec<u8> {
    let mut shown: Vec<u8> = Vec::new();
    for byte in bytes {
        let before = shown.last().copied().unwrap_or(0);
        let control = byte.is_ascii_control() || ((0x80..=0x9f).contains(byte) && (before.is_ascii() || before == 0xc2));
        shown.push(if control { b'?' } else { *byte });
    }
    shown
}
