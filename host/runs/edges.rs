//! What programs must print, by the plain model of document 01, to standard output: `edges CAPTURE` for `edges` and `replay`, `edges --sizes LINES` for
//! `block_edges`, whose lines say what is asked.

use std::io::Write;

fn main() {
    let arguments: Vec<String> = std::env::args().skip(1).collect();
    let said = match &arguments[..] {
        [sizes, lines] if sizes == "--sizes" => runs::model::sizes_said(&std::fs::read_to_string(lines).expect("the lines can be read")),
        [capture] => runs::model::said(&std::fs::read(capture).expect("the capture can be read")),
        _ => panic!("edges CAPTURE, or edges --sizes LINES"),
    };
    std::io::stdout().write_all(&said).expect("standard output can be written");
}
