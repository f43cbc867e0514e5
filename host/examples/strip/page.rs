//! The strip as one page for a coach: seven places a side, to be read from ten metres. The page is well-formed XML as well, and asks for itself
//! anew every second.

use super::board::Board;
use std::fmt::Write;
use std::io;
use std::path::Path;

const STYLE: &str = "
html, body { margin: 0; height: 100%; background: #0b1020; color: #f4f6fb; font-family: 'DejaVu Sans', Verdana, Arial, sans-serif; }
body { display: flex; flex-direction: column; overflow: hidden; }
header { display: flex; justify-content: space-between; padding: 1.2vh 2vw; font-size: 4vh; color: #b9c3dc; }
header b { color: #f4f6fb; }
main { flex: 1; display: flex; gap: 2vw; padding: 0 2vw; min-height: 0; }
section { flex: 1 1 0; min-width: 0; display: flex; flex-direction: column; }
h1 { display: flex; justify-content: space-between; margin: 0 0 0.8vh; padding: 0.8vh 1.2vw; font-size: min(6vh, 3.4vw); line-height: 1.1; }
.home h1 { background: #1d4ed8; }
.away h1 { background: #b45309; }
ol { flex: 1; list-style: none; margin: 0; padding: 0; display: grid; grid-template-rows: repeat(7, 1fr); gap: 0.7vh; min-height: 0; }
li { display: flex; align-items: center; gap: 1.2vw; padding: 0 1.2vw; background: #18203a; overflow: hidden; font-size: min(6vh, 3.4vw); }
li.free { background: #10172b; color: #46527a; }
li.next { background: #f6c945; color: #14110a; font-weight: bold; }
li i { font-style: normal; flex: none; width: 1.1em; font-size: min(4vh, 2.3vw); opacity: 0.75; }
li bdi { flex: 1; min-width: 0; line-height: 1.05; max-height: 100%; overflow: hidden; overflow-wrap: anywhere; }
li em { flex: none; font-style: normal; font-size: min(2.6vh, 1.5vw); text-align: center; }
.medium { font-size: min(4.4vh, 2.5vw); }
.small { font-size: min(3.2vh, 1.8vw); }
footer { min-height: 3vh; padding: 0.8vh 2vw 1.2vh; font-size: 2.4vh; line-height: 1.25; color: #ffb4a8; }
footer p { margin: 0; white-space: nowrap; overflow: hidden; text-overflow: ellipsis; }
";

/// Text as a page has it.
pub fn escaped(text: &str) -> String {
    let mut out = String::new();
    for c in text.chars() {
        match c {
            '&' => out += "&amp;",
            '<' => out += "&lt;",
            '>' => out += "&gt;",
            '"' => out += "&quot;",
            '\'' => out += "&#39;",
            c => out.push(c),
        }
    }
    out
}

/// How large a name is written: on one line, on two, or on three. Capitals count for more than a letter, and wide characters for two.
fn size(name: &str) -> &'static str {
    let tenths = |c: char| match c {
        'W' | 'M' | '@' | '\u{1100}'.. => 18,
        'A'..='Z' => 13,
        _ => 10,
    };
    match name.chars().map(tenths).sum() {
        0..=180 => "large",
        181..=420 => "medium",
        _ => "small",
    }
}

/// One place of a side.
fn place(number: usize, name: Option<&String>) -> String {
    let Some(name) = name else { return format!("<li class=\"free\"><i>{number}</i></li>\n") };
    let (class, next) = if number == 1 { (" class=\"next\"", "<em>next<br/>back</em>") } else { ("", "") };
    format!("<li{class}><i>{number}</i><bdi class=\"{}\">{}</bdi>{next}</li>\n", size(name), escaped(name))
}

/// One side: its name, how many are out, seven places.
fn side(class: &str, title: &str, out: &[String]) -> String {
    let places: String = (0..7).map(|i| place(i + 1, out.get(i))).collect();
    format!("<section class=\"{class}\"><h1><span>{title}</span><span>{} of 7 out</span></h1>\n<ol>\n{places}</ol></section>\n", out.len())
}

/// The page of a board.
pub fn page(board: &Board) -> String {
    let mut page = String::from("<!DOCTYPE html>\n<html lang=\"en\"><head><meta charset=\"utf-8\"/>");
    page += "<meta http-equiv=\"refresh\" content=\"1\"/><title>Player strip</title>\n";
    let waiting = match board.waiting {
        0 => "no row waits".to_string(),
        1 => "1 row waits".to_string(),
        rows => format!("{rows} rows wait"),
    };
    let _ = write!(
        page,
        "<style>{STYLE}</style></head>\n<body><header><span>row <b>{}</b></span><span>{waiting}</span></header>\n<main>",
        board.last_text()
    );
    page += &side("home", "HOME", &board.out[0]);
    page += &side("away", "AWAY", &board.out[1]);
    page += "</main>\n<footer>";
    for fault in &board.told {
        let _ = write!(page, "<p>{}</p>", escaped(fault));
    }
    page + "</footer></body></html>\n"
}

/// The page in its file, whole: it is written beside and put in its place, so that nobody reads half of one.
pub fn write(board: &Board, file: &Path) -> io::Result<()> {
    let mut beside = file.as_os_str().to_owned();
    beside.push(".new");
    std::fs::write(&beside, page(board))?;
    std::fs::rename(&beside, file)
}
