//! Tests of what the example `strip` shows: lines read, names as text, the page's tags in order.

#[path = "../examples/strip/board.rs"]
mod board;
#[path = "../examples/strip/lines.rs"]
mod lines;
#[path = "../examples/strip/page.rs"]
mod page;
#[path = "../examples/strip/screen.rs"]
mod screen;

use board::{Board, shown};
use lines::Row;
use puffwidget::{Event, Side};

fn board(names: &[&[u8]]) -> Board {
    let mut board = Board { last: Some(14), waiting: 2, ..Board::default() };
    board.out[1] = names.iter().map(|name| shown(name)).collect();
    board.tell("line 3: the side is `<up>`, and must be home or away".to_string());
    board
}

/// The text of a page without its tags; every tag is closed in its order, and every `&` begins one of the five names.
fn text_of(page: &str) -> String {
    let (mut text, mut inside, mut rest) = (String::new(), Vec::new(), page.strip_prefix("<!DOCTYPE html>").expect("a doctype"));
    while let Some((before, behind)) = rest.split_once('<') {
        text += before;
        let (tag, behind) = behind.split_once('>').expect("a tag ends");
        let name = tag.trim_start_matches('/').split([' ', '/']).next().unwrap_or("");
        match (tag.starts_with('/'), tag.ends_with('/')) {
            (true, _) => assert_eq!(inside.pop(), Some(name), "in {page}"),
            (false, false) => inside.push(name),
            (false, true) => {}
        }
        assert_eq!(tag.matches('"').count() % 2, 0, "{tag}");
        rest = behind;
    }
    assert!(inside.is_empty() && !text.contains('>'));
    text.match_indices('&').for_each(|(at, _)| {
        assert!(["&amp;", "&lt;", "&gt;", "&quot;", "&#39;"].iter().any(|name| text[at..].starts_with(name)), "{}", &text[at..]);
    });
    text + rest
}

#[test]
fn a_name_comes_out_as_text() {
    let page = page::page(&board(&[b"<b>", b"A&B \"C\" 'D'", b"\x1b[2J\x07\n\xc2\x9b", b"\xff\xfe Zo\xc3\xab", b"</style><script>"]));
    for wanted in [
        "&lt;b&gt;",
        "A&amp;B &quot;C&quot; &#39;D&#39;",
        "?[2J???",
        "\u{fffd}\u{fffd} Zoë",
        "&lt;/style&gt;&lt;script&gt;",
        "`&lt;up&gt;`",
    ] {
        assert!(text_of(&page).contains(wanted), "{wanted}");
    }
    assert!(!page.contains("<b>\n") && !page.contains("<script>") && !page.chars().any(|c| c.is_control() && c != '\n'));
}

#[test]
fn the_page_has_seven_places_a_side_and_asks_for_itself() {
    for count in 0..8 {
        let names: Vec<Vec<u8>> = (0..count).map(|i| vec![b'a' + i; 1 + 9 * i as usize]).collect();
        let page = page::page(&board(&names.iter().map(|name| &name[..]).collect::<Vec<_>>()));
        text_of(&page);
        assert_eq!((page.matches("<li").count(), page.matches("class=\"free\"").count()), (14, 14 - count as usize));
        assert_eq!(page.matches("class=\"next\"").count(), usize::from(count > 0));
        assert!(page.contains("http-equiv=\"refresh\"") && page.contains("2 rows wait") && page.contains("row <b>14</b>"));
    }
}

#[test]
fn a_frame_and_a_line_of_json_show_the_same() {
    let board = board(&[b"Na\"nd\\ini", b"Lata\t"]);
    let frame = screen::frame(&board);
    assert!(frame.starts_with("row 14, waiting 2\nHOME  0 of 7 out\n            1  -\n"), "{frame}");
    assert!(frame.contains("AWAY  2 of 7 out\nnext back > 1  Na\"nd\\ini\n            2  Lata?\n"), "{frame}");
    assert!(frame.ends_with("! line 3: the side is `<up>`, and must be home or away\n"));
    assert!(screen::in_place(&board).starts_with("\x1b[H\x1b[Jrow 14"));
    let wanted = "{\"rows\":4,\"refused\":[{\"line\":7,\"number\":33}],\"last\":14,\"waiting\":2,\"home\":[],\"away\":[\"Na\\\"nd\\\\ini\",\"Lata?\"]}\n";
    assert_eq!(screen::json(&board, 4, &[(7, 33)]), wanted);
}

#[test]
fn a_line_is_a_row_or_says_what_is_wrong() {
    let wanted = Row { number: 14, side: Side::Away, event: Event::Out, name: b"Nandini  Rao".to_vec() };
    assert_eq!(lines::row(b"  14\taway  OUT Nandini  Rao \r"), Ok(Some(wanted)));
    assert_eq!((lines::row(b""), lines::row(b" # half time")), (Ok(None), Ok(None)));
    for (line, fault) in [
        (&b"up home out A"[..], "the row number is `up`, and must be from 0 to 18446744073709551615"),
        (b"18446744073709551616 home out A", "the row number is `18446744073709551616`, and must be from 0 to 18446744073709551615"),
        (b"+1 home out A", "the row number is `+1`, and must be from 0 to 18446744073709551615"),
        (b"1 \x1b[2J out A", "the side is `?[2J`, and must be home or away"),
        (b"1 home", "the event is ``, and must be out or revive"),
        (b"1 home revive", "there is no player's name, and every row has one, a revive too"),
    ] {
        assert_eq!(lines::row(line), Err(fault.to_string()));
    }
}

#[test]
fn long_lines_are_passed_over() {
    let text = [&[b'x'; 1_000][..], b"\n", &[b'y'; 1_001], b"\n\nlast"].concat();
    for room in [1, 7, 1_000, 8_192] {
        let mut input = std::io::BufReader::with_capacity(room, &text[..]);
        let mut next = || lines::next(&mut input).unwrap();
        assert_eq!(next(), Some(Ok(vec![b'x'; 1_000])));
        assert_eq!(next(), Some(Err("the line is longer than 1000 bytes".to_string())));
        assert_eq!((next(), next(), next()), (Some(Ok(vec![])), Some(Ok(b"last".to_vec())), None));
    }
}

#[test]
fn the_page_is_put_in_its_file_whole() {
    let mut board = board(&[]);
    board.see(&puffwidget::Strip::new());
    let file = std::env::temp_dir().join(format!("puffwidget-strip-{}.html", std::process::id()));
    for waiting in [0, 1] {
        board.waiting = waiting;
        page::write(&board, &file).unwrap();
        assert_eq!(std::fs::read_to_string(&file).unwrap(), page::page(&board));
    }
    assert!(page::page(&board).contains("row <b>-</b>") && page::page(&board).contains("1 row waits"));
    std::fs::remove_file(&file).unwrap();
    assert!(page::write(&board, &file.join("no folder")).is_err());
}
