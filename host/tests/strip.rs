//! Tests of the strip: names by side, refusals by their numbers, other columns, a strip kept as bytes.

use puffwidget::*;

fn court(target: u32) -> BatchCoalescer {
    BatchCoalescer::new(&SetUp::new(&Strip::KINDS, target)).unwrap()
}

/// Rows pushed at once and taken by the strip: the number of each.
fn numbers(strip: &mut Strip, rows: &[(u64, Side, Event, &[u8])]) -> Vec<u8> {
    let mut coalescer = court(rows.len() as u32);
    let mut gathered = MatchRows::new();
    rows.iter().for_each(|(number, side, event, name)| gathered.push(*number, *side, *event, name));
    coalescer.push(&gathered.columns()).unwrap();
    let taken = strip.take_batch(&mut coalescer).unwrap().unwrap();
    assert!(coalescer.is_empty());
    assert_eq!(taken.num_rows(), rows.len());
    taken.numbers().to_vec()
}

#[test]
fn who_is_out_longest_comes_back_first() {
    use {Event::*, Side::*};
    let mut strip = Strip::new();
    let rows: [(u64, Side, Event, &[u8]); 6] = [
        (1, Home, Out, b"Asha"),
        (2, Home, Out, b"Chitralekha Rao"),
        (3, Away, Out, b"Asha"),
        (4, Home, Out, b"Asha"),
        (5, Home, Revive, b"whoever"),
        (6, Home, Out, b"Asha"),
    ];
    assert_eq!(numbers(&mut strip, &rows), [0, 0, 0, 35, 0, 0]);
    assert!(strip.texts(Home).eq(["Chitralekha Rao", "Asha"]));
    assert!(strip.out(Away).eq([b"Asha"]));
    assert_eq!(strip.last(), Some(6));
    assert_eq!(format!("{strip:?}"), "Strip { home_out: 2, away_out: 1, last: Some(6) }");
}

#[test]
fn a_refused_row_changes_nothing_and_the_next_is_read() {
    use {Event::*, Side::*};
    let mut strip = Strip::new();
    assert_eq!((strip.last(), strip.out(Home).len(), strip.bytes() == &[0; 972]), (None, 0, true));
    let long = [b'n'; 65];
    let rows: [(u64, Side, Event, &[u8]); 6] = [
        (9, Home, Revive, b"A"),
        (0, Home, Out, &long[..64]),
        (0, Away, Out, b"B"),
        (1, Away, Out, &long),
        (1, Away, Out, b""),
        (1, Away, Out, b"\xff\0"),
    ];
    assert_eq!(numbers(&mut strip, &rows), [34, 0, 32, 31, 31, 0]);
    assert!(strip.out(Home).eq([&long[..64]]));
    assert!(strip.out(Away).eq([b"\xff\0"]));
    assert!(strip.texts(Away).eq(["\u{fffd}\0"]));
    for number in 2..8 {
        assert_eq!(numbers(&mut strip, &[(number, Home, Out, &[number as u8])]), [0]);
    }
    let seven = strip.clone();
    assert_eq!(numbers(&mut strip, &[(8, Home, Out, b"eighth"), (u64::MAX - 1, Home, Out, b"eighth")]), [33, 33]);
    assert_eq!((strip == seven, strip.out(Home).len(), strip.last()), (true, 7, Some(7)));
    assert_eq!(numbers(&mut strip, &[(u64::MAX, Home, Revive, b"x"), (u64::MAX, Home, Revive, b"x")]), [0, 32]);
}

#[test]
fn rows_come_with_their_answers() {
    let mut coalescer = court(2);
    let sides = UInt8Column::from_iter([Some(1), None]);
    let events = UInt8Column::from_values([1, 1]);
    coalescer.push(&[&UInt64Column::from_values([5, 6]), &sides, &events, &StringColumn::from_values(["Asha", "Lata"])]).unwrap();
    let mut strip = Strip::new();
    let read = strip.clone().read_batch(&coalescer).unwrap().unwrap();
    let (batch, taken) = strip.take_rows(&mut coalescer).unwrap().unwrap();
    assert!(batch.column(3).unwrap().texts().unwrap().eq([Some("Asha".into()), Some("Lata".into())]));
    assert!(taken.rows().eq([Ok(()), Err(RowRefusal::OutOfRange)]));
    assert_eq!((taken.accepted(), taken.refused().next(), read == taken), (1, Some((1, RowRefusal::OutOfRange)), true));
    assert_eq!(format!("{taken:?}"), "Taken { rows: 2, accepted: 1 }");
    assert_eq!((strip.take_batch(&mut coalescer), strip.take_rows(&mut coalescer)), (Ok(None), Ok(None)));
}

/// A batch whose numbers rise can be read twice; one with a refused row ahead of the others can't, and so a strip takes.
#[test]
fn a_batch_read_twice_is_read_twice() {
    for (first, left) in [(5, vec![&b"Asha"[..]]), (9, vec![])] {
        let (mut coalescer, mut strip, mut rows) = (court(2), Strip::new(), MatchRows::new());
        rows.push(first, Side::Home, Event::Revive, "nobody is out");
        rows.push(6, Side::Home, Event::Out, "Asha");
        coalescer.push(&rows.columns()).unwrap();
        assert_eq!(strip.read_batch(&coalescer).unwrap().unwrap().numbers(), [34, 0]);
        assert!(strip.out(Side::Home).eq([b"Asha"]));
        strip.take_batch(&mut coalescer).unwrap().unwrap();
        assert!(strip.out(Side::Home).eq(left), "the first row is {first}");
    }
}

#[test]
fn a_batch_of_other_columns_is_refused_and_stays() {
    let mut strip = Strip::new();
    let mut coalescer = BatchCoalescer::new(&SetUp::new(&[Kind::UInt64, Kind::UInt8, Kind::UInt8, Kind::BinaryView], 1)).unwrap();
    let ones = UInt8Column::from_values([1]);
    coalescer.push(&[&UInt64Column::from_values([1]), &ones, &ones, &BinaryColumn::from_values([b"Asha"])]).unwrap();
    let before = coalescer.memory().clone();
    assert_eq!(strip.take_batch(&mut coalescer), Err(Error::Refused(Refusal::OtherColumns)));
    assert_eq!(strip.read_batch(&coalescer), Err(Error::Refused(Refusal::OtherColumns)));
    assert!(*coalescer.memory() == before && strip == Strip::new());
    assert_eq!(Refusal::OtherColumns.number(), 30);
}

#[test]
fn a_strip_is_kept_as_its_bytes() {
    let mut strip = Strip::new();
    numbers(&mut strip, &[(3, Side::Away, Event::Out, b"Gurpreet Kaur Bhullar")]);
    assert_eq!(Strip::from_bytes(strip.bytes()).as_ref(), Ok(&strip));
    let mut eight = *strip.bytes();
    eight[12] = 8;
    assert_eq!(Strip::from_bytes(&eight), Err(Error::Refused(Refusal::State)));
    assert_eq!(Strip::from_bytes(&eight[..971]), Err(Error::Refused(Refusal::SetUp)));
    assert_eq!(Strip::from_bytes(&[]), Err(Error::Refused(Refusal::SetUp)));
}

#[test]
fn each_refusal_of_a_row_has_its_number_and_says_what_happened_and_what_to_do() {
    assert!(RowRefusal::all().map(RowRefusal::number).eq(31..=35));
    for refusal in RowRefusal::all() {
        assert_eq!(RowRefusal::of(refusal.number()), refusal);
        assert_eq!(refusal.to_string(), format!("refused ({}): {}; {}", refusal.number(), refusal.happened(), refusal.remedy()));
    }
    assert_eq!((RowRefusal::of(36), RowRefusal::of(36).number()), (RowRefusal::Unknown(36), 36));
    assert!(RowRefusal::of(0).to_string().starts_with("refused (0): a number that"));
}
