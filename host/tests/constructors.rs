//! Tests of the constructors: what is too short, too large or of the wrong form is refused, by the column's number, before it does harm.

use puffwidget::*;

/// Numbers from a seed.
struct Rng(u64);

impl Rng {
    fn below(&mut self, n: usize) -> usize {
        self.0 ^= self.0 << 13;
        self.0 ^= self.0 >> 7;
        self.0 ^= self.0 << 17;
        (self.0 >> 11) as usize % n
    }
}

/// A column's bytes, and what its rows are.
#[derive(Clone)]
struct Made {
    kind: Kind,
    values: Vec<u8>,
    bitmap: Option<Vec<u8>>,
    first_bit: u32,
    list: Vec<BufferNumber>,
}

fn made(rng: &mut Rng, rows: usize) -> Made {
    let kind = Kind::of(1 + rng.below(19) as u32).unwrap();
    let value = |rng: &mut Rng| match kind.is_view() {
        true => inline_view(&vec![rng.below(256) as u8; rng.below(13)]).unwrap().to_vec(),
        false => (0..kind.width()).map(|_| rng.below(256) as u8).collect(),
    };
    let values = (0..rows).flat_map(|_| value(rng)).collect();
    let first_bit = rng.below(20);
    let bitmap = (rng.below(3) > 0).then(|| (0..(first_bit + rows).div_ceil(8)).map(|_| rng.below(256) as u8).collect::<Vec<u8>>());
    Made { kind, values, first_bit: if bitmap.is_some() { first_bit as u32 } else { 0 }, bitmap, list: vec![] }
}

/// The column has the bytes and bits of so many rows.
fn is_whole(made: &Made, rows: usize) -> bool {
    let bits = made.bitmap.as_ref().is_none_or(|bitmap| 8 * bitmap.len() >= made.first_bit as usize + rows);
    bits && made.values.len() >= rows * made.kind.width()
}

/// The bytes that the rows of a column are to come out with.
fn rows_of(made: &Made, rows: usize) -> Vec<Option<Vec<u8>>> {
    let valid = |i: usize| {
        made.bitmap.as_ref().is_none_or(|bits| bits[(made.first_bit as usize + i) / 8] >> ((made.first_bit as usize + i) % 8) & 1 == 1)
    };
    let value = |i: usize| &made.values[i * made.kind.width()..][..made.kind.width()];
    let shown = |i: usize| if made.kind.is_view() { value(i)[4..4 + value(i)[0] as usize].to_vec() } else { value(i).to_vec() };
    (0..rows).map(|i| valid(i).then(|| shown(i))).collect()
}

fn batch(rows: usize, all: &[Made]) -> Result<Batch, Error> {
    Batch::new(rows as u32, &all.iter().map(column_of).collect::<Vec<_>>())
}

fn column_of(made: &Made) -> Column<'_> {
    let validity = made.bitmap.as_ref().map(|bitmap| Validity { bitmap, first_bit: made.first_bit });
    Column { kind: made.kind, values: &made.values, validity, buffers: &made.list }
}

/// The column made wrong in one of nine ways.
fn spoil(rng: &mut Rng, made: &mut Made) {
    let shorter = |rng: &mut Rng, bytes: &mut Vec<u8>| {
        let left = if rng.below(2) == 0 { bytes.len().saturating_sub(1) } else { rng.below(bytes.len() + 1) };
        bytes.truncate(left);
    };
    match rng.below(9) {
        0 | 1 => shorter(rng, &mut made.values),
        2 | 3 => made.bitmap.iter_mut().for_each(|bitmap| shorter(rng, bitmap)),
        4 => made.first_bit = [made.first_bit + 8, 1_000, u32::MAX][rng.below(3)],
        5 => made.values.extend([0xee; 40]),
        6 => made.bitmap.iter_mut().for_each(|bitmap| bitmap.extend([0xee; 5])),
        7 => made.kind = Kind::of(1 + rng.below(19) as u32).unwrap(),
        _ => made.list = vec![BufferNumber(rng.below(3) as u32); 1 + rng.below(3)],
    }
}

/// Pushed between two good batches: the rows that come out of the three.
fn pushed(kinds: &[Kind], before: &Batch, batch: &Batch) -> Result<CompletedBatch, Refusal> {
    let set_up = SetUp { rows: 128, queue: 1, lists: 4, numbers: 4, pool: 0, ..SetUp::new(kinds, 128) };
    let mut coalescer = BatchCoalescer::new(&set_up).unwrap();
    coalescer.push_batch(before).unwrap();
    coalescer.push_batch(batch)?;
    coalescer.push_batch(before).unwrap();
    coalescer.finish_buffered_batch().unwrap();
    Ok(coalescer.next_completed_batch().unwrap().expect("rows were pushed"))
}

/// 10,000 batches, every column wrong in turn. Each is refused, by that column's number where the constructor does it; or the rows that
/// come out are the rows that went in, and those of the batches around it too.
#[test]
fn a_column_that_is_wrong_is_refused_or_its_rows_come_out() {
    let (mut rng, mut told, mut refused, mut taken) = (Rng(0x9e37_79b9_7f4a_7c15), 0, 0, 0);
    for _ in 0..10_000 {
        let rows = 1 + rng.below(40);
        let all: Vec<Made> = (0..1 + rng.below(5)).map(|_| made(&mut rng, rows)).collect();
        let kinds: Vec<Kind> = all.iter().map(|made| made.kind).collect();
        let good = batch(rows, &all).unwrap();
        for wrong in 0..all.len() {
            let mut spoilt = all.clone();
            spoil(&mut rng, &mut spoilt[wrong]);
            let batch = match batch(rows, &spoilt) {
                Err(Error::Column { column, .. }) => {
                    assert_eq!(column, wrong);
                    told += 1;
                    continue;
                }
                other => other.unwrap(),
            };
            let Ok(out) = pushed(&kinds, &good, &batch) else {
                refused += 1;
                continue;
            };
            taken += 1;
            assert!(is_whole(&spoilt[wrong], rows), "column {wrong} of {kinds:?} is short, and was pushed");
            for (c, column) in out.columns().iter().enumerate() {
                let (around, between) = (rows_of(&all[c], rows), rows_of(&spoilt[c], rows));
                let wanted = around.iter().chain(&between).chain(&around).map(Option::as_deref);
                assert!(column.bytes().eq(wanted), "column {c} of {kinds:?} with column {wrong} wrong");
            }
        }
    }
    println!("{told} refused by the constructor, {refused} by the push, {taken} pushed");
    assert!(told > 5_000 && refused > 2_000 && taken > 5_000);
}

/// The two that were seen: 3 rows of 2 values beside another column, and 9 rows of 8 bits.
#[test]
fn a_short_column_does_not_read_on_into_the_next() {
    let column = |values| Column { kind: Kind::UInt8, values, validity: None, buffers: &[] };
    let short = Batch::new(3, &[column(&[1, 2]), column(&[70, 80, 90])]);
    assert_eq!(short, Err(Error::Column { column: 0, fault: ColumnFault::ShortValues { bytes: 2, wanted: 3 } }));
    let nulls = Column { validity: Some(Validity { bitmap: &[0xff], first_bit: 0 }), ..column(&[7; 9]) };
    let short = Batch::new(9, &[column(&[1; 9]), nulls, column(&[0; 9])]);
    assert_eq!(short, Err(Error::Column { column: 1, fault: ColumnFault::ShortBitmap { bits: 8, wanted: 9 } }));
    assert_eq!(Batch::new(0, &[column(&[]), nulls]).map(|batch| batch.rows()), Ok(0)); // no rows want no bytes
    assert_eq!(Batch::new(1, &[column(&[1]); 17]), Err(Error::TooManyColumns { columns: 17 }));
}

#[test]
fn a_view_of_the_wrong_form_is_refused() {
    assert_eq!(inline_view(&[b'a'; 13]), Err(Error::View(ViewFault::NotInline)));
    assert_eq!(inline_view(b"Asha").unwrap(), *b"\x04\0\0\0Asha\0\0\0\0\0\0\0\0");
    let text = [b'a'; 40];
    assert_eq!(long_view(&text, 0, 0, 12), Err(Error::View(ViewFault::Inline)));
    for (offset, length) in [(0, 41), (28, 13), (41, 13), (usize::MAX, 13), (13, usize::MAX)] {
        assert_eq!(long_view(&text, 0, offset, length), Err(Error::View(ViewFault::OutsideBuffer)));
    }
    assert_eq!(long_view(&text, 2, 27, 13).unwrap(), *b"\x0d\0\0\0aaaa\x02\0\0\0\x1b\0\0\0");
}

/// A number of a set-up.
type Place = fn(&mut SetUp) -> &mut u32;

/// Every bound from both sides, and both far outside, before any memory is taken.
#[test]
fn set_up_outside_its_bounds_is_refused_by_name() {
    let good = SetUp { rows: 10, queue: 1, lists: 1, numbers: 1, pool: 0, ..SetUp::new(&[Kind::UInt8], 10) };
    let change: [(&str, Place, u32, u32); 5] = [
        ("target", |s| &mut s.target, 1, 10),
        ("rows", |s| &mut s.rows, 10, 65_536),
        ("queue", |s| &mut s.queue, 1, 1_024),
        ("lists", |s| &mut s.lists, 1, 1_024),
        ("numbers", |s| &mut s.numbers, 1, 65_536),
    ];
    for (name, place, least, most) in change {
        for value in [least, most] {
            let mut set_up = good.clone();
            *place(&mut set_up) = value;
            assert!(BatchCoalescer::new(&set_up).is_ok(), "{name} {value}");
        }
        for value in [least - 1, most + 1, u32::MAX] {
            let mut set_up = good.clone();
            *place(&mut set_up) = value;
            let error = BatchCoalescer::new(&set_up).unwrap_err();
            assert_eq!(error.number(), Some(1));
            // a target over the rows is told of the rows, or of itself past its own bound
            assert!(error.to_string().contains(name) || name == "target" && error.to_string().contains("`rows`"), "{error}");
        }
    }
    let columns = SetUp { kinds: vec![Kind::UInt8; 17], ..good };
    assert_eq!(BatchCoalescer::new(&columns).unwrap_err(), Error::SetUp { field: "kinds", is: 17, least: 0, most: 16 });
    let large = BatchCoalescer::new(&SetUp::new(&[Kind::Decimal256; 16], 100_000_000)).unwrap_err();
    assert_eq!(large, Error::SetUp { field: "target", is: 100_000_000, least: 1, most: 65_536 });
}

#[test]
fn memory_that_the_machine_does_not_give_is_an_error() {
    let bytes = isize::MAX as usize;
    assert_eq!(Memory::of(bytes, 0, 0), Err(Error::NoMemory { bytes }));
    assert_eq!(Memory::of(0, usize::MAX, 0), Err(Error::NoMemory { bytes: usize::MAX }));
}

#[test]
fn what_is_shown_for_debugging_is_counts() {
    let mut coalescer = BatchCoalescer::new(&SetUp::new(&[Kind::UInt64, Kind::Utf8View], 1)).unwrap();
    let (numbers, names) = (UInt64Column::from_values(0..8), StringColumn::from_values([&"a".repeat(5_000); 8]));
    coalescer.push(&[&numbers, &names]).unwrap();
    assert!(format!("{coalescer:?}").len() < 300);
    let batch = coalescer.next_completed_batch().unwrap().unwrap();
    assert!(format!("{batch:?} {numbers:?} {names:?} {:?}", Batch::default()).len() < 500);
}

#[test]
fn what_is_lent_and_a_set_up_are_shown_by_counts() {
    let (values, bitmap, buffers) = (vec![7; 1 << 20], vec![0xff; 1 << 17], vec![BufferNumber(u32::MAX); 1 << 16]);
    let validity = Validity { bitmap: &bitmap, first_bit: u32::MAX };
    let column = Column { kind: Kind::Decimal128, values: &values, validity: Some(validity), buffers: &buffers };
    let most = u32::MAX;
    let kinds = vec![Kind::Decimal256; 1 << 16];
    let set_up = SetUp { kinds, target: most, rows: most, queue: most, lists: most, numbers: most, pool: most };
    for shown in [format!("{validity:?}"), format!("{column:?}"), format!("{set_up:?}")] {
        assert!(shown.len() < 300, "{} bytes", shown.len());
    }
    assert_eq!(format!("{validity:?}"), "Validity { bitmap_bytes: 131072, first_bit: 4294967295 }");
    assert!(format!("{column:?}").starts_with("Column { kind: Decimal128, values_bytes: 1048576, validity: Some("));
    assert!(format!("{set_up:?}").starts_with("SetUp { columns: 65536, target: 4294967295,"));
}

/// `fn main() -> Result<(), Error>` prints the error for debugging.
#[test]
fn an_error_is_shown_by_its_sentence() {
    let errors = [Error::Refused(Refusal::QueueFull), Error::NoMemory { bytes: 9 }, Error::View(ViewFault::Inline)];
    for error in errors {
        assert_eq!(format!("{error:?}"), error.to_string());
    }
    assert!(format!("{:?}", errors[0]).starts_with("refused (9): the queue is full; "));
}

/// 0 rows are done, whatever the columns are (01, step 1).
#[test]
fn a_push_of_no_rows_is_done() {
    let mut coalescer = BatchCoalescer::new(&SetUp::new(&[Kind::UInt64], 4)).unwrap();
    assert_eq!(coalescer.push(&[]), Ok(()));
    assert_eq!(coalescer.push(&[&StringColumn::new(), &UInt8Column::new()]), Ok(()));
    assert!(coalescer.is_empty());
}

/// A number that was let go is given anew.
#[test]
fn a_number_is_the_callers_until_it_is_let_go() {
    let mut coalescer = BatchCoalescer::new(&SetUp::new(&[Kind::Utf8View], 4)).unwrap();
    let first = coalescer.register_buffer(b"Asha", 4).unwrap();
    coalescer.let_go(first).unwrap();
    let second = coalescer.register_buffer(b"Lata", 4).unwrap();
    assert_eq!(first, second);
    assert_eq!(coalescer.read_buffer(first).unwrap(), b"Lata");
}
