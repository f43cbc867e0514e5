//! Tests of the wrapper: names, refusals by their numbers, limits, nulls, buffers let go, batches in order.

use puffwidget::*;

fn column<'a>(kind: Kind, values: &'a [u8], buffers: &'a [BufferNumber]) -> Column<'a> {
    Column { kind, values, validity: None, buffers }
}

fn bytes(values: &[u8]) -> Batch {
    Batch::new(values.len() as u32, &[column(Kind::UInt8, values, &[])]).unwrap()
}

fn first_column(batch: &CompletedBatch) -> Vec<u8> {
    batch.column(0).unwrap().u8s().unwrap().map(Option::unwrap).collect()
}

#[test]
fn a_large_batch_goes_behind_the_buffered_rows() {
    let set_up = SetUp::new(&[Kind::UInt8], 8);
    let mut coalescer = BatchCoalescer::new(&set_up).unwrap().with_biggest_coalesce_batch_size(Some(2));
    assert_eq!(coalescer.biggest_coalesce_batch_size(), Some(2));
    for rows in [&[1, 2][..], &[3, 4, 5], &[6, 7, 8]] {
        coalescer.push_batch(&bytes(rows)).unwrap();
    }
    let first = coalescer.next_completed_batch().unwrap().unwrap();
    let second = coalescer.next_completed_batch().unwrap().unwrap();
    assert_eq!((first_column(&first), first_column(&second)), (vec![1, 2, 3, 4, 5], vec![6, 7, 8]));
    assert!(coalescer.is_empty());
}

#[test]
fn each_refusal_has_its_number_and_says_what_happened_and_what_to_do() {
    assert!(Refusal::all().map(Refusal::number).eq((1..=14).chain([30])));
    for refusal in Refusal::all() {
        assert_eq!(Refusal::of(refusal.number()), refusal);
        assert_eq!(refusal.to_string(), format!("refused ({}): {}; {}", refusal.number(), refusal.happened(), refusal.remedy()));
    }
    for number in [0, 4_000, u32::MAX] {
        assert_eq!((Refusal::of(number), Refusal::of(number).number()), (Refusal::Unknown(number), number));
        assert!(Refusal::of(number).to_string().starts_with(&format!("refused ({number}): a number that")));
    }
}

#[test]
fn a_refused_push_changes_nothing() {
    let mut coalescer = BatchCoalescer::new(&SetUp::new(&[Kind::UInt8], 4)).unwrap();
    coalescer.push_batch(&bytes(&[1])).unwrap();
    let before = coalescer.memory().clone();
    let (batch, mut memory) = (bytes(&[2, 3]), before.clone());
    assert_eq!(memory.push_batch(batch.records(), &batch.body()[..1], 2), Err(Refusal::OutsideBody.number()));
    assert!(memory == before);
    let other = Batch::new(2, &[column(Kind::Int8, &[2, 3], &[])]).unwrap();
    assert_eq!(coalescer.push_batch(&other), Err(Refusal::Record));
    let listed = Batch::new(1, &[column(Kind::UInt8, &[2], &[BufferNumber(5)])]).unwrap();
    assert_eq!(coalescer.push_batch(&listed), Err(Refusal::Record));
    assert!(*coalescer.memory() == before);
}

/// No byte is damaged: only the state is an older one of the same court, whose open block was freed since.
#[test]
fn a_push_with_an_older_state_is_refused_and_changes_nothing() {
    let text = [b'A'; 5_000];
    let set_up = SetUp { rows: 8, queue: 2, lists: 8, numbers: 8, pool: 18_293, ..SetUp::new(&[Kind::Utf8View; 2], 8) };
    let mut coalescer = BatchCoalescer::new(&set_up).unwrap();
    let held = [coalescer.register_buffer(&text, 10_001).unwrap()];
    let (long, short) = (long_view(&text, 0, 0, 5_000).unwrap(), inline_view(b"a").unwrap());
    let batch = Batch::new(1, &[column(Kind::Utf8View, &short, &[]), column(Kind::Utf8View, &long, &held)]).unwrap();
    coalescer.push_batch(&batch).unwrap();
    let older = coalescer.memory().state.clone(); // its second column has a block open
    coalescer.finish_buffered_batch().unwrap();
    coalescer.next_completed_batch().unwrap();
    coalescer.register_buffer(&[], 0).unwrap(); // takes the number of the block that is free now
    coalescer.register_buffer(&[], 0).unwrap();
    coalescer.let_go(BufferNumber(1)).unwrap();
    let names = [b"Asha".as_slice(), b"Bhavani", b"Chitra"];
    let views = names.map(|name| inline_view(name).unwrap()).concat();
    let batch = Batch::new(3, &[column(Kind::Utf8View, &views, &[]), column(Kind::Utf8View, &views, &[])]).unwrap();
    coalescer.push_batch(&batch).unwrap();
    coalescer.finish_buffered_batch().unwrap();
    let mut memory = Memory { state: older, ..coalescer.memory().clone() };
    let before = memory.clone();
    let batch = Batch::new(1, &[column(Kind::Utf8View, &long, &held), column(Kind::Utf8View, &long, &held)]).unwrap();
    assert_eq!(memory.push_batch(batch.records(), batch.body(), 1), Err(14));
    assert!(memory == before);
    let taken = coalescer.next_completed_batch().unwrap().unwrap();
    for column in taken.columns() {
        assert!(column.strings().unwrap().eq(names.map(Some)));
    }
}

#[test]
fn nulls_and_long_names_come_back() {
    let names = b"Gurpreet Kaur BhullarHarini Subramanian";
    let mut coalescer = BatchCoalescer::new(&SetUp::new(&[Kind::Utf8View], 3)).unwrap();
    let number = coalescer.register_buffer(names, 4_000).unwrap();
    let views = [long_view(names, 0, 0, 21), inline_view(b"none"), long_view(names, 0, 21, 18)].map(Result::unwrap).concat();
    let validity = Some(Validity { bitmap: &[0b1010_0000], first_bit: 5 });
    let column = Column { kind: Kind::Utf8View, values: &views, validity, buffers: &[number] };
    coalescer.push_batch(&Batch::new(3, &[column]).unwrap()).unwrap();
    coalescer.let_go(number).unwrap();
    coalescer.register_buffer(b"somebody else's name, in the room that was freed", 48).unwrap();
    let batch = coalescer.next_completed_batch().unwrap().unwrap();
    assert!(batch.column(0).unwrap().strings().unwrap().eq([Some(&names[..21]), None, Some(&names[21..])]));
}

#[test]
fn a_full_queue_refuses_and_a_taken_batch_makes_room() {
    let set_up = SetUp { queue: 1, ..SetUp::new(&[Kind::UInt8], 1) };
    let mut coalescer = BatchCoalescer::new(&set_up).unwrap();
    coalescer.push_batch(&bytes(&[1])).unwrap();
    assert_eq!(coalescer.push_batch(&bytes(&[2])), Err(Refusal::QueueFull));
    assert_eq!(coalescer.next_completed_batch().unwrap().unwrap().num_rows(), 1);
    coalescer.push_batch(&bytes(&[2])).unwrap();
    assert_eq!(first_column(&coalescer.next_completed_batch().unwrap().unwrap()), [2]);
    assert_eq!(coalescer.next_completed_batch(), Ok(None));
}

#[test]
fn a_buffer_reads_back_until_nothing_holds_it() {
    let mut coalescer = BatchCoalescer::new(&SetUp::new(&[Kind::Utf8View], 3)).unwrap();
    let number = coalescer.register_buffer(b"Nandini", 40).unwrap();
    assert_eq!(coalescer.read_buffer(number).unwrap(), b"Nandini");
    coalescer.let_go(number).unwrap();
    assert_eq!(coalescer.read_buffer(number), Err(Refusal::NotThere));
}

/// 01: "Every call after set-up tests 1, then 14"; the limit, its setter and the counts "work on the state alone and refuse nothing".
#[test]
fn bytes_that_code_no_state_are_1_then_14_and_their_limit_can_be_set() {
    // one column of a byte a row: T 3, R 5, Q 1, B 1, N 1
    let mut memory = Memory::of(2 * (5 + 1), 0, 4 + 20 + 4 * 2 * 2).unwrap();
    memory.set_up(&1u32.to_le_bytes(), 3, 5, 1, 1, 1).unwrap();
    (memory.state[28], memory.state[56]) = (2, 2); // the flags of the limit and of the column's open block
    let mut longer = memory.clone();
    longer.slots.push(0);
    assert_eq!((longer.finish_buffered_batch(), longer.next_completed_batch(), longer.let_go(0)), (Err(1), Err(1), Err(1)));
    assert_eq!((memory.finish_buffered_batch(), memory.next_completed_batch(), memory.let_go(0)), (Err(14), Err(14), Err(14)));
    let mut wanted = memory.state.clone();
    wanted[28..36].copy_from_slice(&[1, 0, 0, 0, 7, 0, 0, 0]);
    assert_eq!((memory.biggest_coalesce_batch_size(), memory.set_biggest_coalesce_batch_size(Some(7))), (Some(0), Ok(())));
    assert_eq!((memory.state == wanted, memory.biggest_coalesce_batch_size(), memory.is_empty()), (true, Some(7), true));
    assert_eq!(memory.finish_buffered_batch(), Err(14)); // the open block's flag is as it was
}
