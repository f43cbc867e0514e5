//! Tests of typed columns: what is pushed by type comes out by type, strings register and let go by themselves.

use puffwidget::*;

/// Rows of one plain kind, every third null, pushed in three batches and taken whole.
fn there_and_back<K: Primitive>(value: impl Fn(u8) -> K::Value) {
    let rows: Vec<Option<K::Value>> = (0..30).map(|i| (i % 3 != 1).then(|| value(i))).collect();
    let set_up = SetUp { rows: 30, queue: 1, lists: 1, numbers: 1, pool: 0, ..SetUp::new(&[K::KIND], 30) };
    let mut coalescer = BatchCoalescer::new(&set_up).unwrap();
    for part in [&rows[..1], &rows[1..12], &rows[12..]] {
        coalescer.push(&[&PrimitiveColumn::<K>::from_iter(part.iter().copied())]).unwrap();
    }
    let batch = coalescer.next_completed_batch().unwrap().unwrap();
    let column = batch.column(0).unwrap();
    assert!(column.typed::<K>().unwrap().eq(rows.iter().copied()), "{:?}", K::KIND);
    assert_eq!((column.kind(), column.num_rows(), column.null_count()), (K::KIND, 30, 10));
    assert_eq!((column.row(0).flatten(), column.row(1), column.row(30)), (Some(K::bytes(value(0)).as_ref()), Some(None), None));
}

#[test]
fn every_plain_kind_comes_back() {
    there_and_back::<kinds::Int8>(|i| -(i as i8));
    there_and_back::<kinds::Int16>(|i| i16::MIN + i as i16);
    there_and_back::<kinds::Int32>(|i| i32::MIN + i as i32);
    there_and_back::<kinds::Int64>(|i| i64::MIN + i as i64);
    there_and_back::<kinds::UInt8>(|i| 255 - i);
    there_and_back::<kinds::UInt16>(|i| u16::MAX - i as u16);
    there_and_back::<kinds::UInt32>(|i| u32::MAX - i as u32);
    there_and_back::<kinds::UInt64>(|i| u64::MAX - i as u64);
    there_and_back::<kinds::Float16>(|i| 0x3c00 + i as u16);
    there_and_back::<kinds::Float32>(|i| i as f32 / 7.0);
    there_and_back::<kinds::Float64>(|i| -(i as f64) / 7.0);
    there_and_back::<kinds::Date32>(|i| 20_000 + i as i32);
    there_and_back::<kinds::Date64>(|i| 86_400_000 * i as i64);
    there_and_back::<kinds::Timestamp>(|i| 1_700_000_000 + i as i64);
    there_and_back::<kinds::Duration>(|i| -30 * i as i64);
    there_and_back::<kinds::Decimal128>(|i| i128::MIN + i as i128);
    there_and_back::<kinds::Decimal256>(|i| [i; 32]);
}

#[test]
fn strings_register_and_let_go_by_themselves() {
    let set_up = SetUp { lists: 4, numbers: 12, ..SetUp::new(&[Kind::Utf8View, Kind::BinaryView], 2_000) };
    let mut coalescer = BatchCoalescer::new(&set_up).unwrap();
    let name = |i: usize| (i % 5 != 0).then(|| "x".repeat(i % 40) + &i.to_string());
    let bytes = |i: usize| (i % 7 != 0).then(|| vec![i as u8; i % 30]);
    for i in (0..2_000).step_by(10) {
        // 200 pushes, and lists of 4 buffers: the port gathers the strings in blocks
        coalescer.push(&[&StringColumn::from_iter((i..i + 10).map(name)), &BinaryColumn::from_iter((i..i + 10).map(bytes))]).unwrap();
    }
    let batch = coalescer.next_completed_batch().unwrap().unwrap();
    assert!(batch.column(0).unwrap().texts().unwrap().eq((0..2_000).map(|i| name(i).map(Into::into))));
    assert!(batch.column(1).unwrap().strings().unwrap().map(|row| row.map(<[u8]>::to_vec)).eq((0..2_000).map(bytes)));
    assert!(layout::Reader::new(coalescer.memory()).live().next().is_none());
}

#[test]
fn a_column_of_over_1_mib_of_strings_is_listed_as_it_is() {
    let mut coalescer = BatchCoalescer::new(&SetUp::new(&[Kind::Utf8View], 3)).unwrap();
    let names = [Some("n".repeat(1 << 20)), None, Some("another long name".to_string())];
    coalescer.push(&[&StringColumn::from_iter(names.iter().map(Option::as_ref))]).unwrap();
    let batch = coalescer.next_completed_batch().unwrap().unwrap();
    assert!(batch.column(0).unwrap().texts().unwrap().eq(names.iter().map(|name| name.as_deref().map(Into::into))));
    assert_eq!(batch.column(0).unwrap().buffers().map(<[u8]>::len).collect::<Vec<_>>(), [(1 << 20) + 17]);
    assert!(layout::Reader::new(coalescer.memory()).live().next().is_none());
}

#[test]
fn a_refused_push_of_strings_leaves_no_buffer_behind() {
    let set_up = SetUp { queue: 1, ..SetUp::new(&[Kind::Utf8View, Kind::Utf8View], 1) };
    let mut coalescer = BatchCoalescer::new(&set_up).unwrap();
    let name = StringColumn::from_values(["Chitralekha Rao Deshpande"]);
    coalescer.push(&[&name, &name]).unwrap();
    let live = layout::Reader::new(coalescer.memory()).live().count();
    assert_eq!(coalescer.push(&[&name, &name]), Err(Error::Refused(Refusal::QueueFull)));
    assert_eq!(coalescer.push(&[&name]), Err(Error::Refused(Refusal::RecordBytes)));
    assert_eq!(coalescer.push(&[&name, &UInt8Column::from_values([1])]), Err(Error::Refused(Refusal::Record)));
    let long = StringColumn::from_values(["n".repeat(9 << 20)]);
    assert_eq!(coalescer.push(&[&long, &long]), Err(Error::Refused(Refusal::NoRoom)));
    let two = StringColumn::from_values(["a", "b"]);
    let uneven = Error::Column { column: 1, fault: ColumnFault::Rows { rows: 2, wanted: 1 } };
    assert_eq!(coalescer.push(&[&name, &two]), Err(uneven));
    assert_eq!(layout::Reader::new(coalescer.memory()).live().count(), live);
    assert_eq!((coalescer.get_buffered_rows(), coalescer.has_completed_batch()), (0, true));
}

#[test]
fn a_column_is_read_as_its_own_kind_only() {
    let mut coalescer = BatchCoalescer::new(&SetUp::new(&[Kind::Int32], 1)).unwrap();
    coalescer.push(&[&Int32Column::from_values([-5])]).unwrap();
    let batch = coalescer.next_completed_batch().unwrap().unwrap();
    let column = batch.column(0).unwrap();
    assert!(column.i32s().unwrap().eq([Some(-5)]));
    let wrong = |asked| Some(Error::WrongKind { is: Kind::Int32, asked });
    assert_eq!((column.u32s().err(), column.strings().err()), (wrong(Kind::UInt32), wrong(Kind::Utf8View)));
    assert_eq!(column.typed::<kinds::Date32>().err(), wrong(Kind::Date32));
    assert_eq!(batch.column(1).err(), Some(Error::NoColumn { column: 1, columns: 1 }));
}

/// What comes out by column is what `read_row` answers, cell by cell.
#[test]
fn a_batch_by_column_is_what_reading_its_rows_answers() {
    let mut coalescer = BatchCoalescer::new(&SetUp::new(&[Kind::UInt16, Kind::Utf8View], 40)).unwrap();
    let name = |i: usize| (i % 4 != 2).then(|| "Meenakshi Iyer "[..i % 16].repeat(1 + i % 3));
    for i in (0..80).step_by(16) {
        let numbers = UInt16Column::from_iter((i..i + 16).map(|i| (i % 3 > 0).then_some(i as u16)));
        coalescer.push(&[&numbers, &StringColumn::from_iter((i..i + 16).map(name))]).unwrap();
    }
    for _ in 0..2 {
        let memory = coalescer.memory().clone();
        let batch = coalescer.next_completed_batch().unwrap().unwrap();
        for (c, column) in batch.columns().iter().enumerate() {
            for row in 0..40 {
                let wanted = match memory.read_row(c as u32, row as u32).unwrap() {
                    RowAnswer::Null => None,
                    RowAnswer::InRow { start, length } => Some(memory.slots[start as usize..][..length as usize].to_vec()),
                    RowAnswer::InBuffer { number, offset, length } => {
                        Some(layout::Reader::new(&memory).buffer(number)[offset as usize..][..length as usize].to_vec())
                    }
                };
                assert_eq!(column.row(row), Some(wanted.as_deref()));
            }
        }
    }
    assert!(coalescer.is_empty());
}

/// Lists that name the same buffers, one of them twice: each column reads its own places, also when the batch is gone.
#[test]
fn columns_that_list_the_same_buffers_read_their_own_places() {
    let (one, two) = (&b"Gurpreet Kaur Bhullar"[..], &b"Harini Subramanian"[..]);
    let set_up = SetUp::new(&[Kind::Utf8View, Kind::UInt8, Kind::BinaryView], 8);
    let mut coalescer = BatchCoalescer::new(&set_up).unwrap().with_biggest_coalesce_batch_size(Some(1));
    let [a, b] = [one, two].map(|bytes| coalescer.register_buffer(bytes, bytes.len() as u32).unwrap());
    let lists = ([b, a, a], [a, b]);
    let names = [long_view(two, 0, 0, 18), long_view(one, 1, 0, 21), long_view(one, 2, 5, 16)].map(Result::unwrap).concat();
    let bytes = [long_view(one, 0, 0, 21), inline_view(b"none"), long_view(two, 1, 0, 18)].map(Result::unwrap).concat();
    let columns = [
        Column { kind: Kind::Utf8View, values: &names, validity: None, buffers: &lists.0 },
        Column { kind: Kind::UInt8, values: &[7, 8, 9], validity: None, buffers: &[] },
        Column { kind: Kind::BinaryView, values: &bytes, validity: None, buffers: &lists.1 },
    ];
    coalescer.push_batch(&Batch::new(3, &columns).unwrap()).unwrap();
    let batch = coalescer.next_completed_batch().unwrap().unwrap();
    let [first, numbers, last] = [0, 1, 2].map(|c| batch.column(c).unwrap().clone());
    drop(batch);
    assert!(first.strings().unwrap().eq([Some(two), Some(one), Some(&one[5..])]) && first.buffers().eq([two, one, one]));
    assert!(numbers.u8s().unwrap().eq([7, 8, 9].map(Some)) && numbers.buffers().len() == 0);
    assert!(last.strings().unwrap().eq([Some(one), Some(&b"none"[..]), Some(two)]) && last.buffers().eq([one, two]));
}
