//! A match in three batches: raid, player and who was out, with nulls and long names. Prints the rows as they complete, four at a time.

use puffwidget::{BatchCoalescer, CompletedBatch, Error, Kind, SetUp, StringColumn, UInt64Column};

fn main() -> Result<(), Error> {
    let mut coalescer = BatchCoalescer::new(&SetUp::new(&[Kind::UInt64, Kind::Utf8View], 4))?;
    for (raids, names) in [
        ([Some(1), Some(2), Some(3)], [Some("Asha"), None, Some("Chitralekha Rao")]),
        ([Some(4), None, Some(6)], [Some("Gurpreet Kaur Bhullar"), Some("Devika"), None]),
        ([Some(7), Some(8), Some(9)], [Some("Harini Subramanian"), Some("Lata"), Some("Oorvi Deshpande")]),
    ] {
        coalescer.push(&[&UInt64Column::from_iter(raids), &StringColumn::from_iter(names)])?;
    }
    coalescer.finish_buffered_batch()?;
    while let Some(batch) = coalescer.next_completed_batch()? {
        show(&batch)?;
    }
    Ok(())
}

/// A line a batch, then a line a row; `-` for null.
fn show(batch: &CompletedBatch) -> Result<(), Error> {
    println!("batch of {}", batch.num_rows());
    for (raid, name) in batch.column(0)?.u64s()?.zip(batch.column(1)?.texts()?) {
        println!("  {} {}", raid.map_or("-".into(), |raid| raid.to_string()), name.unwrap_or("-".into()));
    }
    Ok(())
}
