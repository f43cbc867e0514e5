//! Puffwidget's batch coalescer for a Rust program: small batches of rows in, batches of a target size out, in order.
//!
//! A safe wrapper over the C layer of the proved port, with the names of arrow-select's `coalesce`. It owns the memory that the port
//! is lent; a refused call changes nothing and says by an [`Error`] what happened and what to do.
//!
//! ```
//! use puffwidget::{BatchCoalescer, Kind, SetUp, StringColumn, UInt64Column};
//! # fn main() -> Result<(), puffwidget::Error> {
//! // batches of 4 rows, of a number and a name
//! let mut coalescer = BatchCoalescer::new(&SetUp::new(&[Kind::UInt64, Kind::Utf8View], 4))?;
//!
//! let raids = UInt64Column::from_iter([Some(1), Some(2), None]);
//! let names = StringColumn::from_iter([Some("Asha"), None, Some("Harini Subramanian")]);
//! coalescer.push(&[&raids, &names])?;
//! assert!(!coalescer.has_completed_batch());      // 3 rows are buffered, not yet 4
//! coalescer.push(&[&raids, &names])?;
//!
//! let batch = coalescer.next_completed_batch()?.expect("a batch of 4 rows");
//! assert!(batch.column(0)?.u64s()?.eq([Some(1), Some(2), None, Some(1)]));
//! assert!(batch.column(1)?.texts()?.eq([Some("Asha".into()), None, Some("Harini Subramanian".into()), Some("Asha".into())]));
//!
//! assert_eq!(coalescer.get_buffered_rows(), 2);
//! coalescer.finish_buffered_batch()?;             // no more input: the rest comes out
//! assert_eq!(coalescer.next_completed_batch()?.map(|batch| batch.num_rows()), Some(2));
//! assert!(coalescer.is_empty());
//! # Ok(())
//! # }
//! ```
//!
//! Who has columns as plain bytes pushes a [`Batch`]. Long strings then lie in buffers that are registered; a view names its buffer by
//! its place in the column's list. A buffer may be let go as soon as the batch was pushed: rows keep their bytes.
//!
//! ```
//! use puffwidget::{inline_view, long_view, Batch, BatchCoalescer, Column, Kind, Refusal, SetUp};
//! # fn main() -> Result<(), puffwidget::Error> {
//! let mut coalescer = BatchCoalescer::new(&SetUp::new(&[Kind::Utf8View], 2))?;
//! let names = b"Harini Subramanian, Gurpreet Kaur Bhullar";
//! let number = coalescer.register_buffer(names, 64)?;
//! let views = [long_view(names, 0, 0, 18)?, inline_view(b"Lata")?].concat();
//! let column = Column { kind: Kind::Utf8View, values: &views, validity: None, buffers: &[number] };
//! coalescer.push_batch(&Batch::new(2, &[column])?)?;
//! coalescer.let_go(number)?;
//! assert_eq!(coalescer.let_go(number), Err(Refusal::NotThere)); // it is not the caller's any more
//!
//! let batch = coalescer.next_completed_batch()?.expect("a batch of 2 rows");
//! assert!(batch.column(0)?.strings()?.eq([Some(&b"Harini Subramanian"[..]), Some(b"Lata")]));
//! # Ok(())
//! # }
//! ```
//!
//! A [`Strip`] reads the batches of a match and keeps who is out; its page has a match.
//!
//! A column that is too short for its rows makes no batch: its rows never reach into the next column.
//!
//! ```
//! use puffwidget::{Batch, Column, Kind};
//! let column = |values| Column { kind: Kind::UInt8, values, validity: None, buffers: &[] };
//! let short = Batch::new(3, &[column(&[1, 2]), column(&[70, 80, 90])]).unwrap_err();
//! assert_eq!(short.to_string(), "column 0: its values are 2 bytes, and the rows want 3");
//! ```

#![deny(missing_docs)]

mod batch;
mod coalescer;
mod columns;
mod completed;
mod error;
mod front;
mod kind;
pub mod layout;
mod match_rows;
pub mod memory;
mod refusal;
mod row_refusal;
mod set_up;
mod strip;
mod strip_sys;
mod sys;

pub use batch::{Batch, BufferNumber, Column, Validity, inline_view, long_view};
pub use coalescer::BatchCoalescer;
pub use columns::*;
pub use completed::{CompletedBatch, CompletedColumn};
pub use error::{ColumnFault, Error, ViewFault};
pub use kind::{Kind, Primitive, View, kinds};
pub use match_rows::MatchRows;
pub use memory::{Memory, RowAnswer};
pub use refusal::Refusal;
pub use row_refusal::RowRefusal;
pub use set_up::SetUp;
pub use strip::{Event, Side, Strip, Taken};
