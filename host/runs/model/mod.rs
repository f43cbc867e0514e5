//! A plain model of document 01: what each call answers, and every byte of the world after it.
//!
//! Written from 01, docs/LAYOUT.md and docs/DECISIONS.md, slow and obvious; it shares no code with the port. A call works on a copy of the
//! world, which is thrown away where the call is refused, so that nothing here has to undo anything. Numbers have 64 bits, so that no sum of
//! words wraps. `edges` prints what it says of a capture; `damaged` holds the port to it.

mod basics;
mod books;
mod calls;
mod checks;
mod push;
mod ranges;
mod reads;
mod sizes;
mod state;
mod telling;
mod view_columns;
mod world;

pub use basics::{CLAUSES, Refused};
pub use calls::{Answer, Call, Counts, called, counts, new_state};
pub use ranges::Lengths;
pub use sizes::sizes_said;
pub use telling::said;
