//! What the runs share: numbers from a seed, columns made from it, the plain model of document 01; and, where the Rust text is at hand to
//! judge (`--cfg judge`), the port beside it.

#[cfg(judge)]
pub mod beside;
#[cfg(judge)]
mod cells;
pub mod columns;
#[cfg(judge)]
pub mod histories;
mod lines;
pub mod model;
pub mod rng;
pub mod strip_model;
#[cfg(judge)]
pub mod trace;
