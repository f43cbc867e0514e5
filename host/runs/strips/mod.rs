//! The parts of the run of the strip.

pub mod court;
pub mod damage;
pub mod rows;
pub mod tally;
