//! Moves between accumulators and vector registers (request Eleven).

pub mod boundaries;
pub mod listing;
pub mod reckoned;
pub mod words;
