//! Seeded states and words. A case is made so that it would be done, then
//! faults are put in, each by chance.

pub mod cases;
pub mod faults;
pub mod float_numbers;
pub mod machines;
pub mod ranges;
pub mod words;
