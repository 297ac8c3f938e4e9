//! Lines of assembler text (request Fourteen): suites of the C functions and of the two
//! programs.

pub mod damage;
pub mod held;
pub mod lines;
pub mod programs;
