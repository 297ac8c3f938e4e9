//! Single steps: every code, random words, sequences, sizes, transposed tiles, overlapping
//! rows and damaged input.

pub mod codes;
pub mod damage;
pub mod overlapping;
pub mod renewed;
pub mod sequences;
pub mod single;
pub mod transposed;
