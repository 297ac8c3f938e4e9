//! Power-up contents never matter (request Nine). Two benches that differ at
//! most in unmarked register bytes are lent to the library for the same calls:
//! it has to answer both alike, and to leave them so again after each. The vector
//! file is input like memory (request Eleven): equal before, and after each call.
//! The second program has no part in this.

pub mod pairs;
pub mod runs;
pub mod words;
