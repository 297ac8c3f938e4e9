//! The two rules by which a machine chooses its tile sizes (request Eight).

pub mod runs;
pub mod sizes;
