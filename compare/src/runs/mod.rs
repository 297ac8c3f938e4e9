//! Product runs: plans, both programs on a run, and suites.

pub mod damage;
pub mod held;
pub mod plans;
pub mod turns;
pub mod whole;
