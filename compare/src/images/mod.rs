//! Machine images (request Six): written, read back, and read where they are damaged;
//! those of halving machines have version 2 (request Eight), those of larger machines
//! version 3 (request Ten), those with other than one sealed range version 4 (request
//! Twelve).

pub mod damage;
pub mod held;
pub mod machines;
pub mod versions;
pub mod whole;
