//! Salvage of cut and damaged images (request Thirteen).

pub mod cuts;
pub mod damage;
pub mod held;
pub mod hosts;
pub mod stand_ins;
