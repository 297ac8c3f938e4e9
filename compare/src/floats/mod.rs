//! Float products (request Four), by single words and by runs.

pub mod desk;
pub mod examples;
pub mod numbers;
pub mod runs;
