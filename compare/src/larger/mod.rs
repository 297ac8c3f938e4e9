//! Larger machines (request Ten): lengths around their bounds, what each ELEN permits,
//! elements of 64 bits, and tiles of many rows and columns. What has to come out beside
//! what the second program says is reckoned here from the paper's sentences.

pub mod elements;
pub mod elens;
pub mod lengths;
pub mod runs;
pub mod tiles;
