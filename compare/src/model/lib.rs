//! The second program: the rules of the scope paper and of the change requests
//! that have landed (One, Two, Three, Four, Six, Seven, Eight, Ten, Eleven, Twelve,
//! Thirteen, Fourteen; Nine asks for nothing new), each as one plain function.
//!
//! It is written to be read beside the papers, not to be fast. Sizes and
//! addresses are whole numbers (`i128`), bytes are looked at one by one, and a
//! product run is the list of its steps.
//!
//! By the sections of document 01, in its order:
//!
//! - "The unit and its papers": `listing`, `words`
//! - "What a machine is": `machine`
//! - "Setting mtype and tile sizes": `settings`
//! - "Loading, storing, reckoning": `tiles`, `loading`, `reckoning`
//! - "Numbers of the answers": `answers`
//! - "The product run": `run`
//! - "Bench sheet": `examples::sheet`
//!
//! The requests of document 02 that have rules of their own: `floats` (Four), `images`
//! (Six), `moves` (Eleven), `seals` (Twelve), `salvage` (Thirteen), `text` (Fourteen).

mod answers;
mod listing;
mod loading;
mod machine;
mod reckoning;
mod run;
mod settings;
mod tiles;
mod words;

pub mod floats;
pub mod images;
pub mod moves;
pub mod salvage;
mod seals;
pub mod text;

/// By hand, for the examples and for the suites.
pub mod float_sums;

pub use answers::*;
pub use listing::*;
pub use loading::*;
pub use machine::*;
pub use run::*;
pub use seals::*;
pub use settings::*;
pub use tiles::*;
pub use words::*;

#[cfg(test)]
mod examples;
