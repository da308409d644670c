//! The board's text as Rust.
//!
//! Rattle's text is Rust's but for the clauses of its contracts and a few lines more. `text`
//! writes a source without them, `sources` reads the crates, and `compile` has rustc make a shared
//! library of the board and the programs, with every overflow and every index checked. `faults`
//! reads the lists of planted faults, each an edit of a source, and `running` runs tests on the
//! text; `plant` puts all of it together.

pub mod compile;
pub mod faults;
pub mod running;
pub mod sources;
pub mod text;
