//! What several of these tests share.

pub mod both;
pub mod fed;
pub mod longest_mirrored;
