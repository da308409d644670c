//! What several of these tests share.

pub mod refusals;
