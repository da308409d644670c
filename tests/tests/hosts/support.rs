//! What several of these tests share.

pub mod archive;
pub mod c_program;
pub mod compiled;
pub mod rattle;
pub mod repository;
