//! What several of these tests share.

pub mod jobs;
pub mod keyed;
pub mod keys;
pub mod pseudo_terminal;
pub mod screen;
pub mod script;
pub mod script_folder;
pub mod terminal;
