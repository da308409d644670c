//! What several of these tests share.

pub mod bounded;
pub mod compared;
pub mod each_draft;
pub mod ends;
pub mod made_calls;
mod shortened;
pub mod told;
pub mod unread;
pub mod visited;
pub mod words;
