//! The scripts `draft` and `board`, at a terminal and away from one.

mod console_script;
mod console_terminal;
mod draft_script;
mod draft_terminal;
mod support;
