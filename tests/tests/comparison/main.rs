//! The comparison program by itself: its definitions, its two paths beside each other, its
//! refusals, and the worked examples of the documents.

mod definitions;
mod draft_program;
mod kept_bytes;
mod lifts;
mod listed_numbers;
mod long_drafts;
mod order;
mod paper_examples;
mod records;
mod refusals;
mod runs;
mod support;
mod two_paths;
mod worked_examples;
mod wrong_turns;
