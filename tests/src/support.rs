//! What several test crates share: the programs under test as processes, and the calls,
//! lines and worked examples that more than one of them is tested with.
//!
//! `executables` says where the programs are, `process` runs them; `draft_process` is the
//! draft program and `console` the console as such. `answered` compares a program that is
//! given the console's lines with the console as a function, and `transcript` with a session
//! that is written out.
//! `any_states` makes stored states that no run made.
//! `some_calls` makes calls at random and `call_lines` lines of them; `lines`, `far_places`,
//! `mark_lines`, `next_lines` and `turn_lines` make the lines of one purpose each.
//! `bad_ends`, `ending_examples`, `lift_examples`, `mark_examples` and `turn_counts` are
//! worked out by hand; `turns` counts turns by the parts of a draft.
//! `own_name` gives names for files that no other test has.

pub mod answered;
pub mod any_states;
pub mod bad_ends;
pub mod call_lines;
pub mod console;
pub mod draft_process;
pub mod ending_examples;
pub mod executables;
pub mod far_places;
pub mod lift_examples;
pub mod lines;
pub mod mark_examples;
pub mod mark_lines;
pub mod next_lines;
pub mod own_name;
pub mod process;
pub mod some_calls;
pub mod transcript;
pub mod turn_counts;
pub mod turn_lines;
pub mod turns;
