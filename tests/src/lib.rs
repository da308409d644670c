//! The comparison program: the definitions of document 01 written out, so that
//! the board's answers can be compared with them.
//!
//! `plain` holds each definition literally on slices, slow and obvious.
//! `fast` answers the same questions for drafts of 2,048 picks by tables.
//! Both are given the word of a draft: the lifts of its picks, "two picks are the same
//! when their lifts are equal". Letters are for records alone.
//! `calls` holds the fifteen calls with their refusals, and `book` the plain book.
//! `fields` reads a record field by field.
//! `draft` is the draft program as a function from bytes to bytes, and `spoken` the
//! console as one from a line to the lines that answer it.
//! `samples` and `structured` make the drafts that tests are run on, and `full_drafts`
//! names those of 2,048 picks; `records` makes records, and `tables` tables of lifts.
//! `scripted` names the calls with their arguments, and `library` makes them on the
//! proved board, by its static library.
//! `beside` keeps the book beside that board, `readings` compares how both read a
//! record, and `listed` holds the refusals that do not hang on the letters.
//! `support` holds what several test crates share.

pub mod beside;
pub mod book;
pub mod calls;
pub mod draft;
pub mod fast;
pub mod fields;
pub mod full_drafts;
pub mod library;
pub mod listed;
mod memo;
pub mod plain;
pub mod readings;
pub mod records;
pub mod samples;
pub mod scripted;
pub mod spoken;
pub mod structured;
pub mod support;
pub mod tables;

/// "A draft has 0 to 2,048 picks."
pub const MOST_PICKS: usize = 2_048;

/// "Visit list under 19 entries" is refused.
pub const VISIT_ROOM: usize = 19;

/// "K, chosen at the start, is 1 to 8."
pub const MOST_SECTIONS: usize = 8;

/// "A pick is one byte, A to Z (65 to 90)": the first of them.
pub const FIRST_PICK: u8 = 65;

/// "A pick is one byte, A to Z (65 to 90)": the last of them.
pub const LAST_PICK: u8 = 90;

/// "In letter order A to Z": how many letters there are, and so lifts of a table.
pub const LETTERS: usize = 26;

/// "The state gains up to four marks."
pub const MOST_MARKS: usize = 4;

/// Byte 10, which closes the folded record and every line of the draft program.
pub const LINE_END: u8 = 10;
