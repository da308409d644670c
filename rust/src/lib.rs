//! The board of a dobby head: it takes a draft pick by pick and says after each whether the
//! draft so far is k mirrored sections in a row, shows such a split, writes the folded record
//! and reads it back, and goes back to marks in the draft. Each call is made by the proved static
//! library.
//!
//! ```
//! use board::{show, Board, Place, VISITS};
//!
//! let mut board = Board::new();
//! board.start(8)?;
//! let mut visits = [0; VISITS];
//! for &pick in b"ABACDDC" {
//!     board.feed(pick, &mut visits)?;
//! }
//! assert_eq!(board.mask(Place(7))?, 0b111_1010);
//! let mut ends = [0; 2];
//! board.split(Place(7), 2, &mut ends)?;
//! assert_eq!(ends, [3, 7]);
//! assert_eq!(show(b"ABACDDC", &ends, 2)?, b"CDDC");
//! # Ok::<(), board::Refusal>(())
//! ```
//!
//! No argument makes a call undefined, and nothing is allocated. An argument that a script
//! cannot hold goes in as the largest number that it can, so that the call itself refuses it.
#![no_std]

mod calls;
pub mod functions;
mod reader;
mod refusal;
mod script;
mod state;
mod stateless;

pub use calls::{Board, NextEnding, Taken};
pub use reader::{section, unfold, Reader, Section, Turn};
pub use refusal::{Refusal, Sentence, SENTENCES};
pub use script::{ANSWER_NUMBERS, CALL_BYTES};
pub use state::{
    Centre, Place, State, ALPHABET, CENTRES, CENTRE_LANES, GATHERED, HEADS, K, LENDS, LONGEST,
    MARKS, N, NEXT, NUMBERS, PICKS, PLACES, PLACE_LANES, PREV, RADIUS, ROWS, SECTIONS, VISITS,
};
pub use stateless::show;
