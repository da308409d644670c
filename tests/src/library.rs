//! The board, by the C functions of its static library, as the package `board` declares them, or
//! by those that rustc makes of the same text (`functions`).
//!
//! Places are in whole picks, centres in half picks. All that is lent stands between
//! guard entries: letters, codes, lifts, marks, the lanes by centre, those by place, and every
//! list and buffer. They are looked at after each call, so that a write outside is seen, and so
//! is a write to what calls only read.

mod board;
mod calling;
mod functions;
mod guarded;
mod reading;
mod running;
mod stateless;

pub use self::board::Board;
pub use ::board::{CENTRES, GATHERED, HEADS, LENDS, NEXT, PLACES, PREV, RADIUS, ROWS};
pub use functions::{on_text, text, Library, PROVED};
pub use reading::{section_at, unfold};
pub use running::{Lent, ANSWER_NUMBERS, UNSET};
pub use stateless::show;
