//! The fifteen calls of document 01 and of requests 2.1, 2.5 and 2.7, with their refusals.
//!
//! "Each call that is given a state, other than start, tests 7 first; every call
//! then tests those input numbers whose inputs it has, in rising order but for 5,
//! then 8, 9 or 10, then 5." Number 13 stands "in the same place of the order" as 3; 14,
//! 15 and 16 come "in this order after 7", and 17 and 18 are "tested where 8 is".
//! "A refusal returns its number only; state and lent buffers keep every byte. On
//! success, entries past those named keep theirs."

mod asking;
mod feeding;
mod lifting;
mod loading;
mod marking;
mod reading;
mod showing;
mod splitting;
mod state;

pub use asking::{longest_centre, mask_of_prefix, next_ending, radius_at, NextEnding};
pub use feeding::{feed, start, Taken};
pub use lifting::lift;
pub use loading::load;
pub use marking::{back, mark};
pub use reading::{section_at, unfold, Section};
pub use showing::{show, show_number};
pub use splitting::{folded_record, split};
pub use state::State;

/// A call's values, or the number it is refused with.
pub type Answer<T> = Result<T, Refusal>;

/// A refusal number, 1 to 18.
pub type Refusal = u8;

/// A refusal of a call with numbers that name a place: "a place coming beside the number
/// where one is named".
pub type Placed = (Refusal, Option<usize>);

/// 1: K outside 1 to 8, or k outside 1 to K.
const SECTIONS_OUT_OF_RANGE: Refusal = 1;

/// 2: pick not A to Z, in feeding or in looking up a lift; a name outside A to Z.
const NOT_A_PICK: Refusal = 2;

/// 3: visit list under 19 entries.
const VISITS_TOO_SHORT: Refusal = 3;

/// 4: prefix above n, centre outside 1 to 2n+1, or s outside 1 to the number of
/// ends.
const PLACE_OUT_OF_RANGE: Refusal = 4;

/// 5: record longer than the lent output, or a list too short for the picks.
const OUTPUT_TOO_SHORT: Refusal = 5;

/// 6: ends not rising strictly from above 0 to exactly the number of lent letters.
const ENDS_NOT_RISING: Refusal = 6;

/// 7: stored n above 2,048 or stored K outside 1 to 8.
const STATE_OUT_OF_RANGE: Refusal = 7;

/// 8: feeding with n = 2,048.
const DRAFT_FULL: Refusal = 8;

/// 9: no division of the prefix into k sections exists.
const NO_SPLIT: Refusal = 9;

/// 10: the centre belongs to no ending, or to the empty one, when the next shorter
/// is sought.
const NO_ENDING_THERE: Refusal = 10;

/// 11: the bytes are not of the record's layout.
const NOT_A_RECORD: Refusal = 11;

/// 12: lengths not adding up to the picks.
const LENGTHS_NOT_THE_PICKS: Refusal = 12;

/// 13: ends list under k entries.
const ENDS_TOO_SHORT: Refusal = 13;

/// 14: not 26 bytes.
const NOT_A_TABLE: Refusal = 14;

/// 15: a lift of 0.
const A_LIFT_OF_0: Refusal = 15;

/// 16: the draft is not empty.
const DRAFT_NOT_EMPTY: Refusal = 16;

/// 17: no such mark.
const NO_SUCH_MARK: Refusal = 17;

/// 18: a fifth name.
const A_FIFTH_NAME: Refusal = 18;

/// The refusal number when its line is met.
fn refuse_if(met: bool, number: Refusal) -> Answer<()> {
    if met {
        Err(number)
    } else {
        Ok(())
    }
}

/// A number that names no place.
fn without_place(number: Refusal) -> Placed {
    (number, None)
}

/// Writes lengths or pick numbers, none above 2,048, to the front of a lent list.
fn write_front(list: &mut [u16], numbers: &[usize]) {
    for (entry, &number) in list[..numbers.len()].iter_mut().zip(numbers) {
        *entry = number as u16;
    }
}
