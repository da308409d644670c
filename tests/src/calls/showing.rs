//! Show and its companion, which are given no state.

use super::{refuse_if, Answer, Refusal, ENDS_NOT_RISING, PLACE_OUT_OF_RANGE};
use crate::plain;

/// "The section is handed back as that part of the lent letters itself, no copy
/// made. A refused show hands back an empty part."
pub fn show<'a>(letters: &'a [u8], ends: &[u16], s: usize) -> &'a [u8] {
    match check(letters, ends, s) {
        Ok(()) => plain::section(letters, &whole_numbers(ends), s),
        Err(_) => &[],
    }
}

/// "A companion call on the same input gives the number, 0 for an accepted show."
pub fn show_number(letters: &[u8], ends: &[u16], s: usize) -> Refusal {
    check(letters, ends, s).err().unwrap_or(0)
}

/// Numbers 4 and 6: "s outside 1 to the number of ends" and "Ends not rising
/// strictly from above 0 to exactly the number of lent letters."
fn check(letters: &[u8], ends: &[u16], s: usize) -> Answer<()> {
    refuse_if(!(1..=ends.len()).contains(&s), PLACE_OUT_OF_RANGE)?;
    let rising = plain::are_ends(&whole_numbers(ends), letters.len());
    refuse_if(!rising, ENDS_NOT_RISING)
}

/// The 16-bit ends as numbers of picks.
fn whole_numbers(ends: &[u16]) -> Vec<usize> {
    ends.iter().map(|&end| usize::from(end)).collect()
}
