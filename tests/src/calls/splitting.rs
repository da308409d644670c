//! Split and the folded record.

use super::{refuse_if, write_front, Answer, State, ENDS_TOO_SHORT, NO_SPLIT, OUTPUT_TOO_SHORT};
use crate::plain;

/// "Split: a prefix i and a k. It fills the first k entries of a lent list of
/// 16-bit numbers with the last pick numbers of the sections, rising." "It also
/// gives the turn count."
pub fn split(state: &State, i: usize, k: usize, ends_list: &mut [u16]) -> Answer<usize> {
    state.check()?;
    state.check_sections(k)?;
    refuse_if(ends_list.len() < k, ENDS_TOO_SHORT)?;
    state.check_prefix(i)?;
    let ends = named_ends(state, i, k)?;
    write_front(ends_list, &ends);
    Ok(plain::turn_count(&ends))
}

/// "Folded record of prefix i in k sections, by the split just named, into a lent
/// output." "The answer is the record's count of bytes."
pub fn folded_record(state: &State, i: usize, k: usize, output: &mut [u8]) -> Answer<usize> {
    state.check()?;
    state.check_sections(k)?;
    state.check_prefix(i)?;
    let ends = named_ends(state, i, k)?;
    let record = plain::folded_record(state.prefix(i), &ends);
    refuse_if(record.len() > output.len(), OUTPUT_TOO_SHORT)?;
    output[..record.len()].copy_from_slice(&record);
    Ok(record.len())
}

/// The ends of the named split, or number 9: "No division of the prefix into k
/// sections exists."
fn named_ends(state: &State, i: usize, k: usize) -> Answer<Vec<usize>> {
    state.ask(|fast| fast.split(i, k)).ok_or(NO_SPLIT)
}
