//! The folded record read back, which is given no state.

use super::{
    refuse_if, without_place, Placed, LENGTHS_NOT_THE_PICKS, NOT_A_RECORD, OUTPUT_TOO_SHORT,
};
use crate::fields::{fields, Fields};
use crate::plain::{turn, unfolded, Turn};

/// "Each section it yields has a length and a turn."
#[derive(Clone, Copy, Debug, PartialEq, Eq)]
pub struct Section {
    pub length: usize,
    pub turn: Turn,
}

/// "Fills a lent list with the picks and answers how many; a list too short is 5, tested
/// last."
pub fn unfold(record: &[u8], list: &mut [u8]) -> Result<usize, Placed> {
    let Fields { picks, sections } = check(record)?;
    refuse_if(list.len() < picks, OUTPUT_TOO_SHORT).map_err(without_place)?;
    let draft: Vec<u8> = sections
        .iter()
        .flat_map(|section| unfolded(section.length, section.half))
        .collect();
    list[..picks].copy_from_slice(&draft);
    Ok(picks)
}

/// The section that the reader yields at a place of the record, and the place after it:
/// the next section's first byte, or the record's length. "From any place but 0 or a
/// section's first byte it yields none."
pub fn section_at(record: &[u8], at: usize) -> Option<(Section, usize)> {
    let Fields { sections, .. } = check(record).ok()?;
    let number = match at {
        0 => 0,
        _ => sections.iter().position(|section| section.at == at)?,
    };
    let length = sections[number].length;
    let before: usize = sections[..number].iter().map(|s| s.length).sum();
    let turn = turn(before + 1, before + length);
    let next = sections.get(number + 1).map_or(record.len(), |s| s.at);
    Some((Section { length, turn }, next))
}

/// The fields of a record that 11 and 12 let pass.
fn check(record: &[u8]) -> Result<Fields<'_>, Placed> {
    let fields = fields(record).map_err(|place| (NOT_A_RECORD, Some(place)))?;
    let lengths: usize = fields.sections.iter().map(|s| s.length).sum();
    refuse_if(lengths != fields.picks, LENGTHS_NOT_THE_PICKS).map_err(without_place)?;
    Ok(fields)
}
