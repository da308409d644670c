//! The calls that are given no state and write nothing.

use crate::printed::{refused, shown};
use crate::words::{exact, Wrong};
use board::{section, show, Section, Turn};

/// The answer of show.
pub fn show_section(letters: &[u8], s: usize, words: &[&[u8]]) -> Result<String, Wrong> {
    let end = |word: &&[u8]| exact(word, u16::MAX.into()).map(|end| end as u16);
    let ends: Vec<u16> = words.iter().map(end).collect::<Result<_, _>>()?;
    Ok(show(letters, &ends, s).map_or_else(refused, shown))
}

/// The answer of section.
pub fn section_at(record: &[u8], at: usize) -> String {
    let Some((Section { length, turn }, next)) = section(record, at) else {
        return String::from("ok none");
    };
    let (kind, place) = match turn {
        Turn::OnPick(place) => ("on", place.0),
        Turn::Between(place) => ("between", place.0),
    };
    format!("ok {length} {kind} {place} {next}")
}
