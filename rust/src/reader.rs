//! The calls that read a folded record. They are given no state.

use crate::functions::{drive_section, drive_unfold};
use crate::refusal::Refusal;
use crate::state::Place;

/// A section of a record.
#[derive(Clone, Copy, Debug, PartialEq, Eq)]
pub struct Section {
    /// How many picks it has.
    pub length: usize,
    /// Where it turns.
    pub turn: Turn,
}

/// The turn of a section.
#[derive(Clone, Copy, Debug, PartialEq, Eq)]
pub enum Turn {
    /// On the pick of this number in the draft.
    OnPick(Place),
    /// Between the pick of this number and the next one.
    Between(Place),
}

/// Unfold a record: its picks fill the front of the list. Gives their count. Refused with 11, and
/// then a place of the record, with 12 or with 5.
///
/// ```
/// let mut picks = [0; 8];
/// assert_eq!(board::unfold(b"7,2,3,AB,4,CD\n", &mut picks), Ok(7));
/// assert_eq!(&picks, b"ABACDDC\0");
/// let refusal = board::unfold(b"7,2,3,A,4,CD\n", &mut picks).unwrap_err();
/// assert_eq!((refusal.number(), refusal.place()), (11, Some(7)));
/// let refusal = board::unfold(b"8,2,3,AB,4,CD\n", &mut picks).unwrap_err();
/// assert_eq!((refusal.number(), refusal.place()), (12, None));
/// let refusal = board::unfold(b"7,2,3,AB,4,CD\n", &mut picks[..6]).unwrap_err();
/// assert_eq!((refusal.number(), refusal.place()), (5, None));
/// ```
pub fn unfold(record: &[u8], picks: &mut [u8]) -> Result<usize, Refusal> {
    let mut answer = [0; 3];
    // SAFETY: each slice has its own length, the answer the declared one, and what is written
    // overlaps nothing.
    unsafe {
        drive_unfold(
            record.as_ptr(),
            record.len(),
            picks.as_mut_ptr(),
            picks.len(),
            answer.as_mut_ptr(),
        )
    };
    match answer {
        [0, count, _] => Ok(count),
        [1, number, _] => Err(Refusal::under(number)),
        [_, number, place] => Err(Refusal::at(number, place)),
    }
}

/// The section at a place of a record, which is 0 or the section's first byte, and the next
/// section's first byte; behind the last section that is the record's length. None at any other
/// place, and none of a record that [`unfold`] refuses with 11 or 12.
///
/// ```
/// use board::{section, Place, Section, Turn};
///
/// let record = b"7,2,3,AB,4,CD\n";
/// let first = Section { length: 3, turn: Turn::OnPick(Place(2)) };
/// assert_eq!(section(record, 0), Some((first, 9)));
/// assert_eq!(section(record, 4), Some((first, 9)));
/// let second = Section { length: 4, turn: Turn::Between(Place(5)) };
/// assert_eq!(section(record, 9), Some((second, 14)));
/// assert_eq!(section(record, 14), None);
/// ```
pub fn section(record: &[u8], at: usize) -> Option<(Section, usize)> {
    let mut answer = [0; 4];
    // SAFETY: the record has its own length, the answer the declared one, and overlaps nothing.
    unsafe { drive_section(record.as_ptr(), record.len(), at, answer.as_mut_ptr()) };
    let [kind, length, place, next] = answer;
    let turn = match kind {
        0 => return None,
        1 => Turn::OnPick(Place(place)),
        _ => Turn::Between(Place(place)),
    };
    Some((Section { length, turn }, next))
}

/// A reader of a record: its sections in order, by [`section`].
///
/// ```
/// use board::{Place, Reader, Turn};
///
/// let mut reader = Reader::new(b"7,2,3,AB,4,CD\n");
/// let turns = reader.by_ref().map(|section| section.turn);
/// assert!(turns.eq([Turn::OnPick(Place(2)), Turn::Between(Place(5))]));
/// assert_eq!(reader.next(), None);
/// ```
#[derive(Clone, Debug)]
pub struct Reader<'a> {
    record: &'a [u8],
    at: usize,
}

impl<'a> Reader<'a> {
    /// A reader before the first section.
    pub const fn new(record: &'a [u8]) -> Reader<'a> {
        Reader { record, at: 0 }
    }
}

impl Iterator for Reader<'_> {
    type Item = Section;

    fn next(&mut self) -> Option<Section> {
        let (section, next) = section(self.record, self.at)?;
        self.at = next;
        Some(section)
    }
}
