//! The calls that read a record, which are given no state.

use super::functions::{library, Library};
use super::guarded::Guarded;
use super::running::UNSET;
use crate::calls::{Placed, Refusal, Section};
use crate::plain::Turn;

impl Library {
    /// Unfold: the picks go to the front of the lent list, and their number is given.
    pub fn unfold(&self, record: &[u8], picks: &mut [u8]) -> Result<usize, Placed> {
        let mut lent_record = Guarded::of(record);
        let mut lent_picks = Guarded::of(picks);
        let mut answer = Guarded::of(&[UNSET; 3]);
        // Safe: each slice has its own length, the answer its declared one, and none
        // overlaps another.
        let returned = unsafe {
            (self.unfold)(
                lent_record.pointer(),
                record.len(),
                lent_picks.pointer(),
                picks.len(),
                answer.pointer(),
            )
        };
        let entries = picks.len();
        let case = || format!("{}, {entries} entries", record.escape_ascii());
        assert_eq!(returned, 0, "unfold of {}", case());
        assert_record_kept(&lent_record, record);
        assert!(lent_picks.guards_hold(), "outside the list, {}", case());
        assert!(answer.guards_hold(), "outside the answer, {}", case());
        picks.copy_from_slice(lent_picks.inner());
        match *answer.inner() {
            [0, count, 0] => Ok(count),
            [1, number @ 1..=12, 0] => Err((number as Refusal, None)),
            [2, number @ 1..=12, place] => Err((number as Refusal, Some(place))),
            ref other => panic!("{other:?} is no answer, {}", case()),
        }
    }

    /// The section that a reader yields at a place of the record, and the place of the next.
    pub fn section_at(&self, record: &[u8], at: usize) -> Option<(Section, usize)> {
        let mut lent_record = Guarded::of(record);
        let mut answer = Guarded::of(&[UNSET; 4]);
        // Safe: the record has its own length, the answer its declared one, and neither
        // overlaps the other.
        let returned =
            unsafe { (self.section)(lent_record.pointer(), record.len(), at, answer.pointer()) };
        let case = || format!("{} at {at}", record.escape_ascii());
        assert_eq!(returned, 0, "section of {}", case());
        assert_record_kept(&lent_record, record);
        assert!(answer.guards_hold(), "outside the answer, {}", case());
        let (length, turn, next) = match *answer.inner() {
            [0, 0, 0, next] if next == at => return None,
            [1, length, pick, next] => (length, Turn::OnPick(pick), next),
            [2, length, pick, next] => (length, Turn::Between(pick), next),
            ref other => panic!("{other:?} is no answer, {}", case()),
        };
        Some((Section { length, turn }, next))
    }
}

/// Asserts that a lent record has its bytes, and its guards theirs.
fn assert_record_kept(lent: &Guarded<u8>, record: &[u8]) {
    let kept = lent.guards_hold() && lent.inner() == record;
    assert!(kept, "a write to the record {}", record.escape_ascii());
}

/// Unfold, by the library that the tests run on.
pub fn unfold(record: &[u8], picks: &mut [u8]) -> Result<usize, Placed> {
    library().unfold(record, picks)
}

/// The section at a place, by the library that the tests run on.
pub fn section_at(record: &[u8], at: usize) -> Option<(Section, usize)> {
    library().section_at(record, at)
}
