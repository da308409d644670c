//! Show, which is given no state.

use super::functions::{library, Library};
use super::guarded::Guarded;
use super::running::UNSET;
use crate::calls::Refusal;

impl Library {
    /// Show: the companion's number, and the length of the part that is handed back,
    /// whose bytes go to the front of the lent part as far as they fit.
    pub fn show(
        &self,
        letters: &[u8],
        ends: &[u16],
        s: usize,
        part: &mut [u8],
    ) -> (Refusal, usize) {
        let mut lent_letters = Guarded::of(letters);
        let mut lent_ends = Guarded::of(ends);
        let mut lent_part = Guarded::of(part);
        let mut answer = Guarded::of(&[UNSET; 2]);
        // Safe: each slice has its own length, the answer its declared one, and none
        // overlaps another.
        unsafe {
            (self.show)(
                lent_letters.pointer(),
                letters.len(),
                lent_ends.pointer(),
                ends.len(),
                s,
                lent_part.pointer(),
                part.len(),
                answer.pointer(),
            )
        };
        lent_letters.assert_kept(letters, "letters");
        lent_ends.assert_kept(ends, "ends");
        assert!(lent_part.guards_hold(), "outside the part, {ends:?}, {s}");
        assert!(answer.guards_hold(), "outside the answer, {ends:?}, {s}");
        part.copy_from_slice(lent_part.inner());
        let number = Refusal::try_from(answer.inner()[0]).expect("a number from 0 to 10");
        (number, answer.inner()[1])
    }
}

/// Show, by the library that the tests run on.
pub fn show(letters: &[u8], ends: &[u16], s: usize, part: &mut [u8]) -> (Refusal, usize) {
    library().show(letters, ends, s, part)
}
