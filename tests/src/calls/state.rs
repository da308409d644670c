//! The stored draft.

use super::{refuse_if, Answer, PLACE_OUT_OF_RANGE, SECTIONS_OUT_OF_RANGE, STATE_OUT_OF_RANGE};
use crate::fast::Fast;
use crate::plain::{fixed_lifts, is_most_sections, word, Lifts};
use crate::{memo, LETTERS, MOST_PICKS};

/// A stored state: n, K, the letters, of which the first n are the draft, the lift of each
/// when it was fed, the lifts in force, and for each letter that is a mark one more than its
/// length, else 0.
#[derive(Clone, Debug, PartialEq, Eq)]
pub struct State {
    pub n: usize,
    pub most_sections: usize,
    pub letters: [u8; MOST_PICKS],
    pub codes: [u8; MOST_PICKS],
    pub lifts: Lifts,
    pub marks: [u16; LETTERS],
}

impl State {
    /// A state of zeros, which is no draft yet.
    pub fn zeros() -> State {
        State {
            n: 0,
            most_sections: 0,
            letters: [0; MOST_PICKS],
            codes: [0; MOST_PICKS],
            lifts: [0; LETTERS],
            marks: [0; LETTERS],
        }
    }

    /// The empty draft with K, under the fixed lifts and without a mark.
    pub fn empty(most_sections: usize) -> State {
        State::of(b"", most_sections, &fixed_lifts())
    }

    /// A draft with K, all of it fed under these lifts, without a mark.
    pub fn of(draft: &[u8], most_sections: usize, lifts: &Lifts) -> State {
        let n = draft.len();
        let mut state = State {
            n,
            most_sections,
            lifts: *lifts,
            ..State::zeros()
        };
        state.letters[..n].copy_from_slice(draft);
        state.codes[..n].copy_from_slice(&word(lifts, draft));
        state
    }

    /// Number 7: "Stored n above 2,048 or stored K outside 1 to 8."
    pub(super) fn check(&self) -> Answer<()> {
        let good = self.n <= MOST_PICKS && is_most_sections(self.most_sections);
        refuse_if(!good, STATE_OUT_OF_RANGE)
    }

    /// Number 1 of a call with k: "k outside 1 to K."
    pub(super) fn check_sections(&self, k: usize) -> Answer<()> {
        refuse_if(
            !(1..=self.most_sections).contains(&k),
            SECTIONS_OUT_OF_RANGE,
        )
    }

    /// Number 4 of a call with a prefix: "Prefix above n."
    pub(super) fn check_prefix(&self, i: usize) -> Answer<()> {
        refuse_if(i > self.n, PLACE_OUT_OF_RANGE)
    }

    /// Number 4 of a call with a centre: "centre outside 1 to 2n+1."
    pub(super) fn check_centre(&self, centre: usize) -> Answer<()> {
        refuse_if(!(1..=2 * self.n + 1).contains(&centre), PLACE_OUT_OF_RANGE)
    }

    /// The first i letters.
    pub(super) fn prefix(&self, i: usize) -> &[u8] {
        &self.letters[..i]
    }

    /// Puts a question about the draft to the tables of its word.
    pub(super) fn ask<T>(&self, question: impl FnOnce(&Fast) -> T) -> T {
        memo::ask(&self.codes[..self.n], self.most_sections, question)
    }
}
