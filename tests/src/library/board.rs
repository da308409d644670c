//! The stored state: letters, codes, lifts, marks, lanes by centre and by place, and three
//! numbers.

use super::guarded::Guarded;
use crate::plain::Lifts;
use crate::{LETTERS, MOST_PICKS};
use ::board::{CENTRES, CENTRE_LANES, GATHERED, NUMBERS, PLACES, PLACE_LANES, ROWS};

/// The state that the library's calls are given, and what it keeps of a draft.
#[derive(Clone, PartialEq, Eq)]
pub struct Board {
    pub(super) letters: Guarded<u8>,
    /// The lift of each pick when it was fed.
    pub(super) codes: Guarded<u8>,
    /// The lifts in force.
    pub(super) lifts: Guarded<u8>,
    /// Of each letter that is a mark one more than its length, else 0.
    pub(super) marks: Guarded<u16>,
    /// The lanes by centre, one after the other.
    pub(super) centres: Guarded<u16>,
    /// The lanes by place, one after the other.
    pub(super) places: Guarded<u16>,
    /// n, K and the centre of the longest ending.
    pub(super) numbers: Guarded<usize>,
}

impl Board {
    /// A state of zeros, started with a K from 1 to 8.
    pub fn started(most_sections: usize) -> Board {
        let mut board = Board::filled(|| 0);
        let answer = board.start(most_sections as u8);
        assert_eq!(answer, Ok(()), "start with K {most_sections}");
        board
    }

    /// Letters, codes, lifts, lanes and marks with the given entries; n, K and the stored
    /// centre are 0.
    pub fn filled(mut entry: impl FnMut() -> u16) -> Board {
        let mut board = Board {
            letters: Guarded::new(MOST_PICKS),
            codes: Guarded::new(MOST_PICKS),
            lifts: Guarded::new(LETTERS),
            marks: Guarded::new(LETTERS),
            centres: Guarded::new(CENTRE_LANES * CENTRES),
            places: Guarded::new(PLACE_LANES * PLACES),
            numbers: Guarded::new(NUMBERS),
        };
        for bytes in board.bytes_mut() {
            bytes.fill_with(|| entry() as u8);
        }
        for lane in board.lanes_mut() {
            lane.fill_with(&mut entry);
        }
        board.marks_mut().fill_with(&mut entry);
        board
    }

    /// The stored letters, to write any of them.
    pub fn letters_mut(&mut self) -> &mut [u8] {
        self.letters.inner_mut()
    }

    /// The stored codes, to write any of them.
    pub fn codes_mut(&mut self) -> &mut [u8] {
        self.codes.inner_mut()
    }

    /// The stored lifts, to write any of them.
    pub fn lifts_mut(&mut self) -> &mut [u8] {
        self.lifts.inner_mut()
    }

    /// The stored marks, to write any of them.
    pub fn marks_mut(&mut self) -> &mut [u16] {
        self.marks.inner_mut()
    }

    /// Every array of bytes, to write any of them: letters, codes, lifts.
    pub fn bytes_mut(&mut self) -> [&mut [u8]; 3] {
        let arrays = [&mut self.letters, &mut self.codes, &mut self.lifts];
        arrays.map(Guarded::inner_mut)
    }

    /// Every lane, to write any entry of it: those by centre, then those by place.
    pub fn lanes_mut(&mut self) -> impl Iterator<Item = &mut [u16]> {
        let by_centre = self.centres.inner_mut().chunks_exact_mut(CENTRES);
        by_centre.chain(self.places.inner_mut().chunks_exact_mut(PLACES))
    }

    /// A lane by centre, to write any entry of it.
    pub fn centre_lane_mut(&mut self, lane: usize) -> &mut [u16] {
        &mut self.centres.inner_mut()[lane * CENTRES..][..CENTRES]
    }

    /// A lane by centre.
    pub fn centre_lane(&self, lane: usize) -> &[u16] {
        &self.centres.inner()[lane * CENTRES..][..CENTRES]
    }

    /// A lane by place, to write any entry of it.
    pub fn place_lane_mut(&mut self, lane: usize) -> &mut [u16] {
        &mut self.places.inner_mut()[lane * PLACES..][..PLACES]
    }

    /// A lane by place.
    pub fn place_lane(&self, lane: usize) -> &[u16] {
        &self.places.inner()[lane * PLACES..][..PLACES]
    }

    /// Stores n, K and the centre of the longest ending.
    pub fn store(&mut self, n: usize, most_sections: usize, longest: usize) {
        let numbers = [n, most_sections, longest];
        self.numbers.inner_mut().copy_from_slice(&numbers);
    }

    /// The stored n.
    pub fn n(&self) -> usize {
        self.numbers.inner()[0]
    }

    /// The stored K.
    pub fn most_sections(&self) -> usize {
        self.numbers.inner()[1]
    }

    /// The stored centre of the longest ending.
    pub fn longest(&self) -> usize {
        self.numbers.inner()[2]
    }

    /// The letters of the draft.
    pub fn letters(&self) -> &[u8] {
        &self.letters.inner()[..self.n()]
    }

    /// The lifts of the draft's picks, each when it was fed.
    pub fn codes(&self) -> &[u8] {
        &self.codes.inner()[..self.n()]
    }

    /// All letters and all codes that are stored, those beyond the draft included.
    pub fn stored_picks(&self) -> [&[u8]; 2] {
        [self.letters.inner(), self.codes.inner()]
    }

    /// The lifts in force.
    pub fn lifts(&self) -> Lifts {
        let lifts = Lifts::try_from(self.lifts.inner());
        lifts.expect("a lift for each letter")
    }

    /// The stored marks, A to Z.
    pub fn marks(&self) -> [u16; LETTERS] {
        let marks = self.marks.inner().try_into();
        marks.expect("an entry for each letter")
    }

    /// The row words of places 0 to n.
    pub fn rows(&self) -> &[u16] {
        &self.place_lane(ROWS)[..=self.n()]
    }

    /// The gathered words of places 0 to n.
    pub fn gathered(&self) -> &[u16] {
        &self.place_lane(GATHERED)[..=self.n()]
    }

    /// Whether all is as in another state but for the lifts.
    pub fn keeps_all_but_lifts(&self, other: &Board) -> bool {
        let mut same = self.clone();
        same.lifts = other.lifts.clone();
        same == *other
    }

    /// Whether all is as in another state but for the marks.
    pub fn keeps_all_but_marks(&self, other: &Board) -> bool {
        let mut same = self.clone();
        same.marks = other.marks.clone();
        same == *other
    }

    /// Whether nothing is written outside the letters, the codes, the lifts, the marks, the
    /// lanes and the numbers.
    pub(super) fn guards_hold(&self) -> bool {
        let bytes = [&self.letters, &self.codes, &self.lifts];
        bytes.iter().all(|bytes| bytes.guards_hold())
            && self.marks.guards_hold()
            && self.centres.guards_hold()
            && self.places.guards_hold()
            && self.numbers.guards_hold()
    }
}
