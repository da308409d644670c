//! What a section of the folded record stands for.

use super::stretch::centre;

/// A turn, "either on a pick or between two picks": the "pick's number in the draft, or
/// that of the earlier of the two".
#[derive(Clone, Copy, Debug, PartialEq, Eq)]
pub enum Turn {
    OnPick(usize),
    Between(usize),
}

/// The turn of the section with this first and this last pick: its centre, in whole
/// picks. "A section read from a record still names its middle", also one of one pick.
pub fn turn(first: usize, last: usize) -> Turn {
    let half_picks = centre(first, last);
    if half_picks % 2 == 0 {
        Turn::OnPick(half_picks / 2)
    } else {
        Turn::Between(half_picks / 2)
    }
}

/// The picks of a section of the given length with this first half of letters, "the
/// middle pick included".
pub fn unfolded(length: usize, half: &[u8]) -> Vec<u8> {
    let second_half = half.iter().rev().skip(length % 2);
    half.iter().chain(second_half).copied().collect()
}
