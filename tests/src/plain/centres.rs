//! Questions asked by centre, in half picks.

use super::endings::{endings, longest_ending, next_shorter};
use super::stretch::{centre, is_mirrored, least_period, radius};

/// What is told of an ending that is not empty.
#[derive(Clone, Copy, Debug, PartialEq, Eq)]
pub struct NextEnding {
    /// The centre of the next shorter ending.
    pub centre: usize,
    /// The length of the ending given.
    pub length: usize,
    /// Its least period.
    pub period: usize,
}

impl NextEnding {
    /// The three numbers in the order in which the call gives them.
    pub fn values(self) -> [usize; 3] {
        [self.centre, self.length, self.period]
    }
}

/// Radius of the longest mirrored stretch at a centre from 1 to 2n+1: of all
/// stretches with that centre, the empty one included, the longest mirrored one.
pub fn radius_at(draft: &[u8], at: usize) -> usize {
    let n = draft.len();
    (0..=n)
        .flat_map(|last| (1..=last + 1).map(move |first| (first, last)))
        .filter(|&(first, last)| centre(first, last) == at)
        .map(|(first, last)| &draft[first - 1..last])
        .filter(|stretch| is_mirrored(stretch))
        .map(radius)
        .max()
        .expect("the centre is from 1 to 2n+1")
}

/// The centre of an ending of a draft of n picks: its first pick is n - length + 1
/// and its last is n.
fn centre_of_ending(n: usize, length: usize) -> usize {
    centre(n - length + 1, n)
}

/// Centre of the longest ending.
pub fn longest_centre(draft: &[u8]) -> usize {
    centre_of_ending(draft.len(), longest_ending(draft))
}

/// Centre of the next shorter ending after the one at the given centre, and "the length
/// and the least period of the ending it was given"; none when the centre belongs to no
/// ending, or to the empty one.
pub fn next_ending(draft: &[u8], at: usize) -> Option<NextEnding> {
    let n = draft.len();
    let length = endings(draft)
        .into_iter()
        .find(|&length| centre_of_ending(n, length) == at)?;
    next_shorter(draft, length).map(|shorter| NextEnding {
        centre: centre_of_ending(n, shorter),
        length,
        period: least_period(&draft[n - length..]),
    })
}
