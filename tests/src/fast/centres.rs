//! Questions asked by centre, in half picks, after n picks.

use super::periods::least_period;
use super::Fast;
use crate::plain::NextEnding;

impl Fast {
    /// Radius of the longest mirrored stretch at a centre from 1 to 2n+1. Without
    /// its outer picks a mirrored stretch is mirrored, so the stretches at a
    /// centre are tried from the shortest on.
    pub fn radius(&self, n: usize, at: usize) -> usize {
        let mut last = at / 2;
        let mut first = at - last;
        while first > 1 && last < n && self.mirrored.is_mirrored(first - 2, last + 1) {
            first -= 1;
            last += 1;
        }
        (last + 1 - first) / 2
    }

    /// Centre of the longest ending: 2n - L + 1.
    pub fn longest_centre(&self, n: usize) -> usize {
        2 * n - self.longest(n) + 1
    }

    /// Centre of the next shorter ending after the one at the given centre, and that
    /// one's length and least period; none when the centre belongs to no ending, or to
    /// the empty one.
    pub fn next_ending(&self, n: usize, at: usize) -> Option<NextEnding> {
        let length = (2 * n + 1).checked_sub(at)?;
        let before = n.checked_sub(length)?;
        if !self.mirrored.is_mirrored(before, n) {
            return None;
        }
        let shorter = (before + 1..=n).find(|&cut| self.mirrored.is_mirrored(cut, n));
        shorter.map(|cut| NextEnding {
            centre: n + cut + 1,
            length,
            period: least_period(&self.word[before..n]),
        })
    }
}
