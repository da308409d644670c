//! Endings of a prefix, leading endings and the visits.

use super::stretch::{is_mirrored, periods};

/// "An ending is a mirrored stretch that closes the prefix", here by its length.
pub fn is_ending(prefix: &[u8], length: usize) -> bool {
    length <= prefix.len() && is_mirrored(&prefix[prefix.len() - length..])
}

/// The lengths of all endings, the empty one included, longest first.
pub fn endings(prefix: &[u8]) -> Vec<usize> {
    (0..=prefix.len())
        .rev()
        .filter(|&length| is_ending(prefix, length))
        .collect()
}

/// L, the length of the longest ending.
pub fn longest_ending(prefix: &[u8]) -> usize {
    endings(prefix)[0]
}

/// "An ending is leading when every period p of every longer ending of that
/// prefix has 2p greater than the ending's length." The periods above a longer
/// ending's own length meet this, so those up to it are the ones tried.
pub fn is_leading(prefix: &[u8], length: usize) -> bool {
    is_ending(prefix, length)
        && (length + 1..=prefix.len())
            .filter(|&longer| is_ending(prefix, longer))
            .all(|longer| {
                periods(&prefix[prefix.len() - longer..])
                    .iter()
                    .all(|p| 2 * p > length)
            })
}

/// The lengths visited: the leading endings, longest first. "The empty ending
/// is never visited."
pub fn visits(prefix: &[u8]) -> Vec<usize> {
    (1..=prefix.len())
        .rev()
        .filter(|&length| is_leading(prefix, length))
        .collect()
}

/// The next shorter ending, leading or not; none after the empty one.
pub fn next_shorter(prefix: &[u8], length: usize) -> Option<usize> {
    (0..length)
        .rev()
        .find(|&shorter| is_ending(prefix, shorter))
}

/// The next shorter leading ending: the longest of the shorter leading ones.
/// None after the empty one.
pub fn next_shorter_leading(prefix: &[u8], length: usize) -> Option<usize> {
    (0..length)
        .rev()
        .find(|&shorter| is_leading(prefix, shorter))
}

/// "The next shorter leading ending after one of length len and least period p
/// has length min(p + (len mod p), len - p)."
pub fn next_leading_by_formula(length: usize, p: usize) -> usize {
    usize::min(p + length % p, length - p)
}
