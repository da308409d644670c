//! Gathered words.

use super::endings::{is_leading, next_shorter_leading};
use super::rows::row_word;
use super::stretch::least_period;

/// The places whose row words the gathered word at place i joins.
///
/// "Take the largest j for which picks i+1 to j are a leading ending of prefix j,
/// its least period p and the length d of the next shorter leading one": the
/// places are i, i+p, i+2p and so on to j-d-p. At i = n it is place n alone.
pub fn gathered_places(draft: &[u8], i: usize) -> Vec<usize> {
    let n = draft.len();
    if i == n {
        return vec![n];
    }
    let j = (i + 1..=n)
        .rev()
        .find(|&j| is_leading(&draft[..j], j - i))
        .expect("a one-pick ending is leading");
    let p = least_period(&draft[i..j]);
    let d = next_shorter_leading(&draft[..j], j - i).expect("the empty ending is leading");
    (i..=j - d - p).step_by(p).collect()
}

/// The gathered word at place i: the union of those row words.
pub fn gathered_word(draft: &[u8], i: usize, most_sections: usize) -> u16 {
    gathered_places(draft, i).iter().fold(0, |word, &place| {
        word | row_word(&draft[..place], most_sections)
    })
}
