//! One question put to both paths.

use std::fmt::Debug;

use comparison::fast::Fast;
use comparison::{plain, MOST_SECTIONS};

/// Asserts that the plain path, given the draft, and the fast path, given its
/// tables for K = 8 and its length, both give the expected answer.
pub fn both<T: PartialEq + Debug>(
    draft: &str,
    expected: T,
    plain: impl Fn(&[u8]) -> T,
    fast: impl Fn(&Fast, usize) -> T,
) {
    let letters = draft.as_bytes();
    assert_eq!(plain(letters), expected, "plain path, draft {draft}");
    let tables = Fast::new(letters, MOST_SECTIONS);
    assert_eq!(
        fast(&tables, letters.len()),
        expected,
        "fast path, draft {draft}"
    );
}

/// Asserts that both paths give this mask of the whole draft.
pub fn both_masks(draft: &str, mask: u8) {
    let plain = |letters: &[u8]| plain::mask(letters, MOST_SECTIONS);
    both(draft, mask, plain, Fast::mask);
}

/// Asserts that both paths name this split of the whole draft in k, or none.
pub fn both_splits(draft: &str, k: usize, ends: Option<&[usize]>) {
    both(
        draft,
        ends.map(<[usize]>::to_vec),
        |letters| plain::named_split(letters, k),
        |fast, n| fast.split(n, k),
    );
}
