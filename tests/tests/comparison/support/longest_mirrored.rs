//! The longest mirrored stretch at a centre, by slices.

use comparison::plain;

/// "A stretch on an even centre has length 2 × radius + 1, on an odd centre
/// 2 × radius": the stretch of that length is mirrored, and the one longer by a
/// pick at either side is not, or does not fit in the draft.
pub fn assert_longest_mirrored(
    draft: &[u8],
    centre: usize,
    radius: usize,
    is_mirrored: impl Fn(&[u8]) -> bool,
    name: &str,
) {
    let length = 2 * radius + 1 - centre % 2;
    let before = (centre - 1 - length) / 2;
    let last = before + length;
    assert_eq!(plain::centre(before + 1, last), centre, "{name}");
    let mirrored = is_mirrored(&draft[before..last]);
    assert!(mirrored, "{name}, centre {centre}");
    let fits = before > 0 && last < draft.len();
    let longer = fits && is_mirrored(&draft[before - 1..last + 1]);
    assert!(!longer, "{name}, centre {centre}");
}
