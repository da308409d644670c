//! What is told of an ending, on any stored state.

/// Whether these can be the next shorter ending's centre, the length and the period of
/// the ending at a centre of n picks. "Length less period is always the length at the
/// centre it gives"; the length is the centre's, and the period is 1 to the length.
pub fn is_told([next, length, period]: [usize; 3], centre: usize, n: usize) -> bool {
    let last = 2 * n + 1;
    length == last - centre
        && (1..=length).contains(&period)
        && (centre + 1..=last).contains(&next)
        && length - period == last - next
}
