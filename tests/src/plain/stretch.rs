//! Stretches: mirrored or not, centre, radius, periods.

/// "A stretch is mirrored when it equals its reverse."
pub fn is_mirrored(stretch: &[u8]) -> bool {
    stretch.iter().eq(stretch.iter().rev())
}

/// "A section is a non-empty mirrored stretch."
pub fn is_section(stretch: &[u8]) -> bool {
    !stretch.is_empty() && is_mirrored(stretch)
}

/// "A centre is half the sum of the first and last pick number", counted in
/// half picks, so it is the sum itself. The empty stretch after n picks has
/// first pick n+1 and last pick n.
pub fn centre(first: usize, last: usize) -> usize {
    first + last
}

/// "Radius is half the length, rounded down."
pub fn radius(stretch: &[u8]) -> usize {
    stretch.len() / 2
}

/// "A period of a stretch is a positive p with equal picks wherever both stand
/// p apart inside it."
pub fn is_period(stretch: &[u8], p: usize) -> bool {
    p > 0 && (p..stretch.len()).all(|at| stretch[at - p] == stretch[at])
}

/// The periods of a stretch up to its length. Every greater number is a period
/// as well, since no two picks stand so far apart inside it.
pub fn periods(stretch: &[u8]) -> Vec<usize> {
    (1..=stretch.len())
        .filter(|&p| is_period(stretch, p))
        .collect()
}

/// The least period: 1 for the empty stretch, in which no two picks stand.
pub fn least_period(stretch: &[u8]) -> usize {
    let mut p = 1;
    while !is_period(stretch, p) {
        p += 1;
    }
    p
}
