//! Splits of a prefix into k sections.

use super::stretch::is_section;

/// All splits of a prefix into k sections, each as the last pick numbers of its
/// sections, rising.
pub fn all_splits(prefix: &[u8], k: usize) -> Vec<Vec<usize>> {
    if k == 0 {
        return if prefix.is_empty() {
            vec![Vec::new()]
        } else {
            Vec::new()
        };
    }
    (0..=prefix.len())
        .filter(|&cut| is_section(&prefix[cut..]))
        .flat_map(|cut| all_splits(&prefix[..cut], k - 1))
        .map(|mut ends| {
            ends.push(prefix.len());
            ends
        })
        .collect()
}

/// Whether numbers can be the ends of sections of so many picks: "rising strictly from
/// above 0 to exactly the number".
pub fn are_ends(ends: &[usize], picks: usize) -> bool {
    let from_above_0 = ends.first().is_some_and(|&end| end > 0);
    let rising = ends.windows(2).all(|pair| pair[0] < pair[1]);
    from_above_0 && rising && ends.last() == Some(&picks)
}

/// The lengths of the sections that end at the given pick numbers.
pub fn section_lengths(ends: &[usize]) -> Vec<usize> {
    (0..ends.len())
        .map(|at| {
            if at == 0 {
                ends[0]
            } else {
                ends[at] - ends[at - 1]
            }
        })
        .collect()
}

/// "The turn count of a split is therefore the number of its sections with two or more
/// picks."
pub fn turn_count(ends: &[usize]) -> usize {
    let lengths = section_lengths(ends).into_iter();
    lengths.filter(|&picks| picks >= 2).count()
}

/// "Of all splits it is the one whose last section is longest, then the one
/// before that, working from the last section back to the first."
pub fn named_split(prefix: &[u8], k: usize) -> Option<Vec<usize>> {
    all_splits(prefix, k).into_iter().max_by_key(|ends| {
        let mut from_last_back = section_lengths(ends);
        from_last_back.reverse();
        from_last_back
    })
}
