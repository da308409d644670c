//! The library's reading of a record beside the comparison program's.

use crate::beside::BYTE;
use crate::{calls, library, MOST_PICKS};

/// Unfolds a record into a list of so many entries, on both sides.
pub fn compare_unfold(record: &[u8], entries: usize) {
    let case = || format!("{}, {entries} entries", record.escape_ascii());
    let mut expected = vec![BYTE; entries];
    let mut list = expected.clone();
    let answer = calls::unfold(record, &mut expected);
    assert_eq!(library::unfold(record, &mut list), answer, "{}", case());
    assert!(list == expected, "{}, {}", list.escape_ascii(), case());
}

/// The section at a place of a record, on both sides.
pub fn compare_section(record: &[u8], at: usize) {
    let expected = calls::section_at(record, at);
    let yielded = library::section_at(record, at);
    assert_eq!(yielded, expected, "{} at {at}", record.escape_ascii());
}

/// Unfolds a record into no entry, all that it needs (9 where it is refused), one less and
/// some more, and yields the section at every place up to two beyond its length.
pub fn compare(record: &[u8]) {
    let picks = calls::unfold(record, &mut [0; MOST_PICKS]).unwrap_or(9);
    for entries in [0, picks - 1, picks, picks + 3] {
        compare_unfold(record, entries);
    }
    for at in 0..record.len() + 3 {
        compare_section(record, at);
    }
}
