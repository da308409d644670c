//! Document 01's wrong turns: for each, a draft on which the wrong turn gives
//! another answer than the right one.

use crate::support::both::{both, both_masks, both_splits};
use comparison::{plain, MOST_SECTIONS};

/// Row bits 0 to 8.
const ROW_BITS: u16 = 0x1FF;

/// The row word by visits, when the word of each visited place is as given.
fn row_by_visits(letters: &[u8], word_at: impl Fn(usize) -> u16) -> u16 {
    plain::visits(letters)
        .iter()
        .map(|length| letters.len() - length)
        .fold(0, |row, place| row | word_at(place) << 1)
        & ROW_BITS
}

/// The right row word by visits: that of the gathered words.
fn right_row(letters: &[u8]) -> u16 {
    row_by_visits(letters, |i| plain::gathered_word(letters, i, MOST_SECTIONS))
}

#[test]
fn the_empty_ending_is_no_section() {
    fn joined_with_empty(prefix: &[u8], k: usize) -> bool {
        if k == 0 {
            return prefix.is_empty();
        }
        (0..=prefix.len()).any(|cut| {
            plain::is_mirrored(&prefix[cut..]) && joined_with_empty(&prefix[..cut], k - 1)
        })
    }
    assert_eq!(plain::radius(b""), plain::radius(b"A"));
    assert!(joined_with_empty(b"A", 2));
    both_splits("A", 2, None);
    both_masks("A", 1);
    assert!(joined_with_empty(b"", 1));
    both_splits("", 1, None);
    both_masks("", 0);
}

#[test]
fn a_yes_for_k_is_no_yes_for_k_plus_1() {
    both_masks("ABA", 0b101);
    both_splits("ABA", 1, Some(&[3]));
    both_splits("ABA", 2, None);
    both_splits("ABA", 3, Some(&[1, 2, 3]));
}

/// AAABAAA: place 0 gathered rows 0 and 1 for AAA; the whole draft has least period
/// 4 and is not cubic, so the word is row 0 alone. The old word would add two
/// sections, and there is no split in 2.
#[test]
fn an_old_gathered_word_is_not_kept() {
    let letters = b"AAABAAA";
    let kept = row_by_visits(letters, |i| {
        let p = plain::least_period(&letters[i..]);
        let is_cubic = 3 * p <= letters.len() - i;
        let now = if is_cubic || i == 6 { 7 } else { 6 };
        plain::gathered_word(&letters[..now], i, MOST_SECTIONS)
    });
    assert_eq!(kept >> 1, 127);
    assert_eq!(right_row(letters) >> 1, 125);
    both_masks("AAABAAA", 125);
    both_splits("AAABAAA", 2, None);
    let word = |letters: &[u8]| plain::gathered_word(letters, 0, MOST_SECTIONS);
    both("AAABAA", 0b11, word, |fast, n| fast.gathered(n)[0]);
    both("AAABAAA", 0b1, word, |fast, n| fast.gathered(n)[0]);
}

/// ABAAA in 2: before the longest ending AAA stands AB, which is no section; before
/// the shorter ending AA stands ABA, which is one. AAA in 2: before the longest
/// ending stands nothing.
#[test]
fn the_longest_ending_is_not_always_cut_off_first() {
    fn cut_longest(prefix: &[u8], k: usize) -> Option<Vec<usize>> {
        if k == 0 || prefix.is_empty() {
            return (k == 0 && prefix.is_empty()).then(Vec::new);
        }
        let cut = prefix.len() - plain::longest_ending(prefix);
        let mut ends = cut_longest(&prefix[..cut], k - 1)?;
        ends.push(prefix.len());
        Some(ends)
    }
    assert_eq!(cut_longest(b"ABAAA", 2), None);
    both_splits("ABAAA", 2, Some(&[3, 5]));
    assert_eq!(cut_longest(b"AAA", 2), None);
    both_splits("AAA", 2, Some(&[1, 3]));
}

/// ABAAA: the ending AAA is exactly three periods long, so its word joins rows 2
/// and 3. Without row 3 the two sections ABA and AA are missed.
#[test]
fn exactly_three_periods_are_a_series() {
    let letters = b"ABAAA";
    let too_short = row_by_visits(letters, |i| {
        if 3 * plain::least_period(&letters[i..]) == letters.len() - i {
            plain::row_word(&letters[..i], MOST_SECTIONS)
        } else {
            plain::gathered_word(letters, i, MOST_SECTIONS)
        }
    });
    assert_eq!(too_short >> 1, 28);
    assert_eq!(right_row(letters) >> 1, 30);
    both_masks("ABAAA", 30);
    both(
        "ABAAA",
        vec![2, 3],
        |letters| plain::gathered_places(letters, 2),
        |fast, n| fast.gathered_places(n).swap_remove(2),
    );
}
