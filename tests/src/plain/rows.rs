//! Row words and masks.

use super::stretch::is_section;
use crate::MOST_SECTIONS;

/// "K, chosen at the start, is 1 to 8."
pub fn is_most_sections(most_sections: usize) -> bool {
    (1..=MOST_SECTIONS).contains(&most_sections)
}

/// Whether the prefix is k sections joined, by trying every cut before the last
/// section.
pub fn is_joined(prefix: &[u8], k: usize) -> bool {
    if k == 0 {
        return prefix.is_empty();
    }
    (0..=prefix.len()).any(|cut| is_section(&prefix[cut..]) && is_joined(&prefix[..cut], k - 1))
}

/// "The row word of prefix i has bit k set when the prefix is k sections joined,
/// k from 0 to K; bit 0 is set for prefix 0 alone."
pub fn row_word(prefix: &[u8], most_sections: usize) -> u16 {
    (0..=most_sections)
        .filter(|&k| is_joined(prefix, k))
        .fold(0, |word, k| word | 1 << k)
}

/// "Mask bit k-1 is row bit k."
pub fn mask(prefix: &[u8], most_sections: usize) -> u8 {
    (row_word(prefix, most_sections) >> 1) as u8
}
