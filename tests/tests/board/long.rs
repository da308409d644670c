//! The library's board against the comparison program on drafts of 2,048 picks.

use crate::support::compared::feed_all_compared;
use comparison::fast::Fast;
use comparison::full_drafts::{self, Named};
use comparison::library::Board;
use comparison::MOST_SECTIONS;

/// Feeds a draft and compares each pick; all that is kept at the end and after every
/// 53 picks, and the row words and gathered words after every 13.
fn compare_draft(name: &str, draft: &[u8], most_sections: usize) {
    let name = format!("{name}, K {most_sections}");
    let fast = Fast::new(draft, most_sections);
    let mut board = Board::started(most_sections);
    feed_all_compared(&mut board, &fast, draft, [13, 53], &name);
}

/// Compares each draft for K = 8 and for a smaller K.
fn compare_for_two(drafts: &[Named]) {
    for (name, draft) in drafts {
        compare_draft(name, draft, MOST_SECTIONS);
        compare_draft(name, draft, 3);
    }
}

#[test]
fn repeated_units() {
    compare_for_two(&full_drafts::repeated_units());
}

#[test]
fn well_known_words() {
    compare_for_two(&full_drafts::well_known_words());
}

#[test]
fn joined_random_palindromes() {
    compare_for_two(&full_drafts::palindromes(6));
}

#[test]
fn cubes_broken_and_mirrored() {
    compare_for_two(&full_drafts::cubes(12));
}

#[test]
fn periods_broken_and_mirrored() {
    compare_for_two(&full_drafts::periods(12));
}

#[test]
fn random_drafts() {
    compare_for_two(&full_drafts::random());
}

#[test]
fn a_series_come_back_to() {
    compare_for_two(&full_drafts::come_back());
}

#[test]
fn long_periods() {
    compare_for_two(&full_drafts::long_periods());
}
