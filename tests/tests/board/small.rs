//! The library's board against the comparison program on every small draft: each
//! pick's answer, and all that is kept after it.

use crate::support::compared::{compare_all, feed_compared};
use crate::support::each_draft::each_draft;
use comparison::fast::Fast;
use comparison::library::Board;
use comparison::MOST_SECTIONS;

/// Feeds the last pick of a draft, and compares the answer and all that is kept with its
/// tables.
fn compare_last(board: &mut Board, draft: &[u8], fast: &mut Fast) {
    let most_sections = board.most_sections();
    let name = format!("{}, K {most_sections}", String::from_utf8_lossy(draft));
    fast.turn_to(draft);
    feed_compared(board, fast, draft[draft.len() - 1], &name);
    compare_all(board, fast, draft, &name);
}

/// Compares every draft over the first few letters to the given length.
fn compare_every_draft(letters: u8, most: usize, most_sections: usize) {
    let mut board = Board::started(most_sections);
    let mut fast = Fast::new(b"", most_sections);
    let name = format!("empty draft, K {most_sections}");
    compare_all(&mut board, &fast, b"", &name);
    each_draft(&board, letters, most, |board, draft| {
        compare_last(board, draft, &mut fast);
    });
}

#[test]
fn two_letters_to_length_16() {
    compare_every_draft(2, 16, MOST_SECTIONS);
}

#[test]
fn three_letters_to_length_10() {
    compare_every_draft(3, 10, MOST_SECTIONS);
}

#[test]
fn two_letters_for_each_smaller_k() {
    for most_sections in 1..MOST_SECTIONS {
        compare_every_draft(2, 14, most_sections);
    }
}

#[test]
fn three_letters_for_each_smaller_k() {
    for most_sections in 1..MOST_SECTIONS {
        compare_every_draft(3, 9, most_sections);
    }
}
