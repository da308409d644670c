//! The plain and the fast path against each other on every small draft.

use comparison::fast::Fast;
use comparison::samples::{every_draft, Generator};
use comparison::{plain, MOST_SECTIONS};

/// All questions about the whole draft, put to both paths. The tables may be those
/// of a longer draft.
fn compare_at(fast: &Fast, draft: &[u8], most_sections: usize) {
    let text = String::from_utf8_lossy(draft);
    let n = draft.len();
    let row = plain::row_word(draft, most_sections);
    assert_eq!(fast.row(n), row, "{text}");
    let mask = plain::mask(draft, most_sections);
    assert_eq!(fast.mask(n), mask, "{text}");
    assert_eq!(fast.visits(n), plain::visits(draft), "{text}");
    assert_eq!(fast.longest(n), plain::longest_ending(draft), "{text}");
    compare_centres(fast, draft);
    compare_gathered(fast, draft, most_sections);
    for k in 0..=most_sections {
        let split = plain::named_split(draft, k);
        assert_eq!(fast.split(n, k), split, "{text} in {k}");
    }
    for k in [most_sections + 1, 64] {
        assert_eq!(fast.split(n, k), None, "{text} in {k}");
    }
}

/// Every radius, the longest ending, and every next ending with length and period, by
/// centre.
fn compare_centres(fast: &Fast, draft: &[u8]) {
    let text = String::from_utf8_lossy(draft);
    let n = draft.len();
    let longest = plain::longest_centre(draft);
    assert_eq!(fast.longest_centre(n), longest, "{text}");
    for centre in 1..=2 * n + 1 {
        let radius = plain::radius_at(draft, centre);
        assert_eq!(fast.radius(n, centre), radius, "{text} at {centre}");
        let next = plain::next_ending(draft, centre);
        assert_eq!(fast.next_ending(n, centre), next, "{text} at {centre}");
    }
}

/// Every gathered word and the places it joins.
fn compare_gathered(fast: &Fast, draft: &[u8], most_sections: usize) {
    let text = String::from_utf8_lossy(draft);
    let places: Vec<Vec<usize>> = (0..=draft.len())
        .map(|i| plain::gathered_places(draft, i))
        .collect();
    assert_eq!(fast.gathered_places(draft.len()), places, "{text}");
    let words: Vec<u16> = (0..=draft.len())
        .map(|i| plain::gathered_word(draft, i, most_sections))
        .collect();
    assert_eq!(fast.gathered(draft.len()), words, "{text}");
}

/// All questions about every prefix of a draft, put to the tables of the whole.
fn compare_every_prefix(draft: &[u8], most_sections: usize) {
    let fast = Fast::new(draft, most_sections);
    for n in 0..=draft.len() {
        compare_at(&fast, &draft[..n], most_sections);
    }
}

/// Every prefix of every draft over two letters of length 12: all shorter drafts
/// are among the prefixes.
#[test]
fn two_letters_to_length_12() {
    for draft in every_draft(2, 12) {
        compare_every_prefix(&draft, MOST_SECTIONS);
    }
}

/// Every prefix of every draft over three letters of length 8.
#[test]
fn three_letters_to_length_8() {
    for draft in every_draft(3, 8) {
        compare_every_prefix(&draft, MOST_SECTIONS);
    }
}

/// Every prefix of every draft over two letters of length 9, for each smaller K.
#[test]
fn smaller_k() {
    for most_sections in 1..MOST_SECTIONS {
        for draft in every_draft(2, 9) {
            compare_every_prefix(&draft, most_sections);
        }
    }
}

/// Longer drafts: every prefix of some of 18 picks over two and three letters. The
/// plain path tries all splits, so longer ones would take it too long.
#[test]
fn longer_drafts() {
    let mut generator = Generator(18);
    for at in 0..60 {
        let letters = 2 + at % 2;
        let draft = generator.draft(letters, 18);
        compare_every_prefix(&draft, [MOST_SECTIONS, 3][usize::from(at) / 30]);
    }
}
