//! Structured and random drafts of 2,048 picks on the fast path, checked by slices.

use crate::support::longest_mirrored::assert_longest_mirrored;
use comparison::calls::NextEnding;
use comparison::fast::Fast;
use comparison::samples::{fibonacci, repeated, Generator};
use comparison::{plain, MOST_PICKS, MOST_SECTIONS, VISIT_ROOM};

/// A name and a draft of 2,048 picks for each.
fn long_drafts() -> Vec<(&'static str, Vec<u8>)> {
    vec![
        ("all A", repeated(b"A", MOST_PICKS)),
        ("alternating AB", repeated(b"AB", MOST_PICKS)),
        ("Fibonacci word", fibonacci(MOST_PICKS)),
        (
            "random over 26 letters",
            Generator(26).draft(26, MOST_PICKS),
        ),
        ("random over 2 letters", Generator(2).draft(2, MOST_PICKS)),
        ("AAB repeated", repeated(b"AAB", MOST_PICKS)),
        ("doubled words", doubled(MOST_PICKS)),
    ]
}

/// A draft with palindromes inside palindromes: each word is the last one twice, in
/// every other step with a letter between.
fn doubled(length: usize) -> Vec<u8> {
    let mut word = b"A".to_vec();
    let mut step = 0;
    while word.len() < length {
        let again = word.clone();
        if step % 2 == 0 {
            word.push(b"BC"[step / 2 % 2]);
        }
        word.extend(again);
        step += 1;
    }
    word.truncate(length);
    word
}

#[test]
fn fibonacci_word_begins_as_it_should() {
    assert_eq!(fibonacci(13), b"ABAABABAABAAB");
}

/// The visits of each prefix of m picks, c in number: at most 19, and
/// 3^(c-1) <= m * 2^(c-1) (document 004, Lemma 11: each leading ending is more than
/// 3/2 times as long as the next).
#[test]
fn visits_are_few() {
    for (name, draft) in long_drafts() {
        let fast = Fast::new(&draft, MOST_SECTIONS);
        for m in 1..=MOST_PICKS {
            let visits = fast.visits(m);
            let c = visits.len() as u32;
            assert!(visits.len() <= VISIT_ROOM, "{name}, prefix {m}");
            let bound = m as u64 * 2u64.pow(c - 1);
            assert!(3u64.pow(c - 1) <= bound, "{name}, prefix {m}");
            for pair in visits.windows(2) {
                assert!(2 * pair[0] > 3 * pair[1], "{name}, prefix {m}");
            }
        }
    }
}

/// Each visit is an ending; the first is the longest ending by slices.
#[test]
fn visits_are_endings_and_begin_with_the_longest() {
    for (name, draft) in long_drafts() {
        let fast = Fast::new(&draft, MOST_SECTIONS);
        for m in 1..=MOST_PICKS {
            let visits = fast.visits(m);
            let is_ending = |length: &usize| plain::is_ending(&draft[..m], *length);
            assert!(visits.iter().all(is_ending), "{name}, prefix {m}");
            let longest = (1..=m).rev().find(is_ending);
            assert_eq!(visits.first().copied(), longest, "{name}, prefix {m}");
            assert_eq!(Some(fast.longest(m)), longest, "{name}, prefix {m}");
        }
    }
}

/// Every split reported is a split by slices, and one is reported exactly for the
/// bits of the mask.
#[test]
fn splits_are_splits() {
    for (name, draft) in long_drafts() {
        let fast = Fast::new(&draft, MOST_SECTIONS);
        for i in 0..=MOST_PICKS {
            for k in 1..=MOST_SECTIONS {
                let split = fast.split(i, k);
                let in_mask = fast.mask(i) >> (k - 1) & 1 == 1;
                assert_eq!(split.is_some(), in_mask, "{name}, prefix {i} in {k}");
                if let Some(ends) = split {
                    assert_is_split(name, &draft[..i], k, &ends);
                }
            }
        }
    }
}

fn assert_is_split(name: &str, prefix: &[u8], k: usize, ends: &[usize]) {
    let i = prefix.len();
    assert_eq!(ends.len(), k, "{name}, prefix {i}");
    assert_eq!(ends[k - 1], i, "{name}, prefix {i} in {k}");
    for s in 1..=k {
        let section = plain::section(prefix, ends, s);
        assert!(plain::is_section(section), "{name}, prefix {i} in {k}");
    }
}

/// Every radius after 2,048 picks: the stretch of that radius is mirrored, and the
/// next longer one at the same centre is not, or does not fit.
#[test]
fn radii_by_slices() {
    for (name, draft) in long_drafts() {
        let fast = Fast::new(&draft, MOST_SECTIONS);
        for centre in 1..=2 * MOST_PICKS + 1 {
            let radius = fast.radius(MOST_PICKS, centre);
            assert_longest_mirrored(&draft, centre, radius, plain::is_mirrored, name);
        }
    }
}

/// From the longest ending on, each next ending is the next shorter one by slices,
/// down to the empty one, with length and least period; every other centre has none.
#[test]
fn next_endings_by_slices() {
    for (name, draft) in long_drafts() {
        let fast = Fast::new(&draft, MOST_SECTIONS);
        let mut shorter = None;
        for length in 0..=MOST_PICKS {
            let centre = 2 * MOST_PICKS + 1 - length;
            let next = fast.next_ending(MOST_PICKS, centre);
            if plain::is_ending(&draft, length) {
                let period = plain::least_period(&draft[MOST_PICKS - length..]);
                let expected = shorter.map(|shorter| [shorter, length, period]);
                let next = next.map(NextEnding::values);
                assert_eq!(next, expected, "{name}, ending of {length}");
                shorter = Some(centre);
            } else {
                assert_eq!(next, None, "{name}, length {length}");
            }
        }
        for centre in 1..=MOST_PICKS {
            let next = fast.next_ending(MOST_PICKS, centre);
            assert_eq!(next, None, "{name}, centre {centre}");
        }
    }
}

/// The row word of each prefix is the union, over its visits, of the gathered words
/// after that prefix, each moved up one bit. Some prefixes of each draft.
#[test]
fn gathered_words_give_the_row_words() {
    for (name, draft) in long_drafts() {
        let fast = Fast::new(&draft, MOST_SECTIONS);
        for m in (1..=MOST_PICKS).filter(|m| m % 97 == 0 || *m > MOST_PICKS - 20) {
            let gathered = fast.gathered(m);
            let union = fast
                .visits(m)
                .iter()
                .fold(0, |row, length| row | gathered[m - length] << 1);
            assert_eq!(union & 0x1FF, fast.row(m), "{name}, prefix {m}");
        }
    }
}

/// Visits and gathered places of the first 150 picks on the plain path as well.
#[test]
fn the_plain_path_on_150_picks() {
    for (name, draft) in long_drafts() {
        let fast = Fast::new(&draft, MOST_SECTIONS);
        let prefix = &draft[..150];
        assert_eq!(fast.visits(150), plain::visits(prefix), "{name}");
        let places = fast.gathered_places(150);
        for (i, expected) in places.iter().enumerate().step_by(10) {
            let given = plain::gathered_places(prefix, i);
            assert_eq!(given, *expected, "{name}, place {i}");
        }
    }
}
