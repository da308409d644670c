//! What document 01 says follows from its definitions, on every small draft; and turn
//! counts by the parts of the draft.

use comparison::fast::Fast;
use comparison::samples::{every_draft_to, repeated, Generator};
use comparison::support::turns::turns_by_parts;
use comparison::{plain, MOST_SECTIONS};

/// Every draft over two letters to length 12 and over three to length 8.
fn small_drafts() -> impl Iterator<Item = Vec<u8>> {
    every_draft_to(2, 12).chain(every_draft_to(3, 8))
}

/// "The next shorter leading ending after one of length len and least period p has
/// length min(p + (len mod p), len - p)": the longest of the shorter leading ones.
#[test]
fn next_shorter_leading_ending_by_definition_and_by_formula() {
    for draft in small_drafts() {
        for length in plain::visits(&draft) {
            let p = plain::least_period(&draft[draft.len() - length..]);
            assert_eq!(
                plain::next_shorter_leading(&draft, length),
                Some(plain::next_leading_by_formula(length, p)),
                "{} {length}",
                String::from_utf8_lossy(&draft)
            );
        }
    }
}

/// "Length less period is always the length at the centre it gives", of every ending but
/// the empty one.
#[test]
fn length_less_period_is_the_next_endings_length() {
    for draft in small_drafts() {
        let text = String::from_utf8_lossy(&draft);
        let last = 2 * draft.len() + 1;
        let fast = Fast::new(&draft, MOST_SECTIONS);
        for length in plain::endings(&draft).into_iter().filter(|&len| len > 0) {
            let by_plain = plain::next_ending(&draft, last - length);
            let by_fast = fast.next_ending(draft.len(), last - length);
            for next in [by_plain, by_fast] {
                let next = next.expect("an ending that is not empty");
                assert_eq!(next.length, length, "{text} {length}");
                let shorter = last - next.centre;
                assert_eq!(length - next.period, shorter, "{text} {length}");
            }
        }
    }
}

/// "A new pick's row word is the union of the visited places' gathered words, each
/// moved up one bit, bits above K dropped."
#[test]
fn row_word_is_the_union_over_the_visits() {
    for (at, draft) in small_drafts().filter(|draft| !draft.is_empty()).enumerate() {
        let n = draft.len();
        let most_sections = 1 + at % MOST_SECTIONS;
        let kept = (1 << (most_sections + 1)) - 1;
        let fast = Fast::new(&draft, most_sections);
        let gathered = fast.gathered(n);
        let text = String::from_utf8_lossy(&draft);
        let by_plain = plain::visits(&draft).iter().fold(0, |row, length| {
            row | plain::gathered_word(&draft, n - length, most_sections) << 1
        });
        let by_fast = fast
            .visits(n)
            .iter()
            .fold(0, |row, length| row | gathered[n - length] << 1);
        let row = plain::row_word(&draft, most_sections);
        assert_eq!(by_plain & kept, row, "plain path, draft {text}");
        assert_eq!(by_fast & kept, row, "fast path, draft {text}");
    }
}

/// "Bit 0 is set for prefix 0 alone", and "mask bit k-1 is row bit k".
#[test]
fn bit_0_and_the_mask() {
    for draft in every_draft_to(2, 9) {
        let text = String::from_utf8_lossy(&draft);
        let fast = Fast::new(&draft, MOST_SECTIONS);
        for row in [
            plain::row_word(&draft, MOST_SECTIONS),
            fast.row(draft.len()),
        ] {
            assert_eq!(row & 1 == 1, draft.is_empty(), "{text}");
        }
        for k in 1..=MOST_SECTIONS {
            let is_joined = plain::is_joined(&draft, k);
            let mask = plain::mask(&draft, MOST_SECTIONS);
            assert_eq!(mask >> (k - 1) & 1 == 1, is_joined, "{text} {k}");
            assert_eq!(
                fast.mask(draft.len()) >> (k - 1) & 1 == 1,
                is_joined,
                "{text} {k}"
            );
        }
    }
}

/// "The number of its sections with two or more picks", of every split into 1 to 8: every
/// count of turns from 0 to k is among those into k.
#[test]
fn turn_counts_by_the_parts_of_the_draft() {
    let longer = (11..=16).map(|length| repeated(b"AABB", length));
    let drafts: Vec<Vec<u8>> = every_draft_to(2, 10).chain(longer).collect();
    for k in 1..=MOST_SECTIONS {
        let mut given = vec![false; k + 1];
        for draft in &drafts {
            for ends in plain::all_splits(draft, k) {
                let turns = plain::turn_count(&ends);
                let text = String::from_utf8_lossy(draft);
                assert_eq!(turns, turns_by_parts(draft, &ends), "{text} {ends:?}");
                given[turns] = true;
            }
        }
        assert!(!given.contains(&false), "in {k}: {given:?}");
    }
}

/// The periods of a stretch, by comparing it with itself moved by p.
#[test]
fn periods_by_shifted_slices() {
    let mut generator = Generator(4);
    for _ in 0..2_000 {
        let length = 1 + generator.below(16);
        let stretch = generator.draft(2, length);
        let shifted: Vec<usize> = (1..=length)
            .filter(|&p| stretch[p..] == stretch[..length - p])
            .collect();
        let text = String::from_utf8_lossy(&stretch);
        assert_eq!(plain::periods(&stretch), shifted, "{text}");
        assert_eq!(plain::least_period(&stretch), shifted[0], "{text}");
    }
    assert_eq!(plain::least_period(b""), 1);
    assert!(!plain::is_period(b"AA", 0));
    assert!(plain::is_period(b"AB", 2) && plain::is_period(b"AB", 3));
}
