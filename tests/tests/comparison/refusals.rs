//! Each refusal number on both sides of its bound.

mod all_calls;

use crate::support::fed::fed;
use all_calls::{load_number, numbers_of_all_calls, stored};
use comparison::calls::{self, NextEnding};
use comparison::support::bad_ends::BAD_ENDS;
use comparison::{MOST_SECTIONS, VISIT_ROOM};

#[test]
fn number_1_in_start() {
    for most_sections in [0, 9, 255, 256 + 8, usize::MAX] {
        let mut state = fed(b"AB", 5);
        assert_eq!(calls::start(&mut state, most_sections), Err(1));
        assert_eq!(state, fed(b"AB", 5), "K {most_sections}");
    }
    for most_sections in [1, 8] {
        let mut state = fed(b"AB", 5);
        assert_eq!(calls::start(&mut state, most_sections), Ok(()));
        assert_eq!(state, fed(b"", most_sections));
    }
}

#[test]
fn number_1_in_split_and_record() {
    for most_sections in 1..=MOST_SECTIONS {
        let state = fed(b"AAAAAAAAAA", most_sections);
        for k in [0, most_sections + 1, 256 + 1, usize::MAX] {
            assert_eq!(calls::split(&state, 10, k, &mut [0; 16]), Err(1), "k {k}");
            let refused = calls::folded_record(&state, 10, k, &mut [0; 99]);
            assert_eq!(refused, Err(1), "k {k}");
        }
        for k in [1, most_sections] {
            // the last section has 11 - k picks, each before it one
            assert_eq!(calls::split(&state, 10, k, &mut [0; 16]), Ok(1));
            let accepted = calls::folded_record(&state, 10, k, &mut [0; 99]);
            assert!(accepted.is_ok(), "k {k}");
        }
    }
}

#[test]
fn number_2_in_feed_lift_mark_and_back() {
    for byte in 0..=255 {
        let mut state = fed(b"", MOST_SECTIONS);
        let fed_number = calls::feed(&mut state, byte, &mut [0; VISIT_ROOM]).err();
        let expected = (!(65..=90).contains(&byte)).then_some(2);
        assert_eq!(fed_number, expected, "byte {byte}");
        assert_eq!(calls::lift(&state, byte).err(), expected, "byte {byte}");
        assert_eq!(calls::mark(&mut state, byte).err(), expected, "name {byte}");
        assert_eq!(calls::back(&mut state, byte).err(), expected, "name {byte}");
    }
}

#[test]
fn number_3() {
    for (entries, expected) in [(0, Some(3)), (18, Some(3)), (19, None), (20, None)] {
        let mut state = fed(b"AB", MOST_SECTIONS);
        let answer = calls::feed(&mut state, b'C', &mut vec![0; entries]);
        assert_eq!(answer.err(), expected, "{entries} entries");
    }
}

#[test]
fn number_13() {
    let state = fed(b"AAAAAAAA", MOST_SECTIONS);
    for k in 1..=MOST_SECTIONS {
        // the last section has 9 - k picks, each before it one
        let turns = if k < 8 { 1 } else { 0 };
        assert_eq!(calls::split(&state, 8, k, &mut vec![0; k - 1]), Err(13));
        assert_eq!(calls::split(&state, 8, k, &mut vec![0; k]), Ok(turns));
        assert_eq!(calls::split(&state, 8, k, &mut vec![0; k + 1]), Ok(turns));
    }
}

#[test]
fn number_4_by_prefix() {
    let state = fed(b"ABA", MOST_SECTIONS);
    assert_eq!(calls::mask_of_prefix(&state, 0), Ok(0));
    assert_eq!(calls::mask_of_prefix(&state, 3), Ok(5));
    assert_eq!(calls::split(&state, 3, 1, &mut [0; 1]), Ok(1));
    assert_eq!(calls::folded_record(&state, 3, 1, &mut [0; 99]), Ok(9));
    for i in [4, 1 << 16, usize::MAX] {
        assert_eq!(calls::mask_of_prefix(&state, i), Err(4));
        assert_eq!(calls::split(&state, i, 1, &mut [0; 1]), Err(4));
        assert_eq!(calls::folded_record(&state, i, 1, &mut [0; 99]), Err(4));
    }
}

#[test]
fn number_4_by_centre() {
    for draft in ["", "A", "ABA"] {
        let n = draft.len();
        let state = fed(draft.as_bytes(), MOST_SECTIONS);
        for centre in [0, 2 * n + 2, usize::MAX] {
            assert_eq!(calls::radius_at(&state, centre), Err(4), "{draft} {centre}");
            assert_eq!(
                calls::next_ending(&state, centre),
                Err(4),
                "{draft} {centre}"
            );
        }
        for centre in [1, 2 * n + 1] {
            assert_eq!(calls::radius_at(&state, centre), Ok(0), "{draft} {centre}");
            let number = calls::next_ending(&state, centre).err();
            assert_eq!(number, Some(10), "{draft} {centre}");
        }
    }
}

#[test]
fn number_4_in_show() {
    for (s, number, part) in [(0, 4, ""), (1, 0, "AB"), (2, 0, "A"), (3, 4, "")] {
        assert_eq!(calls::show_number(b"ABA", &[2, 3], s), number, "s {s}");
        assert_eq!(calls::show(b"ABA", &[2, 3], s), part.as_bytes(), "s {s}");
    }
    for s in [0, 1, usize::MAX] {
        assert_eq!(calls::show_number(b"", &[], s), 4, "s {s}");
        assert_eq!(calls::show(b"ABA", &[], s), b"", "s {s}");
        assert_eq!(calls::show_number(b"ABA", &[], s), 4, "s {s}");
    }
}

#[test]
fn number_5() {
    for (draft, k, bytes) in [("A", 1, 8), ("ABACDDC", 2, 14), ("ABACDDC", 7, 32)] {
        let state = fed(draft.as_bytes(), MOST_SECTIONS);
        let i = draft.len();
        let short = &mut vec![0; bytes - 1];
        assert_eq!(calls::folded_record(&state, i, k, short), Err(5), "{draft}");
        let exact = &mut vec![0; bytes];
        assert_eq!(
            calls::folded_record(&state, i, k, exact),
            Ok(bytes),
            "{draft}"
        );
        assert_eq!(
            calls::folded_record(&state, i, k, &mut []),
            Err(5),
            "{draft}"
        );
    }
}

#[test]
fn number_6() {
    let good: [&[u16]; 4] = [&[4], &[1, 4], &[3, 4], &[1, 2, 3, 4]];
    for ends in good {
        for s in 1..=ends.len() {
            assert_eq!(calls::show_number(b"ABCD", ends, s), 0, "{ends:?}");
            assert!(!calls::show(b"ABCD", ends, s).is_empty(), "{ends:?}");
        }
    }
    for ends in BAD_ENDS {
        for s in 1..=ends.len() {
            assert_eq!(calls::show_number(b"ABCD", ends, s), 6, "{ends:?}");
            assert_eq!(calls::show(b"ABCD", ends, s), b"", "{ends:?}");
        }
    }
    assert_eq!(calls::show_number(b"", &[0], 1), 6);
}

/// The part shown is the lent letters themselves, whatever bytes they are.
#[test]
fn show_hands_back_the_lent_letters() {
    let letters = [0, 10, 255, 64, 91, 200];
    let ends = [1, 4, 6];
    let parts = [(1, 0, 1), (2, 1, 4), (3, 4, 6)];
    for (s, before, end) in parts {
        let part = calls::show(&letters, &ends, s);
        assert_eq!(part.as_ptr_range(), letters[before..end].as_ptr_range());
    }
}

/// The number of ends is not bounded by K.
#[test]
fn show_of_more_than_eight_sections() {
    let ends: Vec<u16> = (1..=26).collect();
    let letters: Vec<u8> = (b'A'..=b'Z').collect();
    for s in 1..=26 {
        assert_eq!(calls::show_number(&letters, &ends, s), 0, "s {s}");
        assert_eq!(calls::show(&letters, &ends, s), &letters[s - 1..s], "s {s}");
    }
}

/// Ends are 16-bit numbers, so they reach 65,535 letters and no further.
#[test]
fn show_of_more_letters_than_an_end_can_count() {
    let letters = vec![b'A'; 65_536];
    assert_eq!(calls::show_number(&letters[1..], &[u16::MAX], 1), 0);
    assert_eq!(calls::show(&letters[1..], &[u16::MAX], 1).len(), 65_535);
    for end in [0, u16::MAX] {
        assert_eq!(calls::show_number(&letters, &[end], 1), 6);
    }
}

#[test]
fn number_7() {
    let odd = [(2_049, 8), ((1 << 16) + 3, 8), (3, 0), (3, 9), (3, 256 + 8)];
    for (n, most_sections) in odd {
        let numbers = numbers_of_all_calls(&stored(n, most_sections));
        assert_eq!(numbers, [Some(7); 11], "n {n}, K {most_sections}");
        let mut started = stored(n, most_sections);
        assert_eq!(calls::start(&mut started, 4), Ok(()));
        assert_eq!(started, fed(b"", 4), "n {n}, K {most_sections}");
    }
    for most_sections in [1, 8] {
        let mut expected = [None; 11];
        expected[10] = Some(16);
        let numbers = numbers_of_all_calls(&stored(3, most_sections));
        assert_eq!(numbers, expected, "K {most_sections}");
        let mut full = expected;
        full[0] = Some(8);
        let numbers = numbers_of_all_calls(&stored(2_048, most_sections));
        assert_eq!(numbers, full, "K {most_sections}");
    }
}

#[test]
fn number_8() {
    let mut state = stored(2_047, MOST_SECTIONS);
    let list = &mut [0; VISIT_ROOM];
    assert!(calls::feed(&mut state, b'B', list).is_ok());
    assert_eq!(calls::feed(&mut state, b'B', list), Err(8));
    assert_eq!(state.n, 2_048);
}

#[test]
fn number_14() {
    let state = fed(b"", MOST_SECTIONS);
    for length in (0..=60).chain([255, 256 + 26, 65_536 + 26]) {
        let expected = (length != 26).then_some(14);
        let number = load_number(&state, &vec![255; length]);
        assert_eq!(number, expected, "{length} bytes");
    }
}

/// The first 0 of one, of two and of all from a place on.
#[test]
fn number_15() {
    let mut state = fed(b"", MOST_SECTIONS);
    for first in 0..26 {
        for second in first..26 {
            let mut table = [1; 26];
            (table[first], table[second]) = (0, 0);
            let expected = Err((15, Some(first)));
            assert_eq!(calls::load(&mut state, &table), expected, "{second}");
            table[first..].fill(0);
            assert_eq!(calls::load(&mut state, &table), expected);
        }
    }
    assert_eq!(calls::load(&mut state, &[1; 26]), Ok(()));
}

#[test]
fn number_16() {
    assert_eq!(load_number(&fed(b"", 8), &[1; 26]), None);
    assert_eq!(load_number(&fed(b"A", 8), &[1; 26]), Some(16));
    assert_eq!(load_number(&stored(2_048, 8), &[1; 26]), Some(16));
    let mut again = fed(b"A", 8);
    assert_eq!(calls::start(&mut again, 8), Ok(()));
    assert_eq!(load_number(&again, &[1; 26]), None);
}

/// Each letter by itself: no mark before it is set, one afterwards, and none after a start.
#[test]
fn number_17() {
    for name in b'A'..=b'Z' {
        let mut state = fed(b"AB", 8);
        assert_eq!(calls::back(&mut state, name), Err(17), "{name}");
        assert_eq!(calls::mark(&mut state, name), Ok(()), "{name}");
        for other in (b'A'..=b'Z').filter(|&other| other != name) {
            assert_eq!(calls::back(&mut state, other), Err(17), "{other}");
        }
        assert_eq!(calls::back(&mut state, name), Ok(()), "{name}");
        assert_eq!(calls::start(&mut state, 8), Ok(()));
        assert_eq!(calls::back(&mut state, name), Err(17), "{name}");
    }
}

/// Four names are taken and no fifth; each of the four can be set again; where one is
/// dropped, another is taken.
#[test]
fn number_18() {
    let mut state = fed(b"", 8);
    for (at, name) in (b'W'..=b'Z').enumerate() {
        assert_eq!(calls::mark(&mut state, name), Ok(()), "{name}");
        assert!(calls::feed(&mut state, b'A', &mut [0; VISIT_ROOM]).is_ok());
        assert_eq!(state.marks[22..][at], at as u16 + 1, "{name}");
    }
    for name in b'A'..=b'V' {
        assert_eq!(calls::mark(&mut state, name), Err(18), "{name}");
    }
    for name in b'W'..=b'Z' {
        assert_eq!(calls::mark(&mut state, name), Ok(()), "{name}");
        assert_eq!(calls::mark(&mut state, b'A'), Err(18), "{name}");
    }
    assert_eq!(state.marks[22..], [5; 4]);
    assert!(calls::feed(&mut state, b'B', &mut [0; VISIT_ROOM]).is_ok());
    assert_eq!(calls::mark(&mut state, b'Z'), Ok(()));
    assert_eq!(calls::back(&mut state, b'W'), Ok(()));
    assert_eq!(calls::back(&mut state, b'Z'), Err(17));
    assert_eq!(calls::mark(&mut state, b'A'), Ok(()));
    assert_eq!(calls::mark(&mut state, b'Z'), Err(18));
}

#[test]
fn number_9() {
    let state = fed(b"ABACDDC", MOST_SECTIONS);
    for k in 1..=MOST_SECTIONS {
        let expected = if [1, 3, 8].contains(&k) {
            Some(9)
        } else {
            None
        };
        let split = calls::split(&state, 7, k, &mut vec![0; k]).err();
        assert_eq!(split, expected, "k {k}");
        let record = calls::folded_record(&state, 7, k, &mut [0; 99]).err();
        assert_eq!(record, expected, "k {k}");
        let on_prefix_0 = calls::split(&state, 0, k, &mut vec![0; k]);
        assert_eq!(on_prefix_0, Err(9), "k {k}");
        let on_prefix_0 = calls::folded_record(&state, 0, k, &mut [0; 99]);
        assert_eq!(on_prefix_0, Err(9), "k {k}");
    }
}

/// Example 3 of document 004: the endings have centres 10, 17, 18 and, empty, 19. They
/// are the whole draft, which repeats after 7 picks, AA and A.
#[test]
fn number_10() {
    let state = fed(b"AABACABAA", MOST_SECTIONS);
    for centre in 1..=19 {
        let expected = match centre {
            10 => Ok([17, 9, 7]),
            17 => Ok([18, 2, 1]),
            18 => Ok([19, 1, 1]),
            _ => Err(10),
        };
        let given = calls::next_ending(&state, centre).map(NextEnding::values);
        assert_eq!(given, expected, "{centre}");
    }
    assert_eq!(calls::next_ending(&fed(b"", 8), 1), Err(10));
}
