//! "A refusal returns its number only; state and lent buffers keep every byte. On
//! success, entries past those named keep theirs."

use crate::support::fed::fed;
use comparison::beside::{BYTE, ENTRY};
use comparison::calls::{self, State};
use comparison::samples::every_draft_to;
use comparison::{plain, MOST_PICKS, MOST_SECTIONS};

#[test]
fn refused_feeds_keep_the_state_and_the_list() {
    let full = State::of(&[b'A'; MOST_PICKS], MOST_SECTIONS, &plain::fixed_lifts());
    let odd = State {
        n: MOST_PICKS + 1,
        ..full.clone()
    };
    let cases = [
        (fed(b"ABA", 8), b'A', 18, 3),
        (fed(b"ABA", 8), b'a', 19, 2),
        (full, b'A', 19, 8),
        (odd, b'A', 19, 7),
    ];
    for (before, pick, entries, number) in cases {
        let mut state = before.clone();
        let mut list = vec![ENTRY; entries];
        assert_eq!(calls::feed(&mut state, pick, &mut list), Err(number));
        assert_eq!(list, vec![ENTRY; entries], "number {number}");
        assert!(state == before, "number {number}");
    }
}

/// "A refused table leaves the former in force"; an accepted one changes the lifts alone.
#[test]
fn loads_keep_the_state() {
    let tables: [&[u8]; 4] = [&[], &[7; 25], &[7; 27], &[0; 26]];
    for before in [fed(b"", 8), fed(b"ABA", 8), State::zeros()] {
        let mut state = before.clone();
        for table in tables {
            let refused = calls::load(&mut state, table);
            assert!(refused.is_err(), "{table:?}");
            assert!(state == before, "{table:?}");
        }
    }
    let mut state = fed(b"ABA", 8);
    assert_eq!(calls::load(&mut state, &[7; 26]), Err((16, None)));
    assert!(state == fed(b"ABA", 8));
    let before = State {
        letters: [b'Q'; MOST_PICKS],
        codes: [99; MOST_PICKS],
        ..fed(b"", 5)
    };
    let mut state = before.clone();
    assert_eq!(calls::load(&mut state, &[7; 26]), Ok(()));
    let lifts = [7; 26];
    assert!(state == State { lifts, ..before });
}

/// A refused mark or going back changes nothing; an accepted mark its own entry alone.
#[test]
fn marks_keep_the_state() {
    let mut before = fed(b"ABA", 8);
    for (name, number) in (b'A'..=b'Z').zip(0..) {
        let mut state = before.clone();
        assert_eq!(calls::back(&mut state, name), Err(17), "{name}");
        let expected = if number < 4 { Ok(()) } else { Err(18) };
        assert_eq!(calls::mark(&mut state, name), expected, "{name}");
        if number < 4 {
            before.marks[number] = 4;
        }
        assert!(state == before, "{name}");
        before = state;
    }
    let odd = State {
        most_sections: 0,
        ..before.clone()
    };
    for (before, name, number) in [(odd, b'A', 7), (before, b'@', 2)] {
        let mut state = before.clone();
        assert_eq!(calls::mark(&mut state, name), Err(number));
        assert_eq!(calls::back(&mut state, name), Err(number));
        assert!(state == before, "number {number}");
    }
}

#[test]
fn accepted_feeds_keep_the_entries_past_the_visits() {
    for draft in every_draft_to(2, 9).filter(|draft| !draft.is_empty()) {
        let text = String::from_utf8_lossy(&draft);
        let (last, before) = draft.split_last().unwrap();
        let mut state = fed(before, MOST_SECTIONS);
        let mut list = [ENTRY; 24];
        let taken = calls::feed(&mut state, *last, &mut list).unwrap();
        let mut expected: Vec<u16> = plain::visits(&draft).iter().map(|&l| l as u16).collect();
        assert_eq!(taken.visits, expected.len(), "{text}");
        expected.resize(24, ENTRY);
        assert_eq!(list.to_vec(), expected, "{text}");
        assert_eq!(state.n, draft.len(), "{text}");
        assert_eq!(state.letters[..state.n], draft, "{text}");
        let word = plain::word(&state.lifts, &draft);
        assert_eq!(state.codes[..state.n], word, "{text}");
    }
}

#[test]
fn refused_splits_keep_the_list() {
    let state = fed(b"ABACDDC", 7);
    for (i, k, entries) in [(7, 0, 9), (7, 8, 9), (7, 2, 1), (8, 2, 9), (7, 3, 9)] {
        let mut list = vec![ENTRY; entries];
        assert!(calls::split(&state, i, k, &mut list).is_err());
        assert_eq!(list, vec![ENTRY; entries], "prefix {i} in {k}");
    }
    let mut list = [ENTRY; 9];
    let odd = State { n: 2_049, ..state };
    assert_eq!(calls::split(&odd, 7, 2, &mut list), Err(7));
    assert_eq!(list, [ENTRY; 9]);
}

#[test]
fn accepted_splits_keep_the_entries_past_the_ends() {
    let state = fed(b"ABACDDC", MOST_SECTIONS);
    let mut list = [ENTRY; 6];
    assert_eq!(calls::split(&state, 7, 2, &mut list), Ok(2));
    assert_eq!(list, [3, 7, ENTRY, ENTRY, ENTRY, ENTRY]);
    assert_eq!(calls::split(&state, 3, 3, &mut list), Ok(0));
    assert_eq!(list, [1, 2, 3, ENTRY, ENTRY, ENTRY]);
    assert_eq!(calls::split(&state, 5, 1, &mut list), Err(9));
    assert_eq!(list, [1, 2, 3, ENTRY, ENTRY, ENTRY]);
}

#[test]
fn refused_records_keep_the_output() {
    let state = fed(b"ABACDDC", 7);
    for (i, k, bytes) in [(7, 0, 40), (7, 8, 40), (8, 2, 40), (7, 3, 40), (7, 2, 13)] {
        let mut output = vec![BYTE; bytes];
        assert!(calls::folded_record(&state, i, k, &mut output).is_err());
        assert_eq!(output, vec![BYTE; bytes], "prefix {i} in {k}");
    }
    let mut output = [BYTE; 40];
    let odd = State {
        most_sections: 9,
        ..state
    };
    assert_eq!(calls::folded_record(&odd, 7, 2, &mut output), Err(7));
    assert_eq!(output, [BYTE; 40]);
}

#[test]
fn accepted_records_keep_the_bytes_past_the_record() {
    let state = fed(b"ABACDDC", MOST_SECTIONS);
    let mut output = [BYTE; 20];
    assert_eq!(calls::folded_record(&state, 7, 2, &mut output), Ok(14));
    assert_eq!(&output[..14], b"7,2,3,AB,4,CD\n");
    assert_eq!(output[14..], [BYTE; 6]);
}
