//! Every worked example of document 01, but for the draft program's, and the turn counts
//! and the marks of document 02.

use crate::support::both::{both, both_masks, both_splits};
use crate::support::fed::fed;
use crate::support::longest_mirrored::assert_longest_mirrored;
use comparison::calls::{self, NextEnding, State};
use comparison::fast::Fast;
use comparison::samples::{every_draft_to, repeated};
use comparison::support::ending_examples::ENDINGS;
use comparison::support::mark_examples::sessions;
use comparison::support::turn_counts::TURN_COUNTS;
use comparison::{plain, FIRST_PICK, LAST_PICK, MOST_PICKS, MOST_SECTIONS, VISIT_ROOM};

/// The mask and the visits of the whole draft, on both paths and from its last feed.
fn assert_mask_and_visits(draft: &str, mask: u8, visits: &[usize]) {
    assert_mask(draft, mask);
    both(draft, visits.to_vec(), plain::visits, Fast::visits);
    let (last, before) = draft.as_bytes().split_last().unwrap();
    let mut list = [7; VISIT_ROOM];
    let taken = calls::feed(&mut fed(before, MOST_SECTIONS), *last, &mut list).unwrap();
    assert_eq!((taken.mask, taken.visits), (mask, visits.len()), "{draft}");
    let front: Vec<usize> = list[..taken.visits]
        .iter()
        .map(|&length| usize::from(length))
        .collect();
    assert_eq!(front, visits, "{draft}");
}

/// The mask of the whole draft, on both paths and from the call.
fn assert_mask(draft: &str, mask: u8) {
    both_masks(draft, mask);
    let state = fed(draft.as_bytes(), MOST_SECTIONS);
    assert_eq!(
        calls::mask_of_prefix(&state, draft.len()),
        Ok(mask),
        "{draft}"
    );
}

/// The named split of the whole draft in k, on both paths and from the call, which gives
/// the turn count too.
fn assert_split(draft: &str, k: usize, ends: &[usize], turns: usize) {
    both_splits(draft, k, Some(ends));
    let mut list = vec![0; k];
    let state = fed(draft.as_bytes(), MOST_SECTIONS);
    assert_eq!(
        calls::split(&state, draft.len(), k, &mut list),
        Ok(turns),
        "{draft} in {k}"
    );
    let given: Vec<usize> = list.iter().map(|&end| usize::from(end)).collect();
    assert_eq!(given, ends, "{draft} in {k}");
}

/// No split of the whole draft in k, on both paths and from the call.
fn assert_no_split(draft: &str, k: usize) {
    both_splits(draft, k, None);
    let state = fed(draft.as_bytes(), MOST_SECTIONS);
    assert_eq!(
        calls::split(&state, draft.len(), k, &mut vec![0; k]),
        Err(9),
        "{draft}"
    );
}

#[test]
fn prefix_0_has_mask_0_and_no_split() {
    assert_mask("", 0);
    for k in 1..=MOST_SECTIONS {
        assert_no_split("", k);
    }
}

#[test]
fn runs_of_one_letter() {
    assert_mask_and_visits("A", 1, &[1]);
    assert_mask("AA", 3);
    assert_mask_and_visits("AAA", 7, &[3, 1]);
    assert_split("AAA", 2, &[1, 3], 1);
}

#[test]
fn alternating_letters() {
    assert_mask("AB", 2);
    assert_mask_and_visits("ABABAB", 42, &[5, 3, 1]);
    assert_mask_and_visits("ABABABA", 85, &[7, 3, 1]);
}

#[test]
fn abacddc() {
    assert_mask("ABACDDC", 122);
    assert_split("ABACDDC", 2, &[3, 7], 2);
    both("ABACDDC", 11, plain::longest_centre, Fast::longest_centre);
    let on_empty = calls::longest_centre(&fed(b"", MOST_SECTIONS)).unwrap();
    let at_end = calls::longest_centre(&fed(b"ABACDDC", MOST_SECTIONS)).unwrap();
    assert_eq!(at_end - on_empty, 10);
}

#[test]
fn aabacabaa_by_centre() {
    for (centre, radius) in [(10, 4), (11, 0), (3, 1)] {
        both(
            "AABACABAA",
            radius,
            |letters| plain::radius_at(letters, centre),
            |fast, n| fast.radius(n, centre),
        );
        let state = fed(b"AABACABAA", MOST_SECTIONS);
        assert_eq!(calls::radius_at(&state, centre), Ok(radius));
    }
}

/// Every ending of the whole draft, from the longest on: its centre, and what is told of
/// it. Every other centre belongs to none.
fn assert_endings(draft: &str, endings: &[(usize, [usize; 3])]) {
    let state = fed(draft.as_bytes(), MOST_SECTIONS);
    for centre in 1..=2 * draft.len() + 1 {
        let told = endings.iter().find(|(at, _)| *at == centre);
        let told = told.map(|(_, values)| *values);
        both(
            draft,
            told,
            |letters| plain::next_ending(letters, centre).map(NextEnding::values),
            |fast, n| fast.next_ending(n, centre).map(NextEnding::values),
        );
        let given = calls::next_ending(&state, centre).map(NextEnding::values);
        assert_eq!(given, told.ok_or(10), "{draft}, centre {centre}");
    }
}

/// Written out by hand: the next shorter ending's centre, the length, the least period.
#[test]
fn endings_with_length_and_period() {
    for (draft, endings) in ENDINGS {
        assert_endings(draft, endings);
    }
}

#[test]
fn record_of_abacddc_in_2() {
    let expected = b"7,2,3,AB,4,CD\n";
    assert_eq!(plain::folded_record(b"ABACDDC", &[3, 7]), expected);
    let state = fed(b"ABACDDC", MOST_SECTIONS);
    let mut output = [0; 14];
    assert_eq!(calls::folded_record(&state, 7, 2, &mut output), Ok(14));
    assert_eq!(&output, expected);
    assert_eq!(calls::folded_record(&state, 7, 2, &mut [0; 13]), Err(5));
}

#[test]
fn the_last_pick_the_visit_list_and_the_bytes_beside_the_letters() {
    let mut state = fed(&repeated(b"AB", MOST_PICKS - 1), MOST_SECTIONS);
    assert_eq!(calls::feed(&mut state, b'B', &mut [0; 18]), Err(3));
    assert_eq!(calls::feed(&mut state, 64, &mut [0; 19]), Err(2));
    assert_eq!(calls::feed(&mut state, 91, &mut [0; 19]), Err(2));
    assert!(calls::feed(&mut state, b'B', &mut [0; 19]).is_ok());
    assert_eq!(state.n, 2_048);
    assert_eq!(calls::feed(&mut state, b'A', &mut [0; 19]), Err(8));
}

#[test]
fn aba_splits_in_1_and_in_3_never_in_2() {
    assert_split("ABA", 1, &[3], 1);
    assert_no_split("ABA", 2);
    assert_split("ABA", 3, &[1, 2, 3], 0);
}

#[test]
fn turn_counts() {
    for (draft, k, ends, turns) in TURN_COUNTS {
        let ends: Vec<usize> = ends.iter().map(|&end| usize::from(end)).collect();
        assert_split(draft, usize::from(k), &ends, turns);
    }
}

#[test]
fn marks_and_goings_back() {
    for session in sessions() {
        let mut state = State::zeros();
        for (at, (call, reply, filled)) in session.into_iter().enumerate() {
            let mut list = vec![0; call.entries()];
            let output = &mut vec![0; call.output_bytes()];
            let given = call.make(&mut state, &mut list, output);
            assert_eq!(given, reply, "call {at}, {call:?}");
            assert_eq!(&list[..filled.len()], filled, "call {at}, {call:?}");
        }
    }
}

#[test]
fn lifts_are_26_distinct_bytes_of_two_bits() {
    let started = State::empty(MOST_SECTIONS);
    assert_eq!(calls::lift(&started, b'A'), Ok(3));
    assert_eq!(calls::lift(&started, b'Z'), Ok(96));
    let mut lifts: Vec<u8> = (FIRST_PICK..=LAST_PICK)
        .map(|letter| calls::lift(&started, letter).unwrap())
        .collect();
    assert!(lifts.iter().all(|lift| lift.count_ones() == 2));
    lifts.sort_unstable();
    lifts.dedup();
    assert_eq!(lifts.len(), 26);
}

/// The list of pairs is in rising order, from 12 to 67, so it can be made by counting.
#[test]
fn lifts_in_letter_order_are_the_pairs_of_harnesses() {
    let pairs = (1..=7).flat_map(|one| (one + 1..=8).map(move |other| (one, other)));
    for (letter, (one, other)) in (FIRST_PICK..=LAST_PICK).zip(pairs) {
        let lifted = 2u8.pow(one - 1) + 2u8.pow(other - 1);
        let lift = plain::lift(&plain::fixed_lifts(), letter);
        assert_eq!(lift, Some(lifted), "letter {letter}");
    }
}

#[test]
fn centres_of_the_empty_and_of_the_longest_ending() {
    both("", 1, plain::longest_centre, Fast::longest_centre);
    for draft in every_draft_to(2, 8) {
        let n = draft.len();
        let text = String::from_utf8_lossy(&draft);
        assert_eq!(plain::centre(n + 1, n), 2 * n + 1);
        let expected = 2 * n - plain::longest_ending(&draft) + 1;
        both(&text, expected, plain::longest_centre, Fast::longest_centre);
        if n > 0 {
            both(
                &text,
                Some([2 * n + 1, 1, 1]),
                |letters| plain::next_ending(letters, 2 * n).map(NextEnding::values),
                |fast, n| fast.next_ending(n, 2 * n).map(NextEnding::values),
            );
        }
    }
}

#[test]
fn radius_and_parity_of_the_centre_give_the_longest_mirrored_stretch() {
    for draft in every_draft_to(2, 9) {
        let n = draft.len();
        let text = String::from_utf8_lossy(&draft);
        let fast = Fast::new(&draft, MOST_SECTIONS);
        for centre in 1..=2 * n + 1 {
            for radius in [plain::radius_at(&draft, centre), fast.radius(n, centre)] {
                assert_longest_mirrored(&draft, centre, radius, plain::is_mirrored, &text);
            }
        }
    }
}
