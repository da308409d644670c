//! Which number is given when the lines of several are met.

use crate::support::fed::fed;
use comparison::calls::{self, State};
use comparison::plain::fixed_lifts;
use comparison::{MOST_PICKS, MOST_SECTIONS, VISIT_ROOM};

/// A full draft with K as stored.
fn full(most_sections: usize) -> State {
    State::of(&[b'A'; MOST_PICKS], most_sections, &fixed_lifts())
}

/// Feed: 7, then 2, then 3, then 8.
#[test]
fn feed() {
    let short = &mut [0; VISIT_ROOM - 1];
    let list = &mut [0; VISIT_ROOM];
    assert_eq!(calls::feed(&mut full(9), b'a', short), Err(7));
    assert_eq!(calls::feed(&mut full(9), b'a', list), Err(7));
    assert_eq!(calls::feed(&mut full(9), b'A', short), Err(7));
    assert_eq!(calls::feed(&mut full(9), b'A', list), Err(7));
    assert_eq!(calls::feed(&mut full(8), b'a', short), Err(2));
    assert_eq!(calls::feed(&mut full(8), b'a', list), Err(2));
    assert_eq!(calls::feed(&mut full(8), b'A', short), Err(3));
    assert_eq!(calls::feed(&mut full(8), b'A', list), Err(8));
}

/// Mask and radius: 7, then 4.
#[test]
fn mask_and_radius() {
    let beyond = MOST_PICKS + 1;
    assert_eq!(calls::mask_of_prefix(&full(0), beyond), Err(7));
    assert_eq!(calls::mask_of_prefix(&full(1), beyond), Err(4));
    assert_eq!(calls::radius_at(&full(0), 0), Err(7));
    assert_eq!(calls::radius_at(&full(1), 0), Err(4));
}

/// Next shorter ending: 7, then 4, then 10. A centre outside 1 to 2n+1 belongs to no
/// ending either.
#[test]
fn next_shorter_ending() {
    let beyond = 2 * MOST_PICKS + 2;
    for centre in [0, beyond] {
        assert_eq!(calls::next_ending(&full(0), centre), Err(7));
        assert_eq!(calls::next_ending(&full(8), centre), Err(4));
    }
    assert_eq!(calls::next_ending(&full(0), 1), Err(7));
    assert_eq!(calls::next_ending(&full(8), 1), Err(10));
}

/// Split: 7, then 1, then 13, then 4, then 9.
#[test]
fn split() {
    let state = fed(b"AB", MOST_SECTIONS);
    let beyond = MOST_PICKS + 1;
    assert_eq!(calls::split(&full(9), beyond, 0, &mut []), Err(7));
    assert_eq!(calls::split(&full(9), beyond, 9, &mut []), Err(7));
    assert_eq!(calls::split(&full(9), beyond, 1, &mut []), Err(7));
    assert_eq!(calls::split(&full(9), beyond, 1, &mut [0]), Err(7));
    assert_eq!(calls::split(&full(9), 0, 1, &mut [0]), Err(7));
    assert_eq!(calls::split(&state, 3, 9, &mut []), Err(1));
    assert_eq!(calls::split(&state, 2, 9, &mut []), Err(1));
    assert_eq!(calls::split(&state, 3, 0, &mut []), Err(1));
    assert_eq!(calls::split(&state, 2, 0, &mut [0]), Err(1));
    assert_eq!(calls::split(&state, 3, 1, &mut []), Err(13));
    assert_eq!(calls::split(&state, 2, 1, &mut []), Err(13));
    assert_eq!(calls::split(&state, 3, 1, &mut [0]), Err(4));
    assert_eq!(calls::split(&state, 2, 1, &mut [0]), Err(9));
}

/// Record: 7, then 1, then 4, then 9, then 5.
#[test]
fn record() {
    let state = fed(b"AB", MOST_SECTIONS);
    let beyond = MOST_PICKS + 1;
    assert_eq!(calls::folded_record(&full(9), beyond, 0, &mut []), Err(7));
    assert_eq!(calls::folded_record(&full(9), beyond, 1, &mut []), Err(7));
    assert_eq!(calls::folded_record(&full(9), 0, 1, &mut []), Err(7));
    assert_eq!(calls::folded_record(&full(9), 1, 1, &mut []), Err(7));
    assert_eq!(calls::folded_record(&state, 3, 0, &mut []), Err(1));
    assert_eq!(calls::folded_record(&state, 2, 9, &mut []), Err(1));
    assert_eq!(calls::folded_record(&state, 3, 1, &mut []), Err(4));
    assert_eq!(calls::folded_record(&state, 2, 1, &mut []), Err(9));
    assert_eq!(calls::folded_record(&state, 2, 2, &mut []), Err(5));
}

/// Lift: 7, then 2.
#[test]
fn lift() {
    let state = fed(b"AB", MOST_SECTIONS);
    assert_eq!(calls::lift(&full(9), b'a'), Err(7));
    assert_eq!(calls::lift(&full(9), b'A'), Err(7));
    assert_eq!(calls::lift(&state, b'a'), Err(2));
    assert_eq!(calls::lift(&state, b'A'), Ok(3));
}

/// Load: 7, then 14, then 15, then 16. 25 and 27 bytes may have a 0 among them too.
#[test]
fn load() {
    let (good, with_a_0) = ([7; 26], [0; 26]);
    let others: [&[u8]; 4] = [&[7; 25], &[7; 27], &[0; 25], &[0; 27]];
    for table in [&good[..], &with_a_0].into_iter().chain(others) {
        assert_eq!(calls::load(&mut full(9), table), Err((7, None)));
        assert_eq!(calls::load(&mut State::zeros(), table), Err((7, None)));
    }
    for table in others {
        assert_eq!(calls::load(&mut full(8), table), Err((14, None)));
        assert_eq!(calls::load(&mut fed(b"", 8), table), Err((14, None)));
    }
    assert_eq!(calls::load(&mut full(8), &with_a_0), Err((15, Some(0))));
    assert_eq!(calls::load(&mut fed(b"", 8), &with_a_0), Err((15, Some(0))));
    assert_eq!(calls::load(&mut full(8), &good), Err((16, None)));
    assert_eq!(calls::load(&mut fed(b"", 8), &good), Ok(()));
}

/// A state with marks of these names, made by the call.
fn marked(mut state: State, names: &[u8]) -> State {
    for &name in names {
        assert_eq!(calls::mark(&mut state, name), Ok(()), "{name}");
    }
    state
}

/// Mark: 7, then 2, then 18. Back: 7, then 2, then 17.
#[test]
fn mark_and_back() {
    let state = &mut marked(fed(b"AB", MOST_SECTIONS), b"WXYZ");
    for name in [b'@', b'[', b'A', b'W'] {
        assert_eq!(calls::mark(&mut State::zeros(), name), Err(7));
        assert_eq!(calls::back(&mut State::zeros(), name), Err(7));
        let stored = &mut state.clone();
        stored.most_sections = 9;
        assert_eq!(calls::mark(stored, name), Err(7));
        assert_eq!(calls::back(stored, name), Err(7));
    }
    for name in [b'@', b'['] {
        assert_eq!(calls::mark(state, name), Err(2));
        assert_eq!(calls::back(state, name), Err(2));
    }
    assert_eq!(calls::mark(state, b'A'), Err(18));
    assert_eq!(calls::back(state, b'A'), Err(17));
    assert_eq!(calls::mark(state, b'W'), Ok(()));
    assert_eq!(calls::back(state, b'W'), Ok(()));
}

/// Show: 4, then 6.
#[test]
fn show() {
    assert_eq!(calls::show_number(b"AB", &[2, 1], 0), 4);
    assert_eq!(calls::show_number(b"AB", &[2, 1], 3), 4);
    assert_eq!(calls::show_number(b"AB", &[2, 1], 2), 6);
}
