//! The numbers of all calls on one state, and states that no call made.

use comparison::calls::{self, State};
use comparison::plain::fixed_lifts;
use comparison::{LETTERS, MOST_PICKS, VISIT_ROOM};

/// A state of n picks, all A, and K as stored, with A marked before the first; made by no
/// call.
pub fn stored(n: usize, most_sections: usize) -> State {
    let mut marks = [0; LETTERS];
    marks[0] = 1;
    State {
        n,
        marks,
        ..State::of(&[b'A'; MOST_PICKS], most_sections, &fixed_lifts())
    }
}

/// What each call that is given a state, other than start, refuses with, on inputs
/// that no other line refuses; none when accepted.
pub fn numbers_of_all_calls(state: &State) -> [Option<u8>; 11] {
    [
        calls::feed(&mut state.clone(), b'A', &mut [0; VISIT_ROOM]).err(),
        calls::mask_of_prefix(state, 1).err(),
        calls::radius_at(state, 1).err(),
        calls::longest_centre(state).err(),
        calls::next_ending(state, 2 * state.n).err(),
        calls::split(state, 1, 1, &mut [0; 1]).err(),
        calls::folded_record(state, 1, 1, &mut [0; 8]).err(),
        calls::lift(state, b'A').err(),
        calls::mark(&mut state.clone(), b'A').err(),
        calls::back(&mut state.clone(), b'A').err(),
        load_number(state, &[7; 26]),
    ]
}

/// The number that a load is refused with, which is no 15.
pub fn load_number(state: &State, table: &[u8]) -> Option<u8> {
    let refusal = calls::load(&mut state.clone(), table).err();
    refusal.map(|(number, place)| {
        assert_eq!(place, None, "number {number}");
        number
    })
}
