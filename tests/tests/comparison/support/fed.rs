//! A state made by a start and feeds.

use comparison::calls::{feed, start, State};
use comparison::VISIT_ROOM;

/// The state after a start with K and a feed of each pick, all accepted.
pub fn fed(draft: &[u8], most_sections: usize) -> State {
    let mut state = State::empty(1);
    assert_eq!(start(&mut state, most_sections), Ok(()));
    for &pick in draft {
        let answer = feed(&mut state, pick, &mut [0; VISIT_ROOM]);
        assert!(answer.is_ok(), "{}", String::from_utf8_lossy(draft));
    }
    state
}
