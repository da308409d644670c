//! Start and feed.

use super::{
    refuse_if, write_front, Answer, State, DRAFT_FULL, NOT_A_PICK, SECTIONS_OUT_OF_RANGE,
    VISITS_TOO_SHORT,
};
use crate::plain::{self, is_most_sections};
use crate::{MOST_PICKS, VISIT_ROOM};

/// What an accepted feed gives: "the mask, with the count of visits".
#[derive(Clone, Copy, Debug, PartialEq, Eq)]
pub struct Taken {
    pub mask: u8,
    pub visits: usize,
}

/// "Start: K, giving an empty draft." It does not look at the stored state, "brings the
/// fixed" lifts back and "drops all marks".
pub fn start(state: &mut State, most_sections: usize) -> Answer<()> {
    refuse_if(!is_most_sections(most_sections), SECTIONS_OUT_OF_RANGE)?;
    *state = State::empty(most_sections);
    Ok(())
}

/// "Feed: a pick and a visit list of 16-bit numbers." "The lengths visited fill
/// the front of the list, longest first."
pub fn feed(state: &mut State, pick: u8, visit_list: &mut [u16]) -> Answer<Taken> {
    state.check()?;
    let lift = plain::lift(&state.lifts, pick).ok_or(NOT_A_PICK)?;
    refuse_if(visit_list.len() < VISIT_ROOM, VISITS_TOO_SHORT)?;
    refuse_if(state.n == MOST_PICKS, DRAFT_FULL)?;
    state.letters[state.n] = pick;
    state.codes[state.n] = lift;
    state.n += 1;
    let n = state.n;
    let (mask, visits) = state.ask(|fast| (fast.mask(n), fast.visits(n)));
    write_front(visit_list, &visits);
    Ok(Taken {
        mask,
        visits: visits.len(),
    })
}
