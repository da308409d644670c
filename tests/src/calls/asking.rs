//! The calls that ask for a mask, a radius, a centre or an ending.

use super::{Answer, State, NO_ENDING_THERE};
pub use crate::plain::NextEnding;

/// "Mask of prefix i."
pub fn mask_of_prefix(state: &State, i: usize) -> Answer<u8> {
    state.check()?;
    state.check_prefix(i)?;
    Ok(state.ask(|fast| fast.mask(i)))
}

/// "Radius of the longest mirrored stretch at a centre from 1 to 2n+1."
pub fn radius_at(state: &State, centre: usize) -> Answer<usize> {
    state.check()?;
    state.check_centre(centre)?;
    Ok(state.ask(|fast| fast.radius(state.n, centre)))
}

/// "Centre of the longest ending."
pub fn longest_centre(state: &State) -> Answer<usize> {
    state.check()?;
    Ok(state.ask(|fast| fast.longest_centre(state.n)))
}

/// "Centre of the next shorter ending after one given by its centre (any ending,
/// leading or not; the one-pick ending leads to the empty one)." It "gives, besides the
/// centre, the length and the least period of the ending it was given".
pub fn next_ending(state: &State, centre: usize) -> Answer<NextEnding> {
    state.check()?;
    state.check_centre(centre)?;
    state
        .ask(|fast| fast.next_ending(state.n, centre))
        .ok_or(NO_ENDING_THERE)
}
