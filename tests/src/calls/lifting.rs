//! The lift of a letter.

use super::{Answer, State, NOT_A_PICK};
use crate::plain;

/// "A call gives the lift of a letter." "The lift call now takes the state": the lift is
/// the one in force.
pub fn lift(state: &State, letter: u8) -> Answer<u8> {
    state.check()?;
    plain::lift(&state.lifts, letter).ok_or(NOT_A_PICK)
}
