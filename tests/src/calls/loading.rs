//! The mill's own lifts.

use super::{refuse_if, without_place, Placed, State, A_LIFT_OF_0, DRAFT_NOT_EMPTY, NOT_A_TABLE};
use crate::plain::Lifts;

/// "A mill may load 26 lift bytes in place of the fixed table." Refused with 7, 14, 15 "with
/// the first one's place from 0", or 16.
pub fn load(state: &mut State, table: &[u8]) -> Result<(), Placed> {
    state.check().map_err(without_place)?;
    let lifts = Lifts::try_from(table).map_err(|_| without_place(NOT_A_TABLE))?;
    match lifts.iter().position(|&lift| lift == 0) {
        Some(place) => return Err((A_LIFT_OF_0, Some(place))),
        None => refuse_if(state.n > 0, DRAFT_NOT_EMPTY).map_err(without_place)?,
    }
    state.lifts = lifts;
    Ok(())
}
