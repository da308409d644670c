//! Marks in a draft, and going back to one.

use super::{refuse_if, Answer, State, A_FIFTH_NAME, NOT_A_PICK, NO_SUCH_MARK};
use crate::plain::{is_pick, Lifts};
use crate::{FIRST_PICK, LAST_PICK, MOST_MARKS};

/// "The state gains up to four marks, each a letter A to Z with the draft's length at that
/// moment; setting a name again moves it."
pub fn mark(state: &mut State, name: u8) -> Answer<()> {
    let at = place_of(state, name)?;
    let marks = state.marks.iter().filter(|&&entry| entry > 0).count();
    let is_new = state.marks[at] == 0;
    refuse_if(is_new && marks >= MOST_MARKS, A_FIFTH_NAME)?;
    state.marks[at] = state.n as u16 + 1;
    Ok(())
}

/// "Going back restores" all "but marks and lifts to exactly what feeding only those picks
/// would have left, and drops marks of greater length." On a state that no run made there
/// may be fewer picks than the mark says, and then all are kept.
pub fn back(state: &mut State, name: u8) -> Answer<()> {
    let at = place_of(state, name)?;
    let entry = state.marks[at];
    refuse_if(entry == 0, NO_SUCH_MARK)?;
    state.n = state.n.min(usize::from(entry) - 1);
    state.letters[state.n..].fill(0);
    state.codes.fill(0);
    for (code, &letter) in state.codes.iter_mut().zip(&state.letters[..state.n]) {
        *code = any_lift(&state.lifts, letter);
    }
    for mark in state.marks.iter_mut().filter(|mark| **mark > entry) {
        *mark = 0;
    }
    Ok(())
}

/// The place of a name among the marks. "A name outside A to Z is 2."
fn place_of(state: &State, name: u8) -> Answer<usize> {
    state.check()?;
    refuse_if(!is_pick(name), NOT_A_PICK)?;
    Ok(usize::from(name - FIRST_PICK))
}

/// The lift by which a stored letter is fed again. On a state that no run made it may be no
/// letter: one below A lifts as A does, and one above Z nothing.
fn any_lift(lifts: &Lifts, letter: u8) -> u8 {
    match letter {
        ..FIRST_PICK => lifts[0],
        FIRST_PICK..=LAST_PICK => lifts[usize::from(letter - FIRST_PICK)],
        _ => 0,
    }
}
