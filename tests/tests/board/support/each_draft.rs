//! Every small draft, each fed on from the one before its last pick.

use comparison::library::Board;
use comparison::FIRST_PICK;

/// Goes through every draft over the first few letters up to the given length; the board has
/// the empty one. `feed` is given a board before the last pick of each draft, and the draft:
/// it feeds that pick.
pub fn each_draft(
    board: &Board,
    letters: u8,
    most: usize,
    mut feed: impl FnMut(&mut Board, &[u8]),
) {
    each_longer(board, &mut Vec::new(), letters, most, &mut feed);
}

/// Goes through the drafts that go on from this one.
fn each_longer(
    board: &Board,
    draft: &mut Vec<u8>,
    letters: u8,
    most: usize,
    feed: &mut impl FnMut(&mut Board, &[u8]),
) {
    if draft.len() == most {
        return;
    }
    for pick in FIRST_PICK..FIRST_PICK + letters {
        draft.push(pick);
        let mut longer = board.clone();
        feed(&mut longer, draft);
        each_longer(&longer, draft, letters, most, feed);
        draft.pop();
    }
}
