//! What an accepted going back leaves of any stored state.

use comparison::calls::{self, State};
use comparison::library::Board;
use comparison::{FIRST_PICK, LETTERS};

/// The state after going back to the mark: the picks that are kept by the comparison
/// program, fed to a fresh board by their codes. The lifts stay.
pub fn shortened(board: &Board, name: u8) -> Board {
    let [letters, codes] = board.stored_picks();
    let mut kept = State {
        n: board.n(),
        most_sections: board.most_sections(),
        letters: letters.try_into().expect("a letter for each pick"),
        codes: codes.try_into().expect("a code for each pick"),
        lifts: board.lifts(),
        marks: board.marks(),
    };
    assert_eq!(calls::back(&mut kept, name), Ok(()), "back to {name}");
    let mut fed = Board::started(kept.most_sections);
    feed_codes(&mut fed, &kept.codes[..kept.n]);
    fed.letters_mut().copy_from_slice(&kept.letters);
    fed.lifts_mut().copy_from_slice(&kept.lifts);
    fed.marks_mut().copy_from_slice(&kept.marks);
    fed
}

/// Feeds picks of these codes, 0 too, whatever letters they have: as many at a time as are of
/// 26 codes, each by a letter for which it is stored as the lift.
fn feed_codes(board: &mut Board, codes: &[u8]) {
    let mut left = codes;
    while !left.is_empty() {
        let mut lifts = Vec::new();
        let mut picks = Vec::new();
        for code in left {
            let known = lifts.iter().position(|lift| lift == code);
            match known {
                None if lifts.len() == LETTERS => break,
                None => lifts.push(*code),
                Some(_) => {}
            }
            picks.push(FIRST_PICK + known.unwrap_or(lifts.len() - 1) as u8);
        }
        board.lifts_mut()[..lifts.len()].copy_from_slice(&lifts);
        board.feed_all(&picks);
        left = &left[picks.len()..];
    }
}
