//! The library's board beside the comparison program's tables.

use crate::support::visited::assert_visits_lead_on;
use crate::support::words::compare_words;
use comparison::beside::ENTRY;
use comparison::calls::Taken;
use comparison::fast::Fast;
use comparison::library::Board;
use comparison::plain;
use comparison::scripted::{given, refused, Call};
use comparison::MOST_PICKS;

/// Entries of the visit list, more than the visits there can be.
const ENTRIES: usize = 24;

/// Feeds a pick and compares the answer, the visit list and the centre of the longest
/// ending with the tables of a draft that opens with these picks. Entries past the
/// visits keep theirs. The visits lead on by what the board tells of each.
pub fn feed_compared(board: &mut Board, fast: &Fast, pick: u8, name: &str) {
    let m = board.n() + 1;
    let visits = fast.visits(m);
    let expected = Taken {
        mask: fast.mask(m),
        visits: visits.len(),
    };
    let mut filled = [ENTRY; ENTRIES];
    for (entry, length) in filled.iter_mut().zip(visits) {
        *entry = length as u16;
    }
    let mut list = [ENTRY; ENTRIES];
    let answer = board.feed(pick, &mut list);
    assert_eq!(answer, Ok(expected), "{name}, pick {m}");
    assert_eq!(list, filled, "{name}, visits of pick {m}");
    assert_eq!(board.n(), m, "{name}, stored n");
    let longest = Ok(fast.longest_centre(m));
    assert_eq!(board.longest_centre(), longest, "{name}, longest at {m}");
    assert_visits_lead_on(board, &list[..expected.visits], name);
}

/// Feeds a draft of 2,048 picks and compares each pick; after every so many picks the row words
/// and gathered words, and after every so many others and at the end all that is kept.
pub fn feed_all_compared(
    board: &mut Board,
    fast: &Fast,
    draft: &[u8],
    every: [usize; 2],
    name: &str,
) {
    assert_eq!(draft.len(), MOST_PICKS, "{name}");
    for &pick in draft {
        feed_compared(board, fast, pick, name);
        let n = board.n();
        if n.is_multiple_of(every[0]) {
            compare_words(board, fast, name);
        }
        if n.is_multiple_of(every[1]) || n == MOST_PICKS {
            compare_all(board, fast, draft, name);
        }
    }
}

/// Compares all that is kept after n picks: the letters, the lift of each by the lifts in
/// force, the longest ending's centre, every row word, gathered word, mask, radius and next
/// ending. Asking changes nothing.
pub fn compare_all(board: &mut Board, fast: &Fast, draft: &[u8], name: &str) {
    let n = board.n();
    let name = format!("{name}, after {n}");
    assert!(board.letters() == &draft[..n], "{name}, letters");
    let word = plain::word(&board.lifts(), &draft[..n]);
    assert!(board.codes() == word, "{name}, codes");
    let before = board.clone();
    let longest = fast.longest_centre(n);
    assert_eq!(board.longest_centre(), Ok(longest), "{name}, longest");
    assert_eq!(board.longest(), longest, "{name}, stored longest");
    compare_words(board, fast, &name);
    compare_masks(board, fast, &name);
    compare_centres(board, fast, &name);
    assert!(*board == before, "{name}, a byte of the state changed");
}

/// The mask of every prefix.
fn compare_masks(board: &mut Board, fast: &Fast, name: &str) {
    let prefixes = 0..=board.n() as u16;
    let calls: Vec<Call> = prefixes.map(|prefix| Call::Mask { prefix }).collect();
    for (i, reply) in board.ask(&calls).into_iter().enumerate() {
        let expected = given([fast.mask(i).into()]);
        assert_eq!(reply, expected, "{name}, mask of prefix {i}");
    }
}

/// Every radius, and every next ending with length and period.
fn compare_centres(board: &mut Board, fast: &Fast, name: &str) {
    let n = board.n();
    let centres = 1..=2 * n as u16 + 1;
    let calls: Vec<Call> = centres
        .flat_map(|centre| [Call::Radius { centre }, Call::NextEnding { centre }])
        .collect();
    for (at, pair) in board.ask(&calls).chunks(2).enumerate() {
        let centre = at + 1;
        let radius = given([fast.radius(n, centre)]);
        assert_eq!(pair[0], radius, "{name}, radius at {centre}");
        let next = fast.next_ending(n, centre);
        let next = next.map_or(refused(10), |next| given(next.values()));
        assert_eq!(pair[1], next, "{name}, next at {centre}");
    }
}
