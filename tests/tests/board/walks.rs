//! The endings that a feed visits, and those that the call for the next shorter one leads
//! to, by the board's own answers and document 01's rule, and no table beside them.

use crate::support::each_draft::each_draft;
use crate::support::told::is_told;
use crate::support::visited::assert_visits_lead_on;
use comparison::calls::NextEnding;
use comparison::full_drafts;
use comparison::library::Board;
use comparison::{MOST_PICKS, MOST_SECTIONS, VISIT_ROOM};

/// Feeds a pick, and gives its visits; each leads on to the one behind it.
fn feed_visiting(board: &mut Board, pick: u8, name: &str) -> Vec<u16> {
    let mut list = [0; VISIT_ROOM];
    let taken = board.feed(pick, &mut list).expect(name);
    let visits = &list[..taken.visits];
    assert_visits_lead_on(board, visits, name);
    visits.to_vec()
}

/// The lengths of all endings, from the longest to the empty one, as the call leads from
/// each to the next. Length less period is the next one's length, so they fall.
fn walked(board: &mut Board, name: &str) -> Vec<usize> {
    let n = board.n();
    let mut centre = board.longest_centre().expect(name);
    let mut lengths = vec![2 * n + 1 - centre];
    while centre <= 2 * n {
        let next = board.next_ending(centre).expect(name);
        let case = format!("{name}, after {n}, centre {centre}: {next:?}");
        assert!(is_told(next.values(), centre, n), "{case}");
        let NextEnding { length, period, .. } = next;
        assert_eq!(lengths.last(), Some(&length), "{case}");
        lengths.push(length - period);
        centre = next.centre;
    }
    assert_eq!(board.next_ending(centre), Err(10), "{name}, after {n}");
    lengths
}

/// Walks all endings. The visits are among them, the first is the longest.
fn assert_walk(board: &mut Board, visits: &[u16], name: &str) {
    let lengths = walked(board, name);
    let case = format!("{name}: {visits:?} of {lengths:?}");
    assert!(lengths.windows(2).all(|pair| pair[0] > pair[1]), "{case}");
    assert_eq!(lengths.last(), Some(&0), "{case}");
    let is_walked = |visit: &u16| lengths.contains(&usize::from(*visit));
    assert!(visits.iter().all(is_walked), "{case}");
    assert_eq!(usize::from(visits[0]), lengths[0], "{case}");
}

/// Feeds the last pick of a draft, and walks.
fn walk_last(board: &mut Board, draft: &[u8]) {
    let name = String::from_utf8_lossy(draft);
    let visits = feed_visiting(board, draft[draft.len() - 1], &name);
    assert_walk(board, &visits, &name);
}

#[test]
fn every_small_draft() {
    let empty = Board::started(MOST_SECTIONS);
    assert_eq!(walked(&mut empty.clone(), "empty draft"), [0]);
    each_draft(&empty, 2, 14, walk_last);
    each_draft(&empty, 3, 9, walk_last);
}

/// The visits after each pick of drafts of 2,048; all endings after every 13 and at the
/// end.
#[test]
fn full_drafts_of_each_kind() {
    for (name, draft) in full_drafts::of_each_kind() {
        let mut board = Board::started(MOST_SECTIONS);
        for pick in draft {
            let visits = feed_visiting(&mut board, pick, &name);
            if board.n().is_multiple_of(13) || board.n() == MOST_PICKS {
                assert_walk(&mut board, &visits, &name);
            }
        }
        assert_eq!(board.n(), MOST_PICKS, "{name}");
    }
}

/// Written out by hand: the visits of a draft's last pick, each with its length and
/// period. By document 01's rule 9 with 7 leads to 2, and 7 with 2 to 2 + 1.
#[test]
fn visits_with_length_and_period() {
    let drafts: [(&str, &[[usize; 2]]); 6] = [
        ("A", &[[1, 1]]),
        ("AAA", &[[3, 1], [1, 1]]),
        ("ABABAB", &[[5, 2], [3, 2], [1, 1]]),
        ("ABABABA", &[[7, 2], [3, 2], [1, 1]]),
        ("ABACDDC", &[[4, 3], [1, 1]]),
        ("AABACABAA", &[[9, 7], [2, 1], [1, 1]]),
    ];
    for (draft, expected) in drafts {
        let (&pick, before) = draft.as_bytes().split_last().expect("a pick");
        let mut board = Board::fed(before, MOST_SECTIONS);
        let visits = feed_visiting(&mut board, pick, draft);
        let told: Vec<[usize; 2]> = visits
            .iter()
            .map(|&visit| board.next_ending(2 * draft.len() + 1 - usize::from(visit)))
            .map(|next| next.map(|next| [next.length, next.period]).expect(draft))
            .collect();
        assert_eq!(told, expected, "{draft}");
    }
}
