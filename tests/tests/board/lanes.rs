//! The library's lanes: each holds, under its number, what it is named for, and a store
//! into one lane reaches no entry of another.

use crate::support::words::compare_words;
use comparison::fast::Fast;
use comparison::full_drafts;
use comparison::library::{
    Board, CENTRES, GATHERED, HEADS, LENDS, NEXT, PLACES, PREV, RADIUS, ROWS,
};
use comparison::plain;
use comparison::samples::{every_draft_to, Generator};
use comparison::{FIRST_PICK, LETTERS, MOST_PICKS, MOST_SECTIONS, VISIT_ROOM};

/// The radius at each centre up to the longest ending's; nothing is stored behind it.
fn compare_radii(board: &Board, fast: &Fast, name: &str) {
    let n = board.n();
    let mut radii = vec![0; CENTRES];
    for centre in 1..=fast.longest_centre(n) {
        radii[centre] = fast.radius(n, centre) as u16;
    }
    assert!(board.centre_lane(RADIUS) == radii, "{name}, radii");
}

/// The list of the endings' centres, from the longest to the empty one, and back.
fn compare_links(board: &Board, fast: &Fast, name: &str) {
    let n = board.n();
    let mut centre = fast.longest_centre(n);
    while let Some(ending) = fast.next_ending(n, centre) {
        let next = ending.centre;
        let forward = usize::from(board.centre_lane(NEXT)[centre]);
        assert_eq!(forward, next, "{name}, next of {centre}");
        let back = usize::from(board.centre_lane(PREV)[next]);
        assert_eq!(back, centre, "{name}, previous of {next}");
        centre = next;
    }
}

/// The lend list of each place: the centres before the longest ending's whose longest
/// stretch starts there, the last first.
fn compare_lend_lists(board: &Board, fast: &Fast, name: &str) {
    let n = board.n();
    let mut heads = vec![0; PLACES];
    let mut lends = vec![0; CENTRES];
    for centre in 1..fast.longest_centre(n) {
        let place = centre.div_ceil(2) - fast.radius(n, centre) - 1;
        lends[centre] = heads[place];
        heads[place] = centre as u16;
    }
    let stored = board.place_lane(HEADS);
    assert!(stored == heads, "{name}, first centres of lend lists");
    assert!(board.centre_lane(LENDS) == lends, "{name}, lend lists");
}

/// Beyond n picks every entry of every lane, every letter and every code is 0, as a start
/// leaves it, and so is entry 0 of the lanes by centre.
fn assert_rest_untouched(board: &Board, name: &str) {
    let n = board.n();
    for bytes in board.stored_picks() {
        let kept = bytes[n..].iter().all(|&byte| byte == 0);
        assert!(kept, "{name}, letters or codes beyond {n} picks");
    }
    for lane in [RADIUS, LENDS, NEXT, PREV] {
        let (used, rest) = board.centre_lane(lane).split_at(2 * n + 2);
        let kept = used[0] == 0 && rest.iter().all(|&entry| entry == 0);
        assert!(kept, "{name}, lane {lane} by centre beyond {n} picks");
    }
    for lane in [HEADS, ROWS, GATHERED] {
        let rest = &board.place_lane(lane)[n + 1..];
        let kept = rest.iter().all(|&entry| entry == 0);
        assert!(kept, "{name}, lane {lane} by place beyond {n} picks");
    }
}

/// The letters of the draft, their lifts, and the fixed lifts in force; no mark.
fn compare_bytes(board: &Board, draft: &[u8], name: &str) {
    let n = board.n();
    let lifts = plain::fixed_lifts();
    assert!(board.letters() == &draft[..n], "{name}, letters");
    let word = plain::word(&lifts, &draft[..n]);
    assert!(board.codes() == word, "{name}, codes");
    assert_eq!(board.lifts(), lifts, "{name}, lifts");
    assert_eq!(board.marks(), [0; LETTERS], "{name}, marks");
}

/// Compares every entry of every lane, every letter, code, lift and mark.
fn compare_lanes(board: &Board, fast: &Fast, draft: &[u8], name: &str) {
    let name = &format!("{name}, after {}", board.n());
    compare_bytes(board, draft, name);
    compare_radii(board, fast, name);
    compare_links(board, fast, name);
    compare_lend_lists(board, fast, name);
    compare_words(board, fast, name);
    assert_rest_untouched(board, name);
}

#[test]
fn lanes_of_every_small_draft() {
    for draft in every_draft_to(2, 11).chain(every_draft_to(3, 7)) {
        let board = Board::fed(&draft, MOST_SECTIONS);
        let fast = Fast::new(&draft, MOST_SECTIONS);
        compare_lanes(&board, &fast, &draft, &String::from_utf8_lossy(&draft));
    }
}

#[test]
fn lanes_of_full_drafts() {
    let words = full_drafts::well_known_words();
    for (name, draft) in words.into_iter().chain(full_drafts::random()) {
        let fast = Fast::new(&draft, MOST_SECTIONS);
        let mut board = Board::started(MOST_SECTIONS);
        for &pick in &draft {
            let fed = board.feed(pick, &mut [0; VISIT_ROOM]);
            assert!(fed.is_ok(), "{name}");
            if board.n().is_multiple_of(128) {
                compare_lanes(&board, &fast, &draft, &name);
            }
        }
        assert_eq!(board.n(), MOST_PICKS, "{name}");
    }
}

/// Each letter has its own entry among the marks, A to Z, one more than the draft's length;
/// nothing else is stored.
#[test]
fn marks_by_letter() {
    for (at, name) in (FIRST_PICK..).take(LETTERS).enumerate() {
        for length in [0, 1, at, 255, 256, MOST_PICKS] {
            let before = Board::fed(&vec![b'A'; length], MOST_SECTIONS);
            let mut board = before.clone();
            assert_eq!(board.mark(name), Ok(()), "{name} at {length}");
            let mut marks = [0; LETTERS];
            marks[at] = length as u16 + 1;
            assert_eq!(board.marks(), marks, "{name} at {length}");
            assert!(board.keeps_all_but_marks(&before), "{name} at {length}");
        }
    }
}

/// Puts numbers beyond the lanes into every entry of these lanes by centre that the
/// draft has.
fn spoil(board: &mut Board, lanes: &[usize], generator: &mut Generator) {
    let last = 2 * board.n() + 1;
    for &lane in lanes {
        let entries = &mut board.centre_lane_mut(lane)[1..=last];
        entries.fill_with(|| (CENTRES + generator.below(CENTRES)) as u16);
    }
}

/// Links and lend lists that go on beyond their lanes: a pick more stores nothing
/// there, neither in the lane behind nor anywhere else.
#[test]
fn stored_numbers_beyond_the_lanes() {
    let some: [&[usize]; 6] = [
        &[RADIUS],
        &[LENDS],
        &[NEXT],
        &[PREV],
        &[NEXT, PREV],
        &[LENDS, PREV],
    ];
    for seed in 0..300 {
        let generator = &mut Generator(seed);
        let length = 1 + generator.below(200);
        let fed = Board::fed(&generator.draft(2, length), MOST_SECTIONS);
        for lanes in some {
            for pick in FIRST_PICK..FIRST_PICK + 3 {
                let mut board = fed.clone();
                spoil(&mut board, lanes, generator);
                let taken = board.feed(pick, &mut [0; VISIT_ROOM]);
                let name = format!("seed {seed}, lanes {lanes:?}, pick {pick}");
                assert!(taken.is_ok(), "{name}");
                assert_rest_untouched(&board, &name);
            }
        }
    }
}
