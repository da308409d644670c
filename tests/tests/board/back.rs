//! The library's going back to a mark: all but marks and lifts is exactly what feeding only the
//! picks that are kept leaves, in every byte, and all that is fed afterwards is answered as if
//! the abandoned picks had never been.

use crate::support::bounded::make_within_bounds;
use crate::support::compared::{compare_all, feed_compared};
use crate::support::made_calls::{back, feed};
use comparison::beside::{BYTE, ENTRY};
use comparison::fast::Fast;
use comparison::full_drafts;
use comparison::library::{Board, Lent};
use comparison::plain::fixed_lifts;
use comparison::samples::{every_draft_to, Generator};
use comparison::scripted::{Call, Reply};
use comparison::structured::mirror;
use comparison::support::any_states::mixed_state;
use comparison::tables::{alike, some_lifts};
use comparison::{LETTERS, MOST_PICKS, MOST_SECTIONS};

/// Feeds the picks to both boards: every answer, every visit, and then every byte of the state
/// is the same.
fn feed_both(board: &mut Board, fresh: &mut Board, picks: &[u8], case: &str) {
    let feeds: Vec<Call> = picks.iter().map(|&pick| feed(pick)).collect();
    let mut lent = Lent::to(&feeds, ENTRY, BYTE);
    let mut expected = lent.clone();
    let replies = board.run(&feeds, &mut lent);
    let fresh_replies = fresh.run(&feeds, &mut expected);
    assert!(replies.iter().all(Reply::is_ok), "{case}");
    assert_eq!(replies, fresh_replies, "{case}");
    assert_eq!(lent.lists, expected.lists, "visits, {case}");
    assert!(board == fresh, "a byte of the state, {case}");
}

/// The same picks in other letters, and one more.
fn other_ending(picks: &[u8]) -> Vec<u8> {
    let others = picks.iter().map(|pick| b"BAC"[usize::from(pick - b'A')]);
    others.chain([b'C']).collect()
}

/// Abandons every ending of the draft in turn, from each of its places, and feeds another one.
fn abandon_each_ending(started: &Board, draft: &[u8]) {
    let mut kept = started.clone();
    for n in 0..=draft.len() {
        let case = format!("{}, back to {n}", String::from_utf8_lossy(draft));
        let mut fresh = kept.clone();
        assert_eq!(fresh.mark(b'M'), Ok(()), "{case}");
        let mut board = fresh.clone();
        board.feed_all(&draft[n..]);
        assert_eq!(board.back(b'M'), Ok(()), "{case}");
        assert!(board == fresh, "a byte of the state, {case}");
        feed_both(&mut board, &mut fresh, &other_ending(&draft[n..]), &case);
        kept.feed_all(&draft[n..draft.len().min(n + 1)]);
    }
}

/// Every draft over two letters to 9 picks with K = 8, and to 6 for each smaller K.
#[test]
fn every_small_draft() {
    for draft in every_draft_to(2, 9) {
        abandon_each_ending(&Board::started(MOST_SECTIONS), &draft);
    }
    for most_sections in 1..MOST_SECTIONS {
        for draft in every_draft_to(2, 6) {
            abandon_each_ending(&Board::started(most_sections), &draft);
        }
    }
}

/// Under lifts that letters share: every draft over three letters to 5 picks.
#[test]
fn every_small_draft_under_own_lifts() {
    for lifts in [alike(b"AB"), alike(b"AC"), alike(b"ABC"), [255; LETTERS]] {
        for draft in every_draft_to(3, 5) {
            abandon_each_ending(&Board::fed_under(&lifts, b"", MOST_SECTIONS), &draft);
        }
    }
}

/// Four lengths, rising: 0, any, 2,047 and 2,048; or any four.
fn some_lengths(generator: &mut Generator) -> [usize; 4] {
    let any: [usize; 4] = std::array::from_fn(|_| generator.below(MOST_PICKS + 1));
    let mut lengths = [any, [0, any[0], 2_047, 2_048]][generator.below(2)];
    lengths.sort_unstable();
    lengths
}

/// Drafts of 2,048 picks with four marks: back to each, the longest first, and from each
/// another ending to 2,048 picks.
#[test]
fn full_drafts() {
    let generator = &mut Generator(27);
    let drafts = full_drafts::of_each_kind();
    for (name, draft) in [&drafts[..]; 4].concat() {
        let lengths = some_lengths(generator);
        let most_sections = 1 + generator.below(MOST_SECTIONS);
        let lifts = [fixed_lifts(), some_lifts(generator)][generator.below(2)];
        let mut board = Board::fed_under(&lifts, b"", most_sections);
        for (at, &length) in lengths.iter().enumerate() {
            board.feed_all(&draft[board.n()..length]);
            assert_eq!(board.mark(b'A' + at as u8), Ok(()), "{name}");
        }
        for (at, &length) in lengths.iter().enumerate().rev() {
            let case = format!("{name}, back to {length}, K {most_sections}, {lifts:?}");
            assert_eq!(board.back(b'A' + at as u8), Ok(()), "{case}");
            let mut fresh = Board::fed_under(&lifts, &draft[..length], most_sections);
            let marks = fresh.marks_mut().iter_mut().zip(lengths);
            marks
                .take(at + 1)
                .for_each(|(mark, n)| *mark = n as u16 + 1);
            assert!(board == fresh, "a byte of the state, {case}");
            let ending = generator.draft(2, MOST_PICKS - length);
            feed_both(&mut board.clone(), &mut fresh, &ending, &case);
        }
    }
}

/// After going back all that is fed is as the comparison program's tables of the shortened
/// draft have it: masks, visits, words, and the half picks that the longest ending's centre
/// moves.
#[test]
fn later_picks_by_the_tables() {
    for (seed, (name, draft)) in (0..).zip(full_drafts::of_each_kind()) {
        let generator = &mut Generator(seed);
        let kept = 200 + generator.below(400);
        let mut shortened = draft[..kept].to_vec();
        let (half, shared) = (kept - generator.below(30), generator.below(2));
        mirror(&mut shortened, half, shared);
        shortened.extend(generator.draft(2, 40));
        let fast = Fast::new(&shortened, MOST_SECTIONS);
        let mut board = Board::fed(&draft[..kept], MOST_SECTIONS);
        assert_eq!(board.mark(b'K'), Ok(()), "{name}");
        board.feed_all(&draft[kept..]);
        assert_eq!(board.back(b'K'), Ok(()), "{name}");
        compare_all(&mut board, &fast, &shortened, &name);
        for &pick in &shortened[kept..] {
            feed_compared(&mut board, &fast, pick, &name);
        }
        compare_all(&mut board, &fast, &shortened, &name);
    }
}

/// Goings back on stored states that no run made: refused as listed, and accepted ones leave
/// what feeding the kept picks does, whatever bytes these are. Many of each must be among them,
/// also such as keep all picks, since the mark is longer.
#[test]
fn on_any_stored_state() {
    let generator = &mut Generator(30);
    let (mut numbers, mut longer) = ([0; 19], 0);
    for at in 0..1_500 {
        let state = mixed_state(at, generator);
        for _ in 0..3 {
            let names = [b"ABCDE"[generator.below(5)], generator.below(256) as u8];
            let name = names[generator.below(4) / 3];
            let mut board = state.clone();
            let number = make_within_bounds(&mut board, back(name), format!("state {at}"));
            numbers[usize::from(number.unwrap_or(0))] += 1;
            longer += usize::from(number.is_none() && board.n() == state.n());
        }
    }
    let often = [0, 2, 7, 17].iter().all(|&number| numbers[number] > 300);
    assert!(often && longer > 300, "{numbers:?}, {longer} longer");
}
