//! Which number the library gives when the lines of several are met: every subset of
//! the lines of each call. 7 first, then the input numbers in rising order but for 5,
//! 13 in the place of 3, then 8, 9 or 10, then 5; of a load 7, 14, 15, 16; of a mark 7, 2,
//! 18, and of going back 7, 2, 17.

use comparison::beside::{BYTE, ENTRY};
use comparison::calls::Refusal;
use comparison::library::{show, Board};
use comparison::scripted::{number_of, Call};
use comparison::tables::Table;
use comparison::{LETTERS, MOST_PICKS, MOST_SECTIONS};

/// For every subset of the lines, which are in the order of the tests, makes the call
/// that meets exactly those and asserts that it gives the first of them, or is
/// accepted where there is none. A refusal keeps every byte.
fn assert_order(lines: &[Refusal], case: impl Fn(&dyn Fn(Refusal) -> bool) -> (Board, Call)) {
    for subset in 0..1 << lines.len() {
        let met: Vec<Refusal> = (0..lines.len())
            .filter(|at| subset >> at & 1 == 1)
            .map(|at| lines[at])
            .collect();
        let (mut board, call) = case(&|number| met.contains(&number));
        let before = board.clone();
        let mut list = vec![ENTRY; call.entries()];
        let mut output = vec![BYTE; call.output_bytes()];
        let number = number_of(board.make(call, &mut list, &mut output));
        assert_eq!(number, met.first().copied(), "{call:?} meets {met:?}");
        let kept = board == before
            && list.iter().all(|&entry| entry == ENTRY)
            && output.iter().all(|&byte| byte == BYTE);
        assert!(
            number.is_none() || kept,
            "{call:?} meets {met:?}: a byte changed"
        );
    }
}

/// A board with the draft, whose stored K is 9 where line 7 is met and 8 else.
fn stored(draft: &[u8], meets_7: bool) -> Board {
    let mut board = Board::fed(draft, MOST_SECTIONS);
    let most_sections = if meets_7 { 9 } else { 8 };
    board.store(board.n(), most_sections, board.longest());
    board
}

#[test]
fn feed() {
    assert_order(&[7, 2, 3, 8], |meets| {
        let length = if meets(8) { MOST_PICKS } else { 5 };
        let pick = if meets(2) { b'a' } else { b'A' };
        let entries = if meets(3) { 18 } else { 19 };
        let board = stored(&vec![b'A'; length], meets(7));
        (board, Call::Feed { pick, entries })
    });
}

/// AB is two sections, and not one.
#[test]
fn split() {
    assert_order(&[7, 1, 13, 4, 9], |meets| {
        let k = match (meets(1), meets(9)) {
            (true, _) => 200,
            (false, true) => 1,
            (false, false) => 2,
        };
        let entries = u16::from(k) - u16::from(meets(13));
        let prefix = if meets(4) { 3 } else { 2 };
        let board = stored(b"AB", meets(7));
        (board, Call::Split { prefix, k, entries })
    });
}

/// Line 1 by a k of 0, for which no list is too short.
#[test]
fn split_in_none() {
    assert_order(&[7, 1, 4], |meets| {
        let k = u8::from(!meets(1)) * 2;
        let prefix = if meets(4) { 3 } else { 2 };
        let board = stored(b"AB", meets(7));
        let entries = u16::from(k);
        (board, Call::Split { prefix, k, entries })
    });
}

#[test]
fn record() {
    assert_order(&[7, 1, 4, 9, 5], |meets| {
        let k = match (meets(1), meets(9)) {
            (true, _) => 0,
            (false, true) => 1,
            (false, false) => 2,
        };
        let prefix = if meets(4) { 3 } else { 2 };
        let bytes = if meets(5) { 0 } else { 40 };
        let board = stored(b"AB", meets(7));
        (board, Call::Record { prefix, k, bytes })
    });
}

#[test]
fn mask() {
    assert_order(&[7, 4], |meets| {
        let prefix = if meets(4) { 3 } else { 2 };
        (stored(b"AB", meets(7)), Call::Mask { prefix })
    });
}

#[test]
fn radius() {
    assert_order(&[7, 4], |meets| {
        let centre = if meets(4) { 6 } else { 5 };
        (stored(b"AB", meets(7)), Call::Radius { centre })
    });
}

/// Centres 0 and 6 are out of range and belong to no ending; 3 belongs to none; 4 is
/// that of the one-pick ending.
#[test]
fn next_shorter_ending() {
    for outside in [0, 6] {
        assert_order(&[7, 4, 10], |meets| {
            let centre = match (meets(4), meets(10)) {
                (true, _) => outside,
                (false, true) => 3,
                (false, false) => 4,
            };
            (stored(b"AB", meets(7)), Call::NextEnding { centre })
        });
    }
}

#[test]
fn lift() {
    assert_order(&[7, 2], |meets| {
        let letter = if meets(2) { b'a' } else { b'A' };
        (stored(b"AB", meets(7)), Call::Lift { letter })
    });
}

/// A table of 27 bytes, one of 25, and with two zeros or none.
#[test]
fn load() {
    for length in [25, 27] {
        assert_order(&[7, 14, 15, 16], |meets| {
            let mut table = Table::of([200; LETTERS]);
            if meets(14) {
                table.length = length;
            }
            if meets(15) {
                table.lifts[3..5].fill(0);
            }
            let draft = if meets(16) { &b"AB"[..] } else { b"" };
            (stored(draft, meets(7)), Call::Load { table })
        });
    }
}

/// Bytes that are no letter.
const NO_LETTERS: [u8; 6] = [0, b'@', b'[', b'a', 200, 255];

/// Marks of these letters at the end of AB, stored beside each other.
fn marked(names: &[u8], meets_7: bool) -> Board {
    let mut board = stored(b"AB", meets_7);
    for name in names {
        board.marks_mut()[usize::from(name - b'A')] = 3;
    }
    board
}

/// A name that is no letter is none of the marks either: with three of them, and with four.
#[test]
fn mark() {
    for no_letter in NO_LETTERS {
        assert_order(&[7, 2, 18], |meets| {
            let names = if meets(18) { &b"BMNZ"[..] } else { b"BMN" };
            let name = if meets(2) { no_letter } else { b'A' };
            (marked(names, meets(7)), Call::Mark { name })
        });
    }
}

/// A name that is no letter is no mark; so is one that is none of three others.
#[test]
fn back() {
    for no_letter in NO_LETTERS {
        assert_order(&[7, 2, 17], |meets| {
            let names = if meets(17) { &b"BMN"[..] } else { b"ABMN" };
            let name = if meets(2) { no_letter } else { b'A' };
            (marked(names, meets(7)), Call::Back { name })
        });
    }
}

#[test]
fn longest_ending() {
    assert_order(&[7], |meets| (stored(b"AB", meets(7)), Call::LongestCentre));
}

/// "Start doesn't look at" the stored state: line 1 alone, whatever is stored.
#[test]
fn start() {
    for stored_n in [0, 2_048, 2_049, usize::MAX] {
        for stored_k in [0, 8, 9, 255, 264, usize::MAX] {
            let mut board = Board::filled(|| 3);
            board.store(stored_n, stored_k, 7);
            let case = format!("stored n {stored_n}, K {stored_k}");
            assert_eq!(board.start(0), Err(1), "{case}");
            assert_eq!(board.start(9), Err(1), "{case}");
            assert_eq!(board.start(8), Ok(()), "{case}");
        }
    }
}

/// Show: 4, then 6.
#[test]
fn show_lines() {
    for (ends, s, number) in [
        ([2, 1], 0, 4),
        ([2, 1], 3, 4),
        ([2, 1], 2, 6),
        ([1, 2], 0, 4),
        ([1, 2], 3, 4),
        ([1, 2], 2, 0),
    ] {
        let given = show(b"AB", &ends, s, &mut []).0;
        assert_eq!(given, number, "ends {ends:?}, s {s}");
    }
}
