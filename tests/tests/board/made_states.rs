//! The library's board on stored states made for one purpose: the most visits that
//! links can make, sections of every length, and both sides of each limit of n and K.

use crate::support::bounded::make_within_bounds;
use crate::support::ends::{each_step_ends, Step};
use comparison::library::{Board, NEXT, RADIUS, ROWS};
use comparison::scripted::Call;
use comparison::tables::Table;
use comparison::MOST_PICKS;

/// Links that give each ending of length len the period len / 3 + 1, so that each
/// visit is nearly two thirds of the one before: the most visits that links can make.
#[test]
fn links_made_for_many_visits() {
    each_step_ends(|steps| {
        for n in 1..MOST_PICKS {
            let step = Step { seed: 0, number: n };
            steps.begin(step);
            let entries = 19 + (n % 8) as u16;
            let call = Call::Feed { pick: 65, entries };
            let number = make_within_bounds(&mut many_visits(n), call, step);
            assert_eq!(number, None, "{step}");
        }
    });
}

/// The state with those links after n picks A; one more is an ending of all.
fn many_visits(n: usize) -> Board {
    let mut board = Board::filled(|| 0);
    board.letters_mut().fill(65);
    board.codes_mut().fill(3);
    board.lifts_mut().fill(3);
    board.store(n, 8, n + 2);
    board.centre_lane_mut(RADIUS)[n + 2] = (n - (n + 2) / 2) as u16;
    let next = board.centre_lane_mut(NEXT);
    for length in 1..=n + 1 {
        let centre = 2 * (n + 1) + 1 - length;
        next[centre] = (centre + length / 3 + 1) as u16;
    }
    board
}

/// Stored row words and radii by which a draft is three sections, the longest of them at
/// each place and of every length, whatever the letters are: it turns, unless it has one
/// pick.
#[test]
fn sections_of_every_length() {
    for length in 1..=MOST_PICKS - 2 {
        for at in 0..3 {
            let mut lengths = [1; 3];
            lengths[at] = length;
            let ends = [1, 2, 3].map(|s| lengths[..s].iter().sum::<usize>() as u16);
            let mut given = [0; 3];
            let answer = three_sections(ends).split(length + 2, 3, &mut given);
            assert_eq!(answer, Ok(usize::from(length > 1)), "lengths {lengths:?}");
            assert_eq!(given, ends, "lengths {lengths:?}");
        }
    }
}

/// The state of a full draft in which the row words have these ends alone, and every
/// radius is as large as can be.
fn three_sections(ends: [u16; 3]) -> Board {
    let mut board = Board::filled(|| 0);
    board.store(MOST_PICKS, 8, 2 * MOST_PICKS + 1);
    board.centre_lane_mut(RADIUS).fill(u16::MAX);
    let rows = board.place_lane_mut(ROWS);
    rows[0] = 1;
    for (at, end) in ends.into_iter().enumerate() {
        rows[usize::from(end)] = 2 << at;
    }
    board
}

/// A call of each kind but load, with arguments that no line of 1 to 4 and 13 refuses on a
/// good state; back and mark are refused with 17 or 18 only where the stored marks say so.
fn good_calls(n: usize) -> [Call; 11] {
    let prefix = n.min(MOST_PICKS) as u16;
    [
        Call::Start { most_sections: 4 },
        Call::Feed {
            pick: 65,
            entries: 19,
        },
        Call::Split {
            prefix,
            k: 1,
            entries: 1,
        },
        Call::LongestCentre,
        Call::Mask { prefix },
        Call::Radius { centre: 1 },
        Call::NextEnding { centre: 1 },
        Call::Record {
            prefix,
            k: 1,
            bytes: 40,
        },
        Call::Lift { letter: 90 },
        Call::Mark { name: 90 },
        Call::Back { name: 90 },
    ]
}

/// Loads of a good table, of one with a 0 and of one that is too long.
fn loads() -> [Call; 3] {
    let good = Table::of([255; 26]);
    let mut with_a_0 = good;
    with_a_0.lifts[7] = 0;
    let too_long = Table { length: 27, ..good };
    [good, with_a_0, too_long].map(|table| Call::Load { table })
}

/// Both sides of each limit: n of 2,048 and 2,049, K of 0 and 1, 8 and 9. Every call
/// but start gives 7 outside them; start is accepted.
#[test]
fn both_sides_of_each_limit() {
    let limits = [0, 1, MOST_PICKS - 1, MOST_PICKS, MOST_PICKS + 1, usize::MAX];
    for n in limits {
        for most_sections in [0, 1, 8, 9, 255, 264] {
            let good = n <= MOST_PICKS && (1..=8).contains(&most_sections);
            for call in good_calls(n).into_iter().chain(loads()) {
                let mut board = Board::filled(|| 1);
                board.store(n, most_sections, n.saturating_add(1));
                let number = make_within_bounds(&mut board, call, "stored");
                let is_start = matches!(call, Call::Start { .. });
                let refused = number == Some(7);
                let case = format!("{call:?}, n {n}, K {most_sections}");
                assert_eq!(refused, !good && !is_start, "{case}");
            }
        }
    }
}

/// The ending ABBA has centre 5, and 6 to 9 are the centres behind it: with every stored
/// link, one of them or not, the next ending is given, and its three values fit together.
#[test]
fn every_stored_link() {
    let mut board = Board::fed(b"ABBA", 8);
    for link in 0..=u16::MAX {
        board.centre_lane_mut(NEXT)[5] = link;
        let call = Call::NextEnding { centre: 5 };
        let number = make_within_bounds(&mut board, call, format!("link {link}"));
        assert_eq!(number, None, "link {link}");
    }
}

/// Every stored K from 0 to 600.
#[test]
fn every_stored_k() {
    for most_sections in 0..=600 {
        for call in good_calls(3).into_iter().chain(loads()) {
            let mut board = Board::filled(|| 0);
            board.store(3, most_sections, 4);
            let number = make_within_bounds(&mut board, call, "stored");
            let is_start = matches!(call, Call::Start { .. });
            let good = is_start || (1..=8).contains(&most_sections);
            assert_eq!(number != Some(7), good, "{call:?}, K {most_sections}");
        }
    }
}

/// Of ABBA with every stored mark, of a length up to n, above it and far beyond: going back
/// keeps at most all picks, and drops the marks that are longer than this one alone.
#[test]
fn every_stored_mark() {
    let far = (0..=u16::MAX).step_by(251).chain(65_530..=u16::MAX);
    for entry in (0..2_100).chain(far) {
        let mut board = Board::fed(b"ABBA", 8);
        let beside = [entry.saturating_sub(1), entry, entry.saturating_add(1)];
        board.marks_mut()[..3].copy_from_slice(&beside);
        board.marks_mut()[25] = entry;
        let case = format!("entry {entry}");
        let number = make_within_bounds(&mut board, Call::Back { name: 90 }, &case);
        assert_eq!(number, (entry == 0).then_some(17), "{case}");
        if entry > 0 {
            assert_eq!(board.n(), usize::from(entry - 1).min(4), "{case}");
            let longer = if entry < u16::MAX { 0 } else { entry };
            assert_eq!(board.marks()[..3], [entry - 1, entry, longer], "{case}");
        }
    }
}

/// Every count of stored marks: with four and more, 18 for every name that is none of them.
#[test]
fn every_count_of_marks() {
    for count in 0..=26 {
        for entry in [1, 4, 5, 6, 2_049, 2_050, u16::MAX] {
            for name in b'A'..=b'Z' {
                let mut board = Board::fed(b"ABBA", 8);
                board.marks_mut()[..count].fill(entry);
                let case = format!("{count} marks of entry {entry}");
                let number = make_within_bounds(&mut board, Call::Mark { name }, &case);
                let is_mark = usize::from(name - b'A') < count;
                let is_fifth = count >= 4 && !is_mark;
                assert_eq!(number, is_fifth.then_some(18), "{case}, name {name}");
            }
        }
    }
}

/// Calls with an argument that a line of 1 to 4 or 13 refuses on every state but one of
/// line 7.
fn bad_calls() -> [Call; 11] {
    [
        Call::Start { most_sections: 9 },
        Call::Feed {
            pick: 64,
            entries: 19,
        },
        Call::Split {
            prefix: 0,
            k: 0,
            entries: 1,
        },
        Call::Split {
            prefix: 0,
            k: 1,
            entries: 0,
        },
        Call::Mask { prefix: u16::MAX },
        Call::Radius { centre: 0 },
        Call::NextEnding { centre: 0 },
        Call::Record {
            prefix: 0,
            k: 0,
            bytes: 40,
        },
        Call::Lift { letter: 91 },
        Call::Mark { name: 64 },
        Call::Back { name: 91 },
    ]
}

/// Stored numbers on both sides of their limits and far beyond them, among them such
/// as are good ones modulo 2^8, 2^16 or 2^32.
const STORED: [usize; 16] = [
    0,
    1,
    3,
    8,
    9,
    255,
    256,
    264,
    2_048,
    2_049,
    (1 << 16) + 3,
    (1 << 32) + 3,
    (1 << 32) + 8,
    1 << 63,
    usize::MAX - 247,
    usize::MAX,
];

/// Every such n, K and centre, with every call, good and bad: no number is read modulo
/// anything, so a call is refused with 7 exactly where n or K is outside its limits,
/// and a call that does not change the state leaves every stored number as it is.
#[test]
fn stored_numbers_beyond_their_limits() {
    let mut state = Board::filled(|| 1);
    for n in STORED {
        for most_sections in STORED {
            let good = n <= MOST_PICKS && (1..=8).contains(&most_sections);
            for longest in STORED {
                for call in good_calls(n).into_iter().chain(bad_calls()).chain(loads()) {
                    state.store(n, most_sections, longest);
                    let is_start = matches!(call, Call::Start { .. });
                    let case = format!("stored centre {longest}");
                    let number = if good || is_start {
                        make_within_bounds(&mut state.clone(), call, &case)
                    } else {
                        make_within_bounds(&mut state, call, &case)
                    };
                    let stored = format!("{call:?}, n {n}, K {most_sections}, {case}");
                    assert_eq!(number == Some(7), !good && !is_start, "{stored}");
                }
            }
        }
    }
}
