//! The library's start on any stored state: the draft then behaves as from a fresh
//! one. "The first is a start with K from 1 to 8, on any stored state whatever."

use crate::support::compared::{compare_all, feed_compared};
use comparison::beside::Beside;
use comparison::fast::Fast;
use comparison::library::Board;
use comparison::samples::Generator;
use comparison::scripted::{given, refused, Call};
use comparison::structured::broken_periods;
use comparison::support::any_states::{any_state, spoiled_state, with_any_numbers};
use comparison::{MOST_PICKS, MOST_SECTIONS};
use std::ops::Range;

/// A state of any bytes or a spoiled one, with any n and any K.
fn stored(generator: &mut Generator) -> Board {
    let board = match generator.below(4) {
        0 => spoiled_state(generator),
        _ => any_state(generator),
    };
    with_any_numbers(board, generator)
}

/// Starts on the stored state, which is then as after a start on zeros, and feeds the
/// draft; compares each pick with the tables, and all that is kept at the end.
fn compare_started(mut board: Board, draft: &[u8], most_sections: usize, name: &str) {
    let (n, k) = (board.n(), board.most_sections());
    let text = String::from_utf8_lossy(draft);
    let name = format!("{name}, {text}, K {most_sections}, on a stored n {n}, K {k}");
    assert_eq!(board.start(most_sections as u8), Ok(()), "{name}");
    let as_on_zeros = board == Board::started(most_sections);
    assert!(as_on_zeros, "a byte is not a fresh start's, {name}");
    let fast = Fast::new(draft, most_sections);
    compare_all(&mut board, &fast, draft, &name);
    for &pick in draft {
        feed_compared(&mut board, &fast, pick, &name);
    }
    compare_all(&mut board, &fast, draft, &name);
}

/// For each seed a stored state, a draft and a K.
fn compare_seeds(seeds: Range<u64>, draft: impl Fn(&mut Generator) -> Vec<u8>) {
    for seed in seeds {
        let generator = &mut Generator(seed);
        let board = stored(generator);
        let draft = draft(generator);
        let most_sections = 1 + generator.below(MOST_SECTIONS);
        compare_started(board, &draft, most_sections, &format!("seed {seed}"));
    }
}

#[test]
fn a_short_draft_after_a_start_on_any_state() {
    compare_seeds(0..10_000, |generator| {
        let length = generator.below(24);
        generator.draft(2, length)
    });
}

#[test]
fn a_full_draft_after_a_start_on_any_state() {
    compare_seeds(50_000..50_040, |generator| {
        broken_periods(generator, 2, MOST_PICKS)
    });
}

/// A refused start keeps every byte of any stored state.
#[test]
fn a_refused_start_keeps_any_state() {
    for seed in 60_000..61_000 {
        let generator = &mut Generator(seed);
        let mut board = stored(generator);
        let before = board.clone();
        for most_sections in [0, 9, 9 + generator.below(247) as u8] {
            let case = format!("K {most_sections}, seed {seed}");
            assert_eq!(board.start(most_sections), Err(1), "{case}");
            assert!(board == before, "a byte of the state changed, {case}");
        }
    }
}

/// A second start in a run empties the draft, also a full one.
#[test]
fn a_start_on_a_full_draft() {
    for most_sections in 1..=MOST_SECTIONS as u8 {
        let draft = Generator(u64::from(most_sections)).draft(2, MOST_PICKS);
        let mut beside = Beside::fed(&draft, MOST_SECTIONS);
        let one_more = Call::Feed {
            pick: b'A',
            entries: 19,
        };
        assert_eq!(beside.make(one_more), refused(8));
        assert_eq!(beside.make(Call::Start { most_sections }), given([]));
        assert_eq!(beside.make(Call::LongestCentre), given([1]));
        assert_eq!(beside.make(Call::Mask { prefix: 0 }), given([0]));
        assert_eq!(beside.make(Call::Mask { prefix: 1 }), refused(4));
        for pick in *b"ABABABA" {
            let fed = beside.make(Call::Feed { pick, entries: 19 });
            assert!(fed.is_ok(), "K {most_sections}");
        }
    }
}
