//! The library's board on stored states that no run made: every call ends, within
//! bounds, and refusals 1 to 4, 7, 8 and 13 to 18 are as listed.

use crate::support::bounded::{is_counted, make_within_bounds};
use crate::support::ends::{each_step_ends, Step, Steps};
use crate::support::told::is_told;
use comparison::beside::{BYTE, ENTRY};
use comparison::library::{Board, Lent};
use comparison::samples::Generator;
use comparison::scripted::{refused, Call};
use comparison::support::any_states::{any_number, any_state, spoiled_state, with_any_numbers};
use comparison::support::some_calls::some_call;
use comparison::{MOST_PICKS, MOST_SECTIONS};
use std::ops::Range;

/// Makes some calls of each kind on the state as it comes to be. Starts are left out, and
/// goings back are made on a copy, since they would end what no run made.
fn make_some(board: &mut Board, seed: u64, calls: usize, steps: &Steps) {
    let generator = &mut Generator(!seed);
    for number in 0..calls {
        let step = Step { seed, number };
        steps.begin(step);
        let call = some_call(generator, board.n());
        match call {
            Call::Start { .. } => {}
            Call::Back { .. } => drop(make_within_bounds(&mut board.clone(), call, step)),
            _ => drop(make_within_bounds(board, call, step)),
        }
    }
}

/// Feeds picks, and asks at any centre now and then.
fn feed_some(board: &mut Board, seed: u64, picks: usize, steps: &Steps) {
    let generator = &mut Generator(!seed);
    for number in 0..picks {
        let step = Step { seed, number };
        steps.begin(step);
        if number.is_multiple_of(50) {
            ask_anywhere(board, generator, step);
        }
        let pick = b"ABC"[generator.below(3)];
        let entries = 19 + generator.below(8) as u16;
        let call = Call::Feed { pick, entries };
        make_within_bounds(board, call, step);
    }
}

/// Puts the questions that only read, at centres and prefixes in range and at any
/// others. The longest ending's centre is the stored one, brought into 1 to 2n+1.
fn ask_anywhere(board: &mut Board, generator: &mut Generator, step: Step) {
    for _ in 0..10 {
        let centre = any_number(generator) as u16;
        let calls = [
            Call::Radius { centre },
            Call::NextEnding { centre },
            Call::Mask { prefix: centre },
            Call::LongestCentre,
        ];
        for call in calls {
            make_within_bounds(board, call, step);
        }
    }
    if board.n() <= MOST_PICKS {
        let centre = board.longest().clamp(1, 2 * board.n() + 1);
        assert_eq!(board.longest_centre(), Ok(centre), "longest, {step}");
    }
}

/// Asks what is told of the ending at every centre, and gives of how many something is.
/// The three values fit together, or the call is refused with 10.
fn ask_every_ending(board: &mut Board, step: Step) -> usize {
    let n = board.n();
    let centres = 1..=2 * n as u16 + 1;
    let calls: Vec<Call> = centres.map(|centre| Call::NextEnding { centre }).collect();
    let mut told = 0;
    for (at, reply) in board.ask(&calls).into_iter().enumerate() {
        let centre = at + 1;
        let case = || format!("{reply:?}, centre {centre}, n {n}, {step}");
        match reply {
            Ok(values) => assert!(is_told(values, centre, n), "{}", case()),
            Err(_) => assert_eq!(reply, refused(10), "{}", case()),
        }
        told += usize::from(reply.is_ok());
    }
    told
}

/// Many endings must be told of, on any bytes and on spoiled drafts.
#[test]
fn every_ending_on_any_bytes() {
    each_step_ends(|steps| {
        let mut told = [0, 0];
        for seed in 40_000..42_000 {
            let step = Step { seed, number: 0 };
            steps.begin(step);
            let mut any = any_state(&mut Generator(seed));
            told[0] += ask_every_ending(&mut any, step);
            let mut spoiled = spoiled_state(&mut Generator(seed));
            told[1] += ask_every_ending(&mut spoiled, step);
        }
        assert!(told.iter().all(|&count| count > 40_000), "{told:?}");
    });
}

/// Splits a prefix into each k from 1 to K. Gives in how many splits every section turns,
/// and in how many some have one pick: each turn count is that of the ends given.
fn split_into_each(board: &mut Board, prefix: u16, step: Step) -> [usize; 2] {
    let entries = MOST_SECTIONS as u16;
    let sections = 1..=board.most_sections() as u8;
    let calls: Vec<Call> = sections
        .map(|k| Call::Split { prefix, k, entries })
        .collect();
    let mut lent = Lent::to(&calls, ENTRY, BYTE);
    let replies = board.run(&calls, &mut lent);
    let mut counts = [0, 0];
    for (at, list) in lent.lists.chunks(MOST_SECTIONS).enumerate() {
        let (call, reply, k) = (calls[at], replies[at], at + 1);
        let counted = is_counted(call, reply, &list[..k]);
        assert!(counted, "{call:?}, {reply:?}, ends {list:?}, {step}");
        if let Ok([turns, ..]) = reply {
            counts[usize::from(turns < k)] += 1;
        }
    }
    counts
}

/// Many splits of both kinds must be among them, on any bytes and on spoiled drafts.
#[test]
fn turn_counts_on_any_bytes() {
    each_step_ends(|steps| {
        let mut counts = [[0, 0], [0, 0]];
        for seed in 42_000..42_800 {
            let generator = &mut Generator(seed);
            let states = [any_state(generator), spoiled_state(generator)];
            for (mut state, counts) in states.into_iter().zip(&mut counts) {
                for number in 0..12 {
                    let step = Step { seed, number };
                    steps.begin(step);
                    let prefix = generator.below(state.n() + 1) as u16;
                    let more = split_into_each(&mut state, prefix, step);
                    *counts = [counts[0] + more[0], counts[1] + more[1]];
                }
            }
        }
        let often = counts.iter().flatten().all(|&count| count > 600);
        assert!(often, "{counts:?}");
    });
}

/// Does this with the state that each seed makes.
fn with_each(
    seeds: Range<u64>,
    state: impl Fn(&mut Generator) -> Board + Send + 'static,
    done: impl Fn(&mut Board, u64, &Steps) + Send + 'static,
) {
    each_step_ends(move |steps| {
        for seed in seeds {
            done(&mut state(&mut Generator(seed)), seed, steps);
        }
    });
}

#[test]
fn calls_on_any_bytes() {
    with_each(0..10_000, any_state, |board, seed, steps| {
        make_some(board, seed, 16, steps);
    });
}

#[test]
fn hundreds_of_picks_on_any_bytes() {
    with_each(10_000..12_000, any_state, |board, seed, steps| {
        feed_some(board, seed, 300, steps);
    });
}

#[test]
fn calls_on_a_spoiled_draft() {
    with_each(20_000..25_000, spoiled_state, |board, seed, steps| {
        make_some(board, seed, 40, steps);
    });
}

#[test]
fn hundreds_of_picks_on_a_spoiled_draft() {
    with_each(25_000..27_000, spoiled_state, |board, seed, steps| {
        feed_some(board, seed, 300, steps);
    });
}

/// Any n and any K, within their limits or not.
#[test]
fn calls_with_any_n_and_any_k() {
    let state = |generator: &mut Generator| with_any_numbers(any_state(generator), generator);
    with_each(30_000..40_000, state, |board, seed, steps| {
        make_some(board, seed, 16, steps);
    });
}
