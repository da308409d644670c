//! What a call may not read counts for nothing in it: of one that only reads, row words of
//! prefixes above its own (document 02, 2.6), and every array that it is not lent; of a mark and
//! a going back, all but the marks, the lifts and the picks that are kept.

use comparison::beside::{BYTE, ENTRY};
use comparison::full_drafts::{palindromes, repeated_units, well_known_words};
use comparison::library::{Board, NEXT, PLACES, RADIUS, ROWS};
use comparison::samples::{every_draft_to, Generator};
use comparison::scripted::{number_of, Call, Reply};
use comparison::support::any_states::{any_state, spoiled_state, with_any_numbers};
use comparison::{MOST_PICKS, MOST_SECTIONS};
use std::collections::HashMap;
use std::mem::{discriminant, Discriminant};

/// What a call gives: its reply, and the list and the output as they are afterwards.
type Given = (Reply, Vec<u16>, Vec<u8>);

/// Makes a call on a copy of the state.
fn given(state: &Board, call: Call) -> Given {
    let mut list = vec![ENTRY; call.entries()];
    let mut output = vec![BYTE; call.output_bytes()];
    let reply = state.clone().make(call, &mut list, &mut output);
    (reply, list, output)
}

/// How many row words the call may read: those of prefixes 0 to its own.
fn row_words(call: Call) -> usize {
    match call {
        Call::Split { prefix, .. } | Call::Record { prefix, .. } | Call::Mask { prefix } => {
            PLACES.min(usize::from(prefix) + 1)
        }
        _ => 0,
    }
}

/// The state with its own numbers and all that the call may read, and anything else in the
/// other arrays and above its prefix.
fn all_else_changed(state: &Board, call: Call, anything: &Board) -> Board {
    let mut other = only_numbers(state, anything);
    let rows = row_words(call);
    other.place_lane_mut(ROWS)[..rows].copy_from_slice(&state.place_lane(ROWS)[..rows]);
    let lanes: &[usize] = match call {
        Call::Split { .. } | Call::Record { .. } | Call::Radius { .. } => &[RADIUS],
        Call::NextEnding { .. } => &[RADIUS, NEXT],
        _ => &[],
    };
    for &lane in lanes {
        let read = state.centre_lane(lane);
        other.centre_lane_mut(lane).copy_from_slice(read);
    }
    match call {
        Call::Record { .. } => other.letters_mut().copy_from_slice(state.stored_picks()[0]),
        Call::Lift { .. } => other.lifts_mut().copy_from_slice(&state.lifts()),
        _ => {}
    }
    other
}

/// The state's numbers, and anything in its arrays.
fn only_numbers(state: &Board, anything: &Board) -> Board {
    let mut other = anything.clone();
    other.store(state.n(), state.most_sections(), state.longest());
    other
}

/// The state's n, K and marks, and of going back its lifts and the letters that are kept;
/// anything else in the other arrays, behind those letters and as the stored centre.
fn all_but_kept_changed(state: &Board, call: Call, anything: &Board) -> Board {
    let mut other = anything.clone();
    let marks = state.marks();
    other.store(state.n(), state.most_sections(), anything.n());
    other.marks_mut().copy_from_slice(&marks);
    if let Call::Back { name } = call {
        let length = usize::from(marks[usize::from(name - b'A')]).saturating_sub(1);
        let letters = &state.stored_picks()[0][..length.min(state.n()).min(MOST_PICKS)];
        other.letters_mut()[..letters.len()].copy_from_slice(letters);
        other.lifts_mut().copy_from_slice(&state.lifts());
    }
    other
}

/// Arrays of any bytes, and of bytes that are all the same.
fn anythings() -> [Board; 4] {
    let generator = &mut Generator(26);
    [
        Board::filled(|| generator.below(1 << 16) as u16),
        Board::filled(|| u16::MAX),
        Board::filled(|| 0),
        Board::filled(|| generator.below(1 << 9) as u16),
    ]
}

/// An output that is long enough for every record.
const MOST_RECORD: u16 = 1_200;

/// Mask of a prefix; its splits and records for every k from 0 to 9, on lists of 8 entries
/// and of one too few, on outputs that are often too short and that never are; a call of each
/// other kind, for the next ending after the longest one too.
fn calls_about(state: &Board, prefix: u16) -> Vec<Call> {
    let longest = state.longest().clamp(1, 2 * state.n().min(MOST_PICKS) + 1);
    let [centre, ending] = [2 * prefix, longest as u16];
    let mut calls = vec![
        Call::Mask { prefix },
        Call::LongestCentre,
        Call::Radius { centre },
        Call::NextEnding { centre },
        Call::NextEnding { centre: ending },
        Call::Lift { letter: 90 },
    ];
    for k in 0..=MOST_SECTIONS as u8 + 1 {
        for entries in [MOST_SECTIONS as u16, u16::from(k).saturating_sub(1)] {
            calls.push(Call::Split { prefix, k, entries });
        }
        let bytes = [60, MOST_RECORD][usize::from(k % 2)];
        calls.push(Call::Record { prefix, k, bytes });
    }
    calls
}

/// What was seen: accepted splits, those refused with 9, and of each kind of call how many
/// were answered otherwise where what they read was changed.
#[derive(Default, Debug)]
struct Seen {
    accepted: usize,
    refused: usize,
    read: HashMap<Discriminant<Call>, usize>,
}

impl Seen {
    /// Makes the calls on the state, and on states that differ in what is not read.
    fn compare(&mut self, state: &Board, prefix: u16, anythings: &[Board], case: &str) {
        for call in calls_about(state, prefix) {
            let first = given(state, call);
            for anything in anythings {
                let second = given(&all_else_changed(state, call, anything), call);
                let n = state.n();
                assert_eq!(first, second, "{call:?}, n {n}, {case}");
                let without = given(&only_numbers(state, anything), call);
                *self.read.entry(discriminant(&call)).or_default() += usize::from(first != without);
            }
            if matches!(call, Call::Split { .. }) {
                self.accepted += usize::from(first.0.is_ok());
                self.refused += usize::from(number_of(first.0) == Some(9));
            }
        }
    }

    /// Each was seen at least so often. The longest ending's centre is by the numbers alone.
    fn at_least(&self, count: usize) {
        assert!(self.accepted.min(self.refused) >= count, "{self:?}");
        for call in calls_about(&Board::started(1), 0) {
            let read = self.read[&discriminant(&call)];
            let least = usize::from(call != Call::LongestCentre) * count;
            assert!(read >= least, "{call:?} {read} times");
        }
    }
}

#[test]
fn every_small_draft() {
    let (anythings, mut seen) = (anythings(), Seen::default());
    for draft in every_draft_to(2, 6).chain(every_draft_to(3, 4)) {
        let state = Board::fed(&draft, MOST_SECTIONS);
        let text = String::from_utf8_lossy(&draft);
        for prefix in 0..=draft.len() as u16 + 1 {
            seen.compare(&state, prefix, &anythings, &text);
        }
    }
    seen.at_least(2_000);
}

#[test]
fn full_drafts() {
    let (anythings, mut seen) = (anythings(), Seen::default());
    let generator = &mut Generator(2_048);
    for (name, draft) in [repeated_units(), well_known_words(), palindromes(1)].concat() {
        let state = Board::fed(&draft, MOST_SECTIONS);
        for _ in 0..12 {
            let prefix = generator.below(draft.len() + 1) as u16;
            seen.compare(&state, prefix, &anythings, &name);
        }
    }
    seen.at_least(300);
}

/// States that no run made, n and K within their limits or not.
#[test]
fn any_stored_bytes() {
    let (anythings, mut seen) = (anythings(), Seen::default());
    for seed in 0..600 {
        let generator = &mut Generator(seed);
        let any = any_state(generator);
        let states = [
            spoiled_state(generator),
            with_any_numbers(any.clone(), generator),
            any,
        ];
        for state in states {
            let prefix = generator.below(state.n().min(2_049) + 1) as u16;
            seen.compare(&state, prefix, &anythings, &format!("seed {seed}"));
        }
    }
    seen.at_least(600);
}

/// Marks and goes back, to each letter, on the state and on others that differ in what is not
/// read. Going back leaves them the same in every byte. Gives how many were accepted.
fn compare_marks(state: &Board, anythings: &[Board], case: &str) -> [usize; 2] {
    let mut accepted = [0, 0];
    for name in b'A'..=b'Z' {
        for (at, call) in [Call::Mark { name }, Call::Back { name }]
            .into_iter()
            .enumerate()
        {
            let mut board = state.clone();
            let reply = board.make(call, &mut [], &mut []);
            for anything in anythings {
                let mut other = all_but_kept_changed(state, call, anything);
                let second = other.make(call, &mut [], &mut []);
                assert_eq!(second, reply, "{call:?}, {case}");
                assert_eq!(other.marks(), board.marks(), "{call:?}, {case}");
                let is_back = at == 1 && reply.is_ok();
                assert!(!is_back || other == board, "{call:?}, {case}");
            }
            accepted[at] += usize::from(reply.is_ok());
        }
    }
    accepted
}

/// On true drafts with four marks, of which one is of no pick and one of all, and on states
/// that no run made.
#[test]
fn marks() {
    let (anythings, mut accepted) = (anythings(), [0, 0]);
    for seed in 0..50 {
        let generator = &mut Generator(seed);
        let length = generator.below(300);
        let mut marked = Board::fed(&generator.draft(3, length), MOST_SECTIONS);
        for name in [3, 7, 0, 25] {
            marked.marks_mut()[name] = 1 + generator.below(length + 1) as u16;
        }
        marked.marks_mut()[3] = 1;
        marked.marks_mut()[7] = length as u16 + 1;
        let any = any_state(generator);
        let states = [
            marked,
            spoiled_state(generator),
            with_any_numbers(any.clone(), generator),
            any,
        ];
        for state in states {
            let more = compare_marks(&state, &anythings, &format!("seed {seed}"));
            accepted = [accepted[0] + more[0], accepted[1] + more[1]];
        }
    }
    assert!(accepted.iter().all(|&count| count > 700), "{accepted:?}");
}
