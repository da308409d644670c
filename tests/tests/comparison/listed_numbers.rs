//! The listed numbers, which need no letters, are those of the comparison program.

use comparison::calls::State;
use comparison::listed::{found, listed, listed_by_marks};
use comparison::plain::fixed_lifts;
use comparison::samples::Generator;
use comparison::scripted::{number_of, Call};
use comparison::support::some_calls::some_call;
use comparison::{LETTERS, MOST_PICKS};

/// A stored state of picks A, with marks of up to six letters.
fn stored(generator: &mut Generator, n: usize, most_sections: usize) -> State {
    let mut marks = [0; LETTERS];
    for _ in 0..generator.below(7) {
        marks[generator.below(6)] = 1 + generator.below(9) as u16;
    }
    State {
        n,
        marks,
        ..State::of(&[65; MOST_PICKS], most_sections, &fixed_lifts())
    }
}

/// The comparison program refuses the call with the listed number, or else accepts it
/// or refuses it by what it finds.
fn assert_listed(call: Call, state: &State) {
    let list = &mut vec![0; call.entries()];
    let output = &mut vec![0; call.output_bytes()];
    let reply = call.make(&mut state.clone(), list, output);
    let case = format!("{call:?}, n {}, K {}", state.n, state.most_sections);
    let by_marks = || listed_by_marks(call, &state.marks).map(|number| (number, None));
    match listed(call, state.n, state.most_sections).or_else(by_marks) {
        Some(refusal) => assert_eq!(reply, Err(refusal), "{case}"),
        None => {
            let by_finding = |number| found(call).contains(&number);
            let number = number_of(reply);
            assert!(number.is_none_or(by_finding), "{reply:?}, {case}");
        }
    }
}

#[test]
fn on_short_drafts_and_any_k() {
    let generator = &mut Generator(12);
    for _ in 0..20_000 {
        let n = match generator.below(10) {
            0 => MOST_PICKS + 1 + generator.below(1 << 20),
            _ => generator.below(9),
        };
        let call = some_call(generator, n);
        let most_sections = generator.below(11);
        assert_listed(call, &stored(generator, n, most_sections));
    }
}

#[test]
fn on_a_full_draft() {
    let generator = &mut Generator(13);
    for _ in 0..2_000 {
        let call = some_call(generator, MOST_PICKS);
        assert_listed(call, &stored(generator, MOST_PICKS, 8));
    }
}
