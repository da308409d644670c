//! The library's splits and records on every small draft: every prefix, every k from
//! 0 to K+1, with lists longer than needed and outputs around the record's length.

use comparison::beside::{BYTE, ENTRY};
use comparison::calls::State;
use comparison::fast::Fast;
use comparison::library::{Board, Lent};
use comparison::plain;
use comparison::samples::{every_draft_to, Generator};
use comparison::scripted::{Call, Reply};
use comparison::support::turns::turns_by_parts;
use comparison::{MOST_PICKS, MOST_SECTIONS};

/// The comparison program's state of a draft.
fn state_of(draft: &[u8], most_sections: usize) -> State {
    State::of(draft, most_sections, &plain::fixed_lifts())
}

/// The length of the record of prefix i in k sections, or 20 where there is none.
fn record_length(fast: &Fast, draft: &[u8], i: usize, k: usize) -> usize {
    let ends = fast.split(i, k);
    ends.map_or(20, |ends| plain::folded_record(&draft[..i], &ends).len())
}

/// Splits and records of every prefix, one above n among them, for every k from 0 to
/// K+1: a list of k-1, k and k+2 entries, an output one byte too short, exact, and
/// longer.
fn all_calls(draft: &[u8], most_sections: usize) -> Vec<Call> {
    let fast = Fast::new(draft, most_sections);
    let mut calls = Vec::new();
    for i in 0..=draft.len() + 1 {
        for k in 0..=most_sections + 1 {
            let there = i.min(draft.len());
            let length = record_length(&fast, draft, there, k) as u16;
            let (prefix, k) = (i as u16, k as u8);
            for entries in [k.saturating_sub(1), k, k + 2] {
                let entries = u16::from(entries);
                calls.push(Call::Split { prefix, k, entries });
            }
            for bytes in [length - 1, length, length + 3] {
                calls.push(Call::Record { prefix, k, bytes });
            }
        }
    }
    calls
}

/// Makes all these calls on the board as one script, and compares every reply, entry
/// and byte with the comparison program's.
fn compare_calls(draft: &[u8], most_sections: usize) {
    let text = String::from_utf8_lossy(draft);
    let calls = all_calls(draft, most_sections);
    let mut board = Board::fed(draft, most_sections);
    let before = board.clone();
    let mut lent = Lent::to(&calls, ENTRY, BYTE);
    let replies = board.run(&calls, &mut lent);
    assert!(board == before, "a byte of the state changed, {text}");
    let mut state = state_of(draft, most_sections);
    let (mut lists, mut bytes) = (lent.lists.as_slice(), lent.bytes.as_slice());
    for (&call, &reply) in calls.iter().zip(&replies) {
        let (list, more) = lists.split_at(call.entries());
        let (output, rest) = bytes.split_at(call.output_bytes());
        (lists, bytes) = (more, rest);
        let case = format!("{call:?} on draft {text}, K {most_sections}");
        compare_call(&mut state, call, (reply, list, output), &case);
    }
}

/// Compares a reply, a list and an output with those by the definitions.
fn compare_call(state: &mut State, call: Call, given: (Reply, &[u16], &[u8]), case: &str) {
    let mut list = vec![ENTRY; call.entries()];
    let mut output = vec![BYTE; call.output_bytes()];
    let reply = call.make(state, &mut list, &mut output);
    assert_eq!(given, (reply, &list[..], &output[..]), "{case}");
}

#[test]
fn two_letters_to_length_11() {
    for draft in every_draft_to(2, 11) {
        compare_calls(&draft, MOST_SECTIONS);
    }
}

#[test]
fn three_letters_to_length_7() {
    for draft in every_draft_to(3, 7) {
        compare_calls(&draft, MOST_SECTIONS);
    }
}

#[test]
fn two_letters_for_each_smaller_k() {
    for most_sections in 1..MOST_SECTIONS {
        for draft in every_draft_to(2, 8) {
            compare_calls(&draft, most_sections);
        }
    }
}

/// Random drafts of up to 120 picks.
#[test]
fn longer_drafts() {
    let generator = &mut Generator(90);
    for at in 0..60 {
        let length = generator.below(120);
        let draft = generator.draft(2 + at % 3, length);
        compare_calls(&draft, 1 + generator.below(MOST_SECTIONS));
    }
}

/// The split named is the plain definition's as well: of all splits, the one whose
/// last section is longest, then the one before that. Its turn count is that of the parts
/// of the draft by the ends that the board gives.
#[test]
fn the_split_named_among_all_splits() {
    for draft in every_draft_to(2, 9) {
        let mut board = Board::fed(&draft, MOST_SECTIONS);
        for k in 1..=MOST_SECTIONS {
            let case = format!("{} in {k}", String::from_utf8_lossy(&draft));
            let mut list = vec![ENTRY; k];
            let answer = board.split(draft.len(), k, &mut list);
            let Some(named) = plain::named_split(&draft, k) else {
                assert_eq!((answer, list), (Err(9), vec![ENTRY; k]), "{case}");
                continue;
            };
            let ends: Vec<usize> = list.into_iter().map(usize::from).collect();
            assert_eq!(ends, named, "{case}");
            assert_eq!(answer, Ok(turns_by_parts(&draft, &ends)), "{case}");
        }
    }
}

/// A full draft's record in one section: one byte too few, and exact.
#[test]
fn the_record_of_a_full_draft() {
    let mut board = Board::fed(&[b'A'; MOST_PICKS], MOST_SECTIONS);
    let expected = plain::folded_record(&[b'A'; MOST_PICKS], &[MOST_PICKS]);
    assert_eq!(expected.len(), 1_037);
    let mut output = vec![BYTE; 1_036];
    assert_eq!(board.folded_record(MOST_PICKS, 1, &mut output), Err(5));
    assert_eq!(output, vec![BYTE; 1_036]);
    let mut output = vec![BYTE; 1_037];
    let count = board.folded_record(MOST_PICKS, 1, &mut output);
    assert_eq!(count, Ok(1_037));
    assert_eq!(output, expected);
}
