//! The refusals that hang on the call's arguments and the stored n and K alone:
//! numbers 1 to 4, 7, 8 and 13 to 16, which hold on any stored state; and 17 and 18, which
//! hang on the stored marks too.

use crate::calls::{Placed, Refusal};
use crate::plain::{is_most_sections, is_pick};
use crate::scripted::Call;
use crate::tables::Table;
use crate::{FIRST_PICK, LETTERS, MOST_MARKS, MOST_PICKS, VISIT_ROOM};

/// The lines that a call tests, in its order, each with whether it is met.
type Lines = Vec<(bool, Refusal)>;

/// The number of those that the call is refused with, and its place where it names one;
/// none where it meets no line of them.
pub fn listed(call: Call, n: usize, most_sections: usize) -> Option<Placed> {
    let mut lines = lines(call, n, most_sections).into_iter();
    let (_, number) = lines.find(|&(met, _)| met)?;
    Some((number, place(call, number)))
}

/// "15, a lift of 0, with the first one's place from 0."
fn place(call: Call, number: Refusal) -> Option<usize> {
    match (call, number) {
        (Call::Load { table }, 15) => first_0(table),
        _ => None,
    }
}

/// The place of the first lift of 0 in a table.
fn first_0(table: Table) -> Option<usize> {
    table.bytes().iter().position(|&lift| lift == 0)
}

/// "Each call that is given a state, other than start, tests 7 first; every call then
/// tests those input numbers whose inputs it has, in rising order but for 5, then 8,
/// 9 or 10, then 5." "A short ends list gets a number of its own in the same place of
/// the order." "New numbers, in this order after 7": 14, 15 and 16.
fn lines(call: Call, n: usize, most_sections: usize) -> Lines {
    let mut lines = match call {
        Call::Start { most_sections } => return line_1_of_start(most_sections),
        _ => vec![(n > MOST_PICKS || !is_most_sections(most_sections), 7)],
    };
    lines.extend(match call {
        Call::Feed { pick, entries } => vec![
            (!is_pick(pick), 2),
            (usize::from(entries) < VISIT_ROOM, 3),
            (n == MOST_PICKS, 8),
        ],
        Call::Split { prefix, k, entries } => vec![
            (k_is_outside(k, most_sections), 1),
            (entries < u16::from(k), 13),
            (usize::from(prefix) > n, 4),
        ],
        Call::Record { prefix, k, .. } => vec![
            (k_is_outside(k, most_sections), 1),
            (usize::from(prefix) > n, 4),
        ],
        Call::Mask { prefix } => vec![(usize::from(prefix) > n, 4)],
        Call::Radius { centre } | Call::NextEnding { centre } => {
            vec![(centre_is_outside(centre, n), 4)]
        }
        Call::Lift { letter } => vec![(!is_pick(letter), 2)],
        Call::Mark { name } | Call::Back { name } => vec![(!is_pick(name), 2)],
        Call::Load { table } => vec![
            (usize::from(table.length) != LETTERS, 14),
            (first_0(table).is_some(), 15),
            (n > 0, 16),
        ],
        Call::Start { .. } | Call::LongestCentre => Vec::new(),
    });
    lines
}

/// "K outside 1 to 8." "Start doesn't look at" the stored state.
fn line_1_of_start(most_sections: u8) -> Lines {
    vec![(!is_most_sections(usize::from(most_sections)), 1)]
}

/// "k outside 1 to K."
fn k_is_outside(k: u8, most_sections: usize) -> bool {
    !(1..=most_sections).contains(&usize::from(k))
}

/// "Centre outside 1 to 2n+1."
fn centre_is_outside(centre: u16, n: usize) -> bool {
    let last = n.saturating_mul(2).saturating_add(1);
    !(1..=last).contains(&usize::from(centre))
}

/// The number that hangs on the stored marks, for a call that meets no other line: "17, no
/// such mark; 18, a fifth name". An entry is 0 where the letter is no mark.
pub fn listed_by_marks(call: Call, marks: &[u16; LETTERS]) -> Option<Refusal> {
    let is_mark = |name: u8| marks[usize::from(name - FIRST_PICK)] > 0;
    let count = marks.iter().filter(|&&entry| entry > 0).count();
    match call {
        Call::Back { name } => (!is_mark(name)).then_some(17),
        Call::Mark { name } => (!is_mark(name) && count >= MOST_MARKS).then_some(18),
        _ => None,
    }
}

/// The numbers that hang on what is found in the draft, for a call that meets none of
/// the other lines: 9, 10 and 5.
pub fn found(call: Call) -> &'static [Refusal] {
    match call {
        Call::Split { .. } => &[9],
        Call::Record { .. } => &[9, 5],
        Call::NextEnding { .. } => &[10],
        _ => &[],
    }
}
