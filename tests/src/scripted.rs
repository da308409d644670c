//! The calls that are given a state, each with its arguments: both the library and
//! the comparison program can be given one.

use crate::calls::{self, Answer, NextEnding, Placed, Refusal, State};
use crate::tables::Table;

/// Bytes of a script for each call.
pub const CALL_BYTES: usize = 6;

/// A call with its arguments. Prefixes are in whole picks, centres in half picks.
/// Of a lent list and a lent output the lengths are given, of a table all bytes.
#[derive(Clone, Copy, Debug, PartialEq, Eq)]
pub enum Call {
    Start { most_sections: u8 },
    Feed { pick: u8, entries: u16 },
    Split { prefix: u16, k: u8, entries: u16 },
    LongestCentre,
    Mask { prefix: u16 },
    Radius { centre: u16 },
    NextEnding { centre: u16 },
    Record { prefix: u16, k: u8, bytes: u16 },
    Lift { letter: u8 },
    Load { table: Table },
    Mark { name: u8 },
    Back { name: u8 },
}

/// The most values that a call gives.
pub const VALUES: usize = 3;

/// What a call replies: its values, 0 where there is no such value, or the number it
/// is refused with, and its place where the number names one.
pub type Reply = Result<[usize; VALUES], Placed>;

/// The reply that gives these values.
pub fn given<const COUNT: usize>(values: [usize; COUNT]) -> Reply {
    let mut all = [0; VALUES];
    all[..COUNT].copy_from_slice(&values);
    Ok(all)
}

/// The reply of a call that is refused with this number, which names no place.
pub fn refused(number: Refusal) -> Reply {
    Err((number, None))
}

/// The number that a call is refused with; none where it is accepted.
pub fn number_of(reply: Reply) -> Option<Refusal> {
    reply.err().map(|(number, _)| number)
}

impl Call {
    /// The call in a script: its number, a byte, and two numbers of 16 bits, the
    /// low byte of each first.
    pub fn bytes(self) -> [u8; CALL_BYTES] {
        let (number, byte, at, lent) = match self {
            Call::Start { most_sections } => (0, most_sections, 0, 0),
            Call::Feed { pick, entries } => (1, pick, 0, entries),
            Call::Load { table } => (2, 0, 0, table.length),
            Call::Mark { name } => (3, name, 0, 0),
            Call::Back { name } => (4, name, 0, 0),
            Call::Split { prefix, k, entries } => (16, k, prefix, entries),
            Call::LongestCentre => (17, 0, 0, 0),
            Call::Mask { prefix } => (18, 0, prefix, 0),
            Call::Radius { centre } => (19, 0, centre, 0),
            Call::NextEnding { centre } => (20, 0, centre, 0),
            Call::Record { prefix, k, bytes } => (21, k, prefix, bytes),
            Call::Lift { letter } => (22, letter, 0, 0),
        };
        let ([at_low, at_high], [lent_low, lent_high]) = (at.to_le_bytes(), lent.to_le_bytes());
        [number, byte, at_low, at_high, lent_low, lent_high]
    }

    /// The entries of the list that the call is lent.
    pub fn entries(self) -> usize {
        match self {
            Call::Feed { entries, .. } | Call::Split { entries, .. } => usize::from(entries),
            _ => 0,
        }
    }

    /// The bytes of the output that the call is lent.
    pub fn output_bytes(self) -> usize {
        match self {
            Call::Record { bytes, .. } => usize::from(bytes),
            _ => 0,
        }
    }

    /// The bytes of the input that the call is lent.
    pub fn input(self) -> Vec<u8> {
        match self {
            Call::Load { table } => table.bytes(),
            _ => Vec::new(),
        }
    }

    /// Whether the call only reads the state.
    pub fn only_reads(self) -> bool {
        !matches!(
            self,
            Call::Start { .. }
                | Call::Feed { .. }
                | Call::Load { .. }
                | Call::Mark { .. }
                | Call::Back { .. }
        )
    }

    /// Makes the call by the definitions, on the comparison program's state.
    pub fn make(self, state: &mut State, list: &mut [u16], output: &mut [u8]) -> Reply {
        match self {
            Call::Start { most_sections } => {
                values(calls::start(state, most_sections.into()).map(|()| []))
            }
            Call::Feed { pick, .. } => values(
                calls::feed(state, pick, list).map(|taken| [taken.mask.into(), taken.visits]),
            ),
            Call::Split { prefix, k, .. } => {
                one_value(calls::split(state, prefix.into(), k.into(), list))
            }
            Call::LongestCentre => one_value(calls::longest_centre(state)),
            Call::Mask { prefix } => {
                one_value(calls::mask_of_prefix(state, prefix.into()).map(usize::from))
            }
            Call::Radius { centre } => one_value(calls::radius_at(state, centre.into())),
            Call::NextEnding { centre } => {
                values(calls::next_ending(state, centre.into()).map(NextEnding::values))
            }
            Call::Record { prefix, k, .. } => {
                one_value(calls::folded_record(state, prefix.into(), k.into(), output))
            }
            Call::Lift { letter } => one_value(calls::lift(state, letter).map(usize::from)),
            Call::Load { table } => calls::load(state, &table.bytes()).and_then(|()| given([])),
            Call::Mark { name } => values(calls::mark(state, name).map(|()| [])),
            Call::Back { name } => values(calls::back(state, name).map(|()| [])),
        }
    }
}

/// The reply of a call with these values, whose numbers name no place.
fn values<const COUNT: usize>(answer: Answer<[usize; COUNT]>) -> Reply {
    answer.map_or_else(refused, given)
}

/// The reply of a call that has one value.
fn one_value(answer: Answer<usize>) -> Reply {
    values(answer.map(|value| [value]))
}

/// The bytes of a script of these calls.
pub fn script(calls: &[Call]) -> Vec<u8> {
    calls.iter().flat_map(|call| call.bytes()).collect()
}
