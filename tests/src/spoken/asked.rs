//! The calls on the stored state as they are asked for, with arguments of any size.

use super::lent::Lent;
use crate::calls::{self, Answer, State};
use crate::plain::{are_ends, turn_count};
use crate::scripted::Call;

/// A call with its arguments, those beyond their fields included. Prefixes are in whole
/// picks, centres in half picks.
#[derive(Clone, Copy, Debug, PartialEq, Eq)]
pub enum Asked {
    Start {
        most_sections: usize,
    },
    Feed {
        pick: u8,
        entries: usize,
    },
    Mask {
        prefix: usize,
    },
    Radius {
        centre: usize,
    },
    Longest,
    Next {
        centre: usize,
    },
    Split {
        prefix: usize,
        k: usize,
        entries: usize,
    },
    Record {
        prefix: usize,
        k: usize,
        bytes: usize,
    },
}

/// The number, or the largest that its field can hold.
fn field<T: TryFrom<usize>>(number: usize, largest: T) -> T {
    T::try_from(number).unwrap_or(largest)
}

impl Asked {
    /// What the call is lent.
    pub fn lent(self) -> Lent {
        match self {
            Asked::Feed { entries, .. } | Asked::Split { entries, .. } => Lent::list(entries),
            Asked::Record { bytes, .. } => Lent::output(bytes),
            _ => Lent::Nothing,
        }
    }

    /// Makes the call by the definitions, with the numbers that were asked for.
    pub fn make(self, state: &mut State, lent: &mut Lent) -> Answer<Vec<usize>> {
        let one = |value| vec![value];
        match self {
            Asked::Start { most_sections } => {
                calls::start(state, most_sections).map(|()| Vec::new())
            }
            Asked::Feed { pick, .. } => calls::feed(state, pick, lent.entries_mut())
                .map(|taken| vec![taken.mask.into(), taken.visits]),
            Asked::Mask { prefix } => {
                calls::mask_of_prefix(state, prefix).map(|mask| vec![mask.into()])
            }
            Asked::Radius { centre } => calls::radius_at(state, centre).map(one),
            Asked::Longest => calls::longest_centre(state).map(one),
            Asked::Next { centre } => {
                calls::next_ending(state, centre).map(|next| next.values().to_vec())
            }
            Asked::Split { prefix, k, .. } => {
                calls::split(state, prefix, k, lent.entries_mut()).map(one)
            }
            Asked::Record { prefix, k, .. } => {
                calls::folded_record(state, prefix, k, lent.bytes_mut()).map(one)
            }
        }
    }

    /// How many values the call gives where it is accepted.
    pub fn values(self) -> usize {
        match self {
            Asked::Start { .. } => 0,
            Asked::Feed { .. } => 2,
            Asked::Next { .. } => 3,
            _ => 1,
        }
    }

    /// Whether the accepted call can give these values on a stored state with this n. The
    /// ending at a centre has its length by that centre, and "length less period is always
    /// the length at the centre it gives".
    pub fn can_give(self, values: &[usize], n: usize) -> bool {
        let length_at = |centre| (2 * n + 1).checked_sub(centre);
        match (self, values) {
            (Asked::Next { centre }, &[next, length, period]) => {
                length_at(centre) == Some(length)
                    && (1..=length).contains(&period)
                    && length_at(next) == Some(length - period)
            }
            _ => values.len() == self.values(),
        }
    }

    /// Whether the accepted call with these values can leave what it was lent so, on any
    /// stored state: a split fills in ends of its prefix, and gives their turn count.
    pub fn can_leave(self, values: &[usize], lent: &Lent) -> bool {
        match (self, lent) {
            (Asked::Split { prefix, k, .. }, Lent::List(entries)) => {
                let ends: Vec<usize> = entries[..k].iter().map(|&end| end.into()).collect();
                are_ends(&ends, prefix) && values == [turn_count(&ends)]
            }
            _ => true,
        }
    }

    /// How much the accepted call with these values gave into what it was lent: a feed
    /// "its visits", a split "its first k entries", "a record its bytes".
    pub fn given(self, values: &[usize]) -> usize {
        match self {
            Asked::Feed { .. } => values[1],
            Asked::Split { k, .. } => k,
            Asked::Record { .. } => values[0],
            _ => 0,
        }
    }

    /// The call with each argument "as the field's largest number" where the script's
    /// field can't hold it.
    pub fn scripted(self) -> Call {
        let byte = |number| field(number, u8::MAX);
        let pair = |number| field(number, u16::MAX);
        match self {
            Asked::Start { most_sections } => Call::Start {
                most_sections: byte(most_sections),
            },
            Asked::Feed { pick, entries } => Call::Feed {
                pick,
                entries: pair(entries),
            },
            Asked::Mask { prefix } => Call::Mask {
                prefix: pair(prefix),
            },
            Asked::Radius { centre } => Call::Radius {
                centre: pair(centre),
            },
            Asked::Longest => Call::LongestCentre,
            Asked::Next { centre } => Call::NextEnding {
                centre: pair(centre),
            },
            Asked::Split { prefix, k, entries } => Call::Split {
                prefix: pair(prefix),
                k: byte(k),
                entries: pair(entries),
            },
            Asked::Record { prefix, k, bytes } => Call::Record {
                prefix: pair(prefix),
                k: byte(k),
                bytes: pair(bytes),
            },
        }
    }
}
