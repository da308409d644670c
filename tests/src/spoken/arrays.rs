//! The stored arrays by their names, and what is known of their entries.

use crate::calls::State;
use crate::{LETTERS, MOST_PICKS};
use std::collections::BTreeMap;

/// A stored array: its name, its entries, and the largest number of an entry.
#[derive(Debug)]
pub struct Array {
    pub name: &'static str,
    pub length: usize,
    pub largest: u16,
}

/// Places are 0 to 2,048; centres 1 to 2 × 2,048 + 1, and entry 0.
const PLACES: usize = MOST_PICKS + 1;
const CENTRES: usize = 2 * MOST_PICKS + 2;

/// An array of 16-bit numbers.
const fn lane(name: &'static str, length: usize) -> Array {
    let largest = u16::MAX;
    Array {
        name,
        length,
        largest,
    }
}

/// An array of bytes.
const fn bytes(name: &'static str, length: usize) -> Array {
    let largest = u8::MAX as u16;
    Array {
        name,
        length,
        largest,
    }
}

/// "The arrays are letters codes lifts marks radius heads lends next prev rows gathered."
pub const ARRAYS: [Array; 11] = [
    bytes("letters", MOST_PICKS),
    bytes("codes", MOST_PICKS),
    bytes("lifts", LETTERS),
    lane("marks", LETTERS),
    lane("radius", CENTRES),
    lane("heads", PLACES),
    lane("lends", CENTRES),
    lane("next", CENTRES),
    lane("prev", CENTRES),
    lane("rows", PLACES),
    lane("gathered", PLACES),
];

/// An entry that there is: the number of its array in `ARRAYS`, and its index.
#[derive(Clone, Copy, Debug, PartialEq, Eq, PartialOrd, Ord)]
pub struct Entry {
    pub array: usize,
    pub index: usize,
}

impl Entry {
    /// Whether the entry is one of the marks, which only the calls for marks look at.
    pub fn is_mark(self) -> bool {
        ARRAYS[self.array].name == "marks"
    }
}

/// The bytes of an entry's array, which are always known, and so are the marks.
fn bytes_of<'a>(array: usize, state: &'a mut State) -> Option<&'a mut [u8]> {
    match ARRAYS[array].name {
        "letters" => Some(&mut state.letters),
        "codes" => Some(&mut state.codes),
        "lifts" => Some(&mut state.lifts),
        _ => None,
    }
}

/// What the entries of the lanes hold that nobody has poked since.
#[derive(Clone, Copy, Debug, PartialEq, Eq)]
enum Since {
    /// "At first every stored number is 0."
    First,
    /// A start: every entry 0 but row word and gathered word of place 0, which are 1.
    Start,
    /// A feed, or a back that keeps picks: no lane is known.
    Feed,
}

/// What is known of the stored lanes: by the last start, feed or back, and by the pokes
/// after it. The bytes and the marks are known by the calls and the pokes.
pub struct Known {
    since: Since,
    poked: BTreeMap<Entry, u16>,
}

impl Known {
    /// All is 0.
    pub fn at_first() -> Known {
        let (since, poked) = (Since::First, BTreeMap::new());
        Known { since, poked }
    }

    /// After an accepted start.
    pub fn start(&mut self) {
        self.since = Since::Start;
        self.poked.clear();
    }

    /// After an accepted feed.
    pub fn feed(&mut self) {
        self.since = Since::Feed;
        self.poked.clear();
    }

    /// After an accepted back that keeps so many picks: the lanes are those of that many
    /// feeds behind a start.
    pub fn back(&mut self, kept: usize) {
        match kept {
            0 => self.start(),
            _ => self.feed(),
        }
    }

    /// After a poke.
    pub fn poke(&mut self, entry: Entry, value: u16, state: &mut State) {
        match bytes_of(entry.array, state) {
            Some(bytes) => bytes[entry.index] = value as u8,
            None if entry.is_mark() => state.marks[entry.index] = value,
            None => drop(self.poked.insert(entry, value)),
        }
    }

    /// The entry's number where it is known.
    pub fn entry(&self, entry: Entry, state: &mut State) -> Option<u16> {
        let Entry { array, index } = entry;
        if let Some(bytes) = bytes_of(array, state) {
            return Some(bytes[index].into());
        }
        if entry.is_mark() {
            return Some(state.marks[index]);
        }
        let is_word = ["rows", "gathered"].contains(&ARRAYS[array].name);
        let poked = self.poked.get(&entry).copied();
        poked.or_else(|| match self.since {
            Since::First => Some(0),
            Since::Start => Some((is_word && index == 0).into()),
            Since::Feed => None,
        })
    }
}
