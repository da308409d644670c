//! The lines of the console's language.

use super::arrays::{Entry, ARRAYS};
use super::asked::Asked;
use super::text::bytes_of;
use super::words::{fitting, number, pick, words};
use crate::VISIT_ROOM;

/// The bytes of an output where BYTES is left out.
const OUTPUT: usize = 2_048;

/// What a line asks for.
#[derive(Clone, Debug, PartialEq, Eq)]
pub enum Line {
    Call(Asked),
    Show {
        letters: Vec<u8>,
        s: usize,
        ends: Vec<u16>,
    },
    Lift(u8),
    Load(Vec<u8>),
    Mark(u8),
    Back(u8),
    Unfold {
        record: Vec<u8>,
        bytes: usize,
    },
    Section {
        record: Vec<u8>,
        at: usize,
    },
    /// Writes n, K and the stored centre.
    Store([usize; 3]),
    Numbers,
    Poke {
        entry: Entry,
        value: u16,
    },
    Peek(Entry),
    Lengths,
    Help,
    Quit,
}

/// The word of each line.
pub const WORDS: [&str; 21] = [
    "start", "load", "feed", "picks", "mark", "back", "mask", "radius", "longest", "next", "split",
    "record", "lift", "show", "unfold", "section", "numbers", "poke", "peek", "help", "quit",
];

/// What the line asks for, one thing after the other; none where it "is no call".
pub fn read(line: &[u8]) -> Option<Vec<Line>> {
    let words = words(line);
    match words[..] {
        [b"picks", letters] => Some(bytes_of(letters)?.into_iter().map(feed).collect()),
        [word, ref arguments @ ..] => {
            let call = call(word, arguments).map(Line::Call);
            Some(vec![call.or_else(|| other(word, arguments))?])
        }
        [] => None,
    }
}

/// `picks` is "a feed for each letter, with an answer for each".
fn feed(pick: u8) -> Line {
    let entries = VISIT_ROOM;
    Line::Call(Asked::Feed { pick, entries })
}

/// A call on the stored state.
fn call(word: &[u8], arguments: &[&[u8]]) -> Option<Asked> {
    Some(match (word, arguments) {
        (b"start", [k]) => Asked::Start {
            most_sections: number(k)?,
        },
        (b"feed", [letter, entries @ ..]) => Asked::Feed {
            pick: pick(letter)?,
            entries: size(entries, VISIT_ROOM)?,
        },
        (b"mask", [prefix]) => Asked::Mask {
            prefix: number(prefix)?,
        },
        (b"radius", [centre]) => Asked::Radius {
            centre: number(centre)?,
        },
        (b"longest", []) => Asked::Longest,
        (b"next", [centre]) => Asked::Next {
            centre: number(centre)?,
        },
        (b"split", [prefix, k, entries @ ..]) => Asked::Split {
            prefix: number(prefix)?,
            k: number(k)?,
            entries: size(entries, number(k)?.min(u8::MAX.into()))?,
        },
        (b"record", [prefix, k, bytes @ ..]) => Asked::Record {
            prefix: number(prefix)?,
            k: number(k)?,
            bytes: size(bytes, OUTPUT)?,
        },
        _ => return None,
    })
}

/// How much is lent: the last word's number, or as much as where it is left out.
fn size(words: &[&[u8]], left_out: usize) -> Option<usize> {
    match words {
        [] => Some(left_out),
        [word] => number(word),
        _ => None,
    }
}

/// What is no call on the stored state, or one that is known on every such state.
fn other(word: &[u8], arguments: &[&[u8]]) -> Option<Line> {
    Some(match (word, arguments) {
        (b"show", [letters, s, ends @ ..]) => Line::Show {
            letters: bytes_of(letters)?,
            s: number(s)?,
            ends: ends.iter().map(|end| fitting(end)).collect::<Option<_>>()?,
        },
        (b"lift", [letter]) => Line::Lift(pick(letter)?),
        (b"load", bytes) => Line::Load(
            bytes
                .iter()
                .map(|byte| fitting(byte))
                .collect::<Option<_>>()?,
        ),
        (b"mark", [name]) => Line::Mark(pick(name)?),
        (b"back", [name]) => Line::Back(pick(name)?),
        (b"unfold", [record, bytes @ ..]) => Line::Unfold {
            record: bytes_of(record)?,
            bytes: size(bytes, OUTPUT)?,
        },
        (b"section", [record, at]) => Line::Section {
            record: bytes_of(record)?,
            at: number(at)?,
        },
        (b"numbers", []) => Line::Numbers,
        (b"numbers", [n, k, c]) => Line::Store([fitting(n)?, fitting(k)?, fitting(c)?]),
        (b"poke", [array, index, value]) => poke(entry(array, index)?, value)?,
        (b"peek", []) => Line::Lengths,
        (b"peek", [array, index]) => Line::Peek(entry(array, index)?),
        (b"help", []) => Line::Help,
        (b"quit", []) => Line::Quit,
        _ => return None,
    })
}

/// An entry of a stored array; none where there is "no such array or index".
fn entry(name: &[u8], index: &[u8]) -> Option<Entry> {
    let array = ARRAYS
        .iter()
        .position(|array| array.name.as_bytes() == name)?;
    let index = fitting(index).filter(|&index| index < ARRAYS[array].length)?;
    Some(Entry { array, index })
}

/// A poke of a value that the array's type can hold.
fn poke(entry: Entry, value: &[u8]) -> Option<Line> {
    let value = fitting(value).filter(|&value| value <= ARRAYS[entry.array].largest)?;
    Some(Line::Poke { entry, value })
}
