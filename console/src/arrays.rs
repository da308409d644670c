//! The stored state as it is: its arrays by their names, and its numbers.

use crate::printed::{ok, text};
use crate::words::{exact, number, Wrong};
use board::{State, GATHERED, HEADS, LENDS, NEXT, PREV, RADIUS, ROWS};

/// The names of the stored arrays.
const ARRAYS: [&str; 11] = [
    "letters", "codes", "lifts", "marks", "radius", "heads", "lends", "next", "prev", "rows",
    "gathered",
];

/// A stored array.
enum Array<'a> {
    Bytes(&'a mut [u8]),
    Numbers(&'a mut [u16]),
}

impl Array<'_> {
    fn len(&self) -> usize {
        match self {
            Array::Bytes(bytes) => bytes.len(),
            Array::Numbers(numbers) => numbers.len(),
        }
    }
}

/// The array of this name.
fn array<'a>(state: &'a mut State, name: &[u8]) -> Result<Array<'a>, Wrong> {
    Ok(match name {
        b"letters" => Array::Bytes(&mut state.letters),
        b"codes" => Array::Bytes(&mut state.codes),
        b"lifts" => Array::Bytes(&mut state.lifts),
        b"marks" => Array::Numbers(&mut state.marks),
        b"radius" => Array::Numbers(&mut state.centres[RADIUS]),
        b"heads" => Array::Numbers(&mut state.places[HEADS]),
        b"lends" => Array::Numbers(&mut state.centres[LENDS]),
        b"next" => Array::Numbers(&mut state.centres[NEXT]),
        b"prev" => Array::Numbers(&mut state.centres[PREV]),
        b"rows" => Array::Numbers(&mut state.places[ROWS]),
        b"gathered" => Array::Numbers(&mut state.places[GATHERED]),
        _ => return Err(format!("no array is named {}", text(name))),
    })
}

/// The index that a word says, which the array has.
fn index(word: &[u8], array: &Array) -> Result<usize, Wrong> {
    let index = number(word)?;
    if index >= array.len() {
        let last = array.len() - 1;
        return Err(format!("{} is above the last index, {last}", text(word)));
    }
    Ok(index)
}

/// `poke ARRAY INDEX VALUE`.
pub fn poke(state: &mut State, name: &[u8], at: &[u8], value: &[u8]) -> Result<String, Wrong> {
    let array = array(state, name)?;
    let at = index(at, &array)?;
    match array {
        Array::Bytes(bytes) => bytes[at] = exact(value, u8::MAX.into())? as u8,
        Array::Numbers(numbers) => numbers[at] = exact(value, u16::MAX.into())? as u16,
    }
    Ok(ok(&[]))
}

/// `peek ARRAY INDEX`.
pub fn peek(state: &mut State, name: &[u8], at: &[u8]) -> Result<String, Wrong> {
    let array = array(state, name)?;
    let at = index(at, &array)?;
    Ok(ok(&[match array {
        Array::Bytes(bytes) => bytes[at].into(),
        Array::Numbers(numbers) => numbers[at].into(),
    }]))
}

/// `peek` alone: each array's name and length.
pub fn lengths(state: &mut State) -> Result<String, Wrong> {
    let mut answer = ok(&[]);
    for name in ARRAYS {
        let length = array(state, name.as_bytes())?.len();
        answer += &format!(" {name} {length}");
    }
    Ok(answer)
}

/// `numbers N K C`.
pub fn store(state: &mut State, words: [&[u8]; 3]) -> Result<String, Wrong> {
    let mut numbers = [0; 3];
    for (number, word) in numbers.iter_mut().zip(words) {
        *number = exact(word, usize::MAX)?;
    }
    state.numbers = numbers;
    Ok(ok(&[]))
}
