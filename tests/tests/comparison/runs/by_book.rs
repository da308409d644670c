//! The calls of a run, each answered from the plain book.

use comparison::book::Book;
use comparison::calls::{self, Answer, Placed, State, Taken};
use comparison::plain;
use comparison::support::turns::turns_by_parts;

/// A call of a run with its arguments.
#[derive(Debug)]
pub enum Call {
    Start(usize),
    Feed(u8, usize),
    Split(usize, usize, usize),
    LongestCentre,
    Load(Vec<u8>),
    Lift(u8),
    Mark(u8),
    Back(u8),
}

/// The feed's answer and the front of the list, from the book after the feed.
fn feed_by_book(book: &Book, taken: bool, pick: u8, entries: usize) -> (Answer<Taken>, Vec<u16>) {
    if !taken {
        let not_a_pick = !(65..=90).contains(&pick);
        let number = match (not_a_pick, entries < 19) {
            (true, _) => 2,
            (false, true) => 3,
            (false, false) => 8,
        };
        return (Err(number), Vec::new());
    }
    let visits = plain::visits(&book.word());
    let answer = Taken {
        mask: plain::mask(&book.word(), book.most_sections),
        visits: visits.len(),
    };
    (Ok(answer), visits.iter().map(|&l| l as u16).collect())
}

/// The split's answer and the front of the list, from the book.
fn split_by_book(book: &Book, i: usize, k: usize, entries: usize) -> (Answer<usize>, Vec<u16>) {
    if k == 0 || k > book.most_sections {
        return (Err(1), Vec::new());
    }
    if entries < k {
        return (Err(13), Vec::new());
    }
    if i > book.row.len() {
        return (Err(4), Vec::new());
    }
    let Some(ends) = plain::named_split(&book.word()[..i], k) else {
        return (Err(9), Vec::new());
    };
    let turns = turns_by_parts(&book.row, &ends);
    (Ok(turns), ends.iter().map(|&end| end as u16).collect())
}

/// The number of a load that the book does not take, and its place.
fn load_by_book(book: &Book, table: &[u8]) -> Placed {
    match table.iter().position(|&lift| lift == 0) {
        _ if table.len() != 26 => (14, None),
        Some(place) => (15, Some(place)),
        None => {
            assert!(!book.row.is_empty(), "{book:?} {table:?}");
            (16, None)
        }
    }
}

/// The answer of a mark, or of a going back, that the book takes or not: 2, or the number
/// that is its own.
fn by_name(taken: bool, name: u8, number: u8) -> Answer<()> {
    match (65..=90).contains(&name) {
        _ if taken => Ok(()),
        true => Err(number),
        false => Err(2),
    }
}

/// A list of so many entries, each holding 500 but for those of the front.
fn list_with(front: &[u16], entries: usize) -> Vec<u16> {
    let mut list = vec![500; entries];
    list[..front.len()].copy_from_slice(front);
    list
}

/// Feeds a pick, and asserts that the answer and the list are those of the book.
fn assert_feed(state: &mut State, book: &mut Book, pick: u8, entries: usize) {
    let mut list = list_with(&[], entries);
    let answer = calls::feed(state, pick, &mut list);
    let taken = book.feed(pick, entries);
    let (expected, front) = feed_by_book(book, taken, pick, entries);
    assert_eq!(answer, expected, "{book:?} {pick} {entries}");
    assert_eq!(list, list_with(&front, entries), "{book:?} {pick}");
}

/// Splits prefix i in k, and asserts that the answer and the list are those of the book.
fn assert_split(state: &State, book: &Book, [i, k]: [usize; 2], entries: usize) -> Answer<usize> {
    let mut list = list_with(&[], entries);
    let answer = calls::split(state, i, k, &mut list);
    let (expected, front) = split_by_book(book, i, k, entries);
    assert_eq!(answer, expected, "{book:?} {i} in {k}, {entries}");
    assert_eq!(list, list_with(&front, entries), "{book:?} {i} in {k}");
    answer
}

/// Makes one call and asserts that its answer and its list are those of the book. Gives
/// of an accepted split how many of its sections have one pick.
pub fn assert_call(state: &mut State, book: &mut Book, call: &Call) -> Option<usize> {
    match *call {
        Call::Start(most_sections) => {
            let answer = calls::start(state, most_sections);
            let taken = book.start(most_sections);
            assert_eq!(answer, if taken { Ok(()) } else { Err(1) }, "{book:?}");
        }
        Call::Feed(pick, entries) => assert_feed(state, book, pick, entries),
        Call::Split(i, k, entries) => {
            let answer = assert_split(state, book, [i, k], entries);
            return answer.ok().map(|turns| k - turns);
        }
        Call::LongestCentre => {
            let expected = Ok(plain::longest_centre(&book.word()));
            assert_eq!(calls::longest_centre(state), expected, "{book:?}");
        }
        Call::Load(ref table) => {
            let before = book.clone();
            let expected = match book.load(table) {
                true => Ok(()),
                false => Err(load_by_book(&before, table)),
            };
            assert_eq!(calls::load(state, table), expected, "{before:?} {table:?}");
        }
        Call::Lift(letter) => {
            let expected = plain::lift(&book.lifts, letter).ok_or(2);
            assert_eq!(calls::lift(state, letter), expected, "{book:?} {letter}");
        }
        Call::Mark(name) => {
            let expected = by_name(book.mark(name), name, 18);
            assert_eq!(calls::mark(state, name), expected, "{book:?} {name}");
        }
        Call::Back(name) => {
            let expected = by_name(book.back(name), name, 17);
            assert_eq!(calls::back(state, name), expected, "{book:?} {name}");
        }
    }
    None
}
