//! A call on any stored state: what must hold of it there.

use crate::support::shortened::shortened;
use crate::support::told::is_told;
use comparison::beside::{BYTE, ENTRY};
use comparison::calls::{Placed, Refusal};
use comparison::library::Board;
use comparison::listed::{found, listed, listed_by_marks};
use comparison::plain::{self, are_ends, turn_count, Lifts};
use comparison::scripted::{number_of, Call, Reply, VALUES};
use comparison::{FIRST_PICK, LETTERS, VISIT_ROOM};
use std::fmt::Display;

/// Makes a call on any stored state. "There 1 to 4 and 8 still hold, and beyond them
/// the call need only end within bounds." A refusal keeps every byte, and so does a
/// reading call of the state; an accepted call keeps the entries past those named, an
/// accepted split counts the turns of the ends that it gives, and the stored picks, lifts and
/// marks are as the call leaves them. Gives the number that it is refused with.
pub fn make_within_bounds(board: &mut Board, call: Call, step: impl Display) -> Option<Refusal> {
    let (n, most_sections) = (board.n(), board.most_sections());
    let (lifts, marks) = (board.lifts(), board.marks());
    let case = || format!("{call:?}, n {n}, K {most_sections}, marks {marks:?}, {step}");
    let by_marks = || listed_by_marks(call, &marks).map(|number| (number, None));
    let number = listed(call, n, most_sections).or_else(by_marks);
    let left = left(board, call, number.is_some());
    let mut list = vec![ENTRY; call.entries()];
    let mut output = vec![BYTE; call.output_bytes()];
    let reply = board.make(call, &mut list, &mut output);
    let possible = is_possible(reply, number, call, (n, &lifts));
    assert!(possible, "{reply:?}, {}", case());
    assert!(left.is(board), "a byte of the state changed, {}", case());
    let [entries, bytes] = named(call, reply);
    let fit = entries <= list.len() && bytes <= output.len();
    assert!(fit, "more than is lent: {reply:?}, {}", case());
    let kept = list[entries..].iter().all(|&entry| entry == ENTRY);
    assert!(kept, "list {list:?}, {}", case());
    let counted = is_counted(call, reply, &list[..entries]);
    assert!(counted, "{reply:?}, ends {list:?}, {}", case());
    let kept = output[bytes..].iter().all(|&byte| byte == BYTE);
    assert!(kept, "output {output:?}, {}", case());
    let stored = [board.n(), board.most_sections()];
    let expected = numbers_after(call, reply, [n, most_sections], &marks);
    assert_eq!(stored, expected, "stored n and K, {}", case());
    number_of(reply)
}

/// The stored n and the stored lifts before a call.
type Stored<'a> = (usize, &'a Lifts);

/// Whether a call can reply so on a state: with the listed number; where none is listed, it
/// is accepted, or refused by what it finds.
fn is_possible(reply: Reply, number: Option<Placed>, call: Call, stored: Stored) -> bool {
    match (reply, number) {
        (Err(given), Some(number)) => given == number,
        (Ok(_), Some(_)) => false,
        (Err((given, place)), None) => found(call).contains(&given) && place.is_none(),
        (Ok(values), None) => are_possible(values, call, stored),
    }
}

/// Whether an accepted call can give these values: a count of visits is 19 at most, what
/// is told of an ending is as it always is, a lift is the stored one, and there is no value
/// more.
fn are_possible(values: [usize; VALUES], call: Call, (n, lifts): Stored) -> bool {
    match (call, values) {
        (Call::NextEnding { centre }, _) => is_told(values, usize::from(centre), n),
        (Call::Lift { letter }, _) => values == [lift_by(lifts, letter).into(), 0, 0],
        (Call::Load { .. } | Call::Mark { .. } | Call::Back { .. }, _) => values == [0; VALUES],
        (Call::Feed { .. }, [_, visits, 0]) => visits <= VISIT_ROOM,
        (_, [_, second, third]) => [second, third] == [0, 0],
    }
}

/// The lift of a letter by the stored lifts.
fn lift_by(lifts: &Lifts, letter: u8) -> u8 {
    plain::lift(lifts, letter).expect("a letter")
}

/// The stored marks.
type Marks = [u16; LETTERS];

/// What a call must leave of the state: all of it, or the stored letters and codes, lifts and
/// marks.
enum Left {
    State(Board),
    Arrays([Vec<u8>; 2], Lifts, Marks),
}

/// The place of a letter's entry.
fn place_of(letter: u8) -> usize {
    usize::from(letter - FIRST_PICK)
}

/// What is refused or only reads changes no byte, a load the lifts alone, and a mark its entry
/// alone; an accepted start leaves what a start on zeros does, and an accepted going back what
/// feeding the kept picks does. An accepted feed stores its pick and the lift that is stored
/// for it, and no other letter, code, lift or mark.
fn left(board: &Board, call: Call, refused: bool) -> Left {
    match call {
        Call::Start { most_sections } if !refused => {
            Left::State(Board::started(most_sections.into()))
        }
        Call::Load { table } if !refused => {
            let mut loaded = board.clone();
            loaded.lifts_mut().copy_from_slice(&table.lifts);
            Left::State(loaded)
        }
        Call::Feed { pick, .. } if !refused => {
            let lifts = board.lifts();
            let mut picks = board.stored_picks().map(<[u8]>::to_vec);
            picks[0][board.n()] = pick;
            picks[1][board.n()] = lift_by(&lifts, pick);
            Left::Arrays(picks, lifts, board.marks())
        }
        Call::Mark { name } if !refused => {
            let mut marked = board.clone();
            marked.marks_mut()[place_of(name)] = board.n() as u16 + 1;
            Left::State(marked)
        }
        Call::Back { name } if !refused => Left::State(shortened(board, name)),
        _ => Left::State(board.clone()),
    }
}

impl Left {
    /// Whether the state is so.
    fn is(&self, board: &Board) -> bool {
        match self {
            Left::State(state) => board == state,
            Left::Arrays([letters, codes], lifts, marks) => {
                board.stored_picks() == [letters, codes]
                    && board.lifts() == *lifts
                    && board.marks() == *marks
            }
        }
    }
}

/// Whether an accepted split has filled in ends of its prefix, and gives their turn count:
/// the number of sections with two or more picks.
pub fn is_counted(call: Call, reply: Reply, ends: &[u16]) -> bool {
    match (call, reply) {
        (Call::Split { prefix, .. }, Ok([turns, ..])) => {
            let ends: Vec<usize> = ends.iter().map(|&end| end.into()).collect();
            are_ends(&ends, prefix.into()) && turns == turn_count(&ends)
        }
        _ => true,
    }
}

/// The entries and the bytes that an accepted call may fill; a refused one fills none.
fn named(call: Call, reply: Reply) -> [usize; 2] {
    match (call, reply) {
        (Call::Feed { .. }, Ok([_, visits, _])) => [visits, 0],
        (Call::Split { k, .. }, Ok(_)) => [usize::from(k), 0],
        (Call::Record { .. }, Ok([bytes, ..])) => [0, bytes],
        _ => [0, 0],
    }
}

/// The stored n and K after a call: an accepted start stores 0 and its K, an accepted
/// feed one pick more, an accepted going back the mark's length where n is more.
fn numbers_after(call: Call, reply: Reply, before: [usize; 2], marks: &Marks) -> [usize; 2] {
    let [n, most_sections] = before;
    match (call, reply) {
        (Call::Start { most_sections }, Ok(_)) => [0, usize::from(most_sections)],
        (Call::Feed { .. }, Ok(_)) => [n + 1, most_sections],
        (Call::Back { name }, Ok(_)) => {
            let length = usize::from(marks[place_of(name)]) - 1;
            [n.min(length), most_sections]
        }
        _ => before,
    }
}
