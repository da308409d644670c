//! Runs of calls beside the plain book: every answer is the one read from the book's
//! K, letters, lifts and marks, and a start, a feed, a load, a mark or a going back is
//! accepted exactly when the book takes it.

mod by_book;

use by_book::{assert_call, Call};
use comparison::book::Book;
use comparison::calls::{self, State};
use comparison::samples::Generator;
use comparison::tables::some_table;
use comparison::{plain, LETTERS, MOST_PICKS, VISIT_ROOM};

/// A call with arguments inside and outside their bounds; starts are few, so that the
/// draft grows. Loads are many while it is empty.
fn some_call(generator: &mut Generator, n: usize) -> Call {
    if n == 0 && generator.below(3) > 0 {
        return Call::Load(some_table(generator).bytes());
    }
    match generator.below(30) {
        0 => Call::Start(generator.below(11)),
        20 => Call::Load(some_table(generator).bytes()),
        21..=22 => Call::Lift(some_pick(generator)),
        23..=26 => Call::Mark(some_name(generator)),
        27..=29 => Call::Back(some_name(generator)),
        1..=11 => Call::Feed(some_pick(generator), 17 + generator.below(6)),
        12..=16 => Call::Split(
            generator.below(12),
            generator.below(10),
            generator.below(10),
        ),
        _ => Call::LongestCentre,
    }
}

/// A, B or C mostly, and now and then a byte beside the letters.
fn some_pick(generator: &mut Generator) -> u8 {
    let picks = b"AAAAABBBBBC@[";
    picks[generator.below(picks.len())]
}

/// One of six letters mostly, two more than there are marks.
fn some_name(generator: &mut Generator) -> u8 {
    let names = b"ABCDYZABCDYZ@[";
    names[generator.below(names.len())]
}

/// The first call is a start with K from 1 to 8, on any stored state whatever.
fn first_state(generator: &mut Generator) -> State {
    State {
        n: generator.below(5_000),
        most_sections: generator.below(300),
        letters: [generator.below(256) as u8; MOST_PICKS],
        codes: [generator.below(256) as u8; MOST_PICKS],
        lifts: [generator.below(256) as u8; LETTERS],
        marks: [generator.below(5_000) as u16; LETTERS],
    }
}

/// Splits in which every section turns, and such as have sections of one pick, must be
/// among the calls, and goings back that cut the row and drop no mark, one and two.
#[test]
fn every_answer_of_a_run_is_the_books() {
    let mut generator = Generator(3);
    let mut of_one_pick = Vec::new();
    let mut shortened = [0; 5];
    for _ in 0..2_000 {
        let mut state = first_state(&mut generator);
        let mut book = Book::default();
        let most_sections = 1 + generator.below(8);
        assert_call(&mut state, &mut book, &Call::Start(most_sections));
        for _ in 0..24 {
            let call = some_call(&mut generator, book.row.len());
            let (picks, marks) = (book.row.len(), book.marks.len());
            of_one_pick.extend(assert_call(&mut state, &mut book, &call));
            assert_eq!(state.most_sections, book.most_sections, "{call:?}");
            assert_eq!(state.letters[..state.n], book.row, "{call:?}");
            assert_eq!(state.codes[..state.n], book.word(), "{call:?}");
            assert_eq!(state.lifts, book.lifts, "{call:?}");
            assert_eq!(state.marks, book.stored_marks(), "{call:?}");
            if matches!(call, Call::Back(_)) && book.row.len() < picks {
                shortened[marks - book.marks.len()] += 1;
            }
        }
    }
    let often = shortened[..3].iter().all(|&count| count > 2);
    assert!(often, "{shortened:?}");
    for count in 0..4 {
        assert!(of_one_pick.contains(&count), "{count} sections of one pick");
    }
}

/// Calls that only read the state alter no answer: the same run, with such calls
/// between, leaves the same state.
#[test]
fn reading_calls_leave_the_run_as_it_is() {
    let mut generator = Generator(5);
    for _ in 0..100 {
        let mut state = State::empty(3);
        let mut book = Book::default();
        assert_call(&mut state, &mut book, &Call::Start(3));
        for _ in 0..16 {
            let before = state.clone();
            let any = generator.below(30);
            let mask = calls::mask_of_prefix(&state, any);
            assert_eq!(mask.is_ok(), any <= book.row.len(), "{book:?} {any}");
            let radius = calls::radius_at(&state, any);
            assert_eq!(
                radius.is_ok(),
                (1..=2 * state.n + 1).contains(&any),
                "{book:?} {any}"
            );
            let next = calls::next_ending(&state, any);
            assert_eq!(
                next.ok(),
                plain::next_ending(&book.word(), any),
                "{book:?} {any}"
            );
            assert!(state == before);
            let call = some_call(&mut generator, book.row.len());
            assert_call(&mut state, &mut book, &call);
        }
    }
}

/// Two drafts fed in turn, with different K, give what each gives alone.
#[test]
fn two_states_in_turn() {
    let mut generator = Generator(11);
    for _ in 0..50 {
        let mut states = [State::empty(8), State::empty(8)];
        let mut books = [Book::default(), Book::default()];
        for (at, most_sections) in [(0, 8), (1, 1 + generator.below(8))] {
            let call = Call::Start(most_sections);
            assert_call(&mut states[at], &mut books[at], &call);
        }
        for _ in 0..20 {
            let at = generator.below(2);
            let call = some_call(&mut generator, books[at].row.len());
            assert_call(&mut states[at], &mut books[at], &call);
        }
    }
}

/// The book takes pick 2,048 and no more, lists of 19 entries and no shorter, A to Z
/// and no other byte, K from 1 to 8 and no other.
#[test]
fn what_the_book_takes() {
    let mut book = Book::default();
    for most_sections in [0, 9] {
        assert!(!book.start(most_sections));
        assert_eq!(book, Book::default());
    }
    assert!(book.start(1) && book.start(8));
    assert!(!book.feed(64, 19) && !book.feed(91, 19) && !book.feed(65, 18));
    assert_eq!(book.row, b"");
    assert!(book.feed(65, 19) && book.feed(90, 20));
    assert_eq!(book.row, b"AZ");
    assert!((2..MOST_PICKS).all(|_| book.feed(b'M', VISIT_ROOM)));
    assert!(!book.feed(b'M', VISIT_ROOM));
    assert_eq!(book.row.len(), 2_048);
    assert!(!book.start(0) && book.row.len() == 2_048);
    assert!(book.start(5));
    assert_eq!((book.most_sections, book.row.len()), (5, 0));
}

/// The book takes 26 lifts and no other number of them, none of them 0, while its row is
/// empty; and the fixed ones at each start that it takes.
#[test]
fn which_lifts_the_book_takes() {
    let mut book = Book::default();
    assert!(book.start(8));
    let fixed = book.lifts;
    assert_eq!((fixed[0], fixed[25]), (3, 96));
    assert!(!book.load(&[7; 25]) && !book.load(&[7; 27]) && !book.load(&[]));
    for place in 0..26 {
        let mut table = [7; 26];
        table[place] = 0;
        assert!(!book.load(&table), "a 0 at {place}");
    }
    assert_eq!(book.lifts, fixed);
    assert!(book.load(&[7; 26]) && book.lifts == [7; 26]);
    assert!(!book.start(9) && book.lifts == [7; 26]);
    assert!(book.feed(b'A', 19) && !book.load(&[8; 26]));
    assert_eq!((book.lifts, book.word()), ([7; 26], vec![7]));
    assert!(book.start(1) && book.lifts == fixed);
    assert!(book.load(&[255; 26]) && book.load(&[1; 26]) && book.lifts == [1; 26]);
}

/// The book takes four names and no fifth, A to Z and no other byte; a name again is moved. It
/// goes back to a name that it has and to no other, and keeps marks of the same length.
#[test]
fn which_marks_the_book_takes() {
    let mut book = Book::default();
    assert!(book.start(8));
    assert!(!book.mark(64) && !book.mark(91) && !book.back(64) && !book.back(b'Z'));
    assert!(book.mark(b'A') && book.feed(b'M', 19) && book.mark(b'Z'));
    assert!(book.feed(b'N', 19) && book.mark(b'K') && book.mark(b'L'));
    assert!(!book.mark(b'B') && !book.back(b'B'));
    let mut stored = [0; 26];
    (stored[0], stored[25], stored[10], stored[11]) = (1, 2, 3, 3);
    assert_eq!(book.stored_marks(), stored);
    assert!(book.back(b'L') && book.row == b"MN" && book.stored_marks() == stored);
    assert!(book.feed(b'O', 19) && book.mark(b'K'));
    assert!(book.back(b'L') && book.row == b"MN" && !book.back(b'K'));
    assert!(book.mark(b'B') && book.back(b'Z') && book.row == b"M");
    assert!(!book.back(b'L') && !book.back(b'B'));
    assert!(book.back(b'A') && book.row == b"" && !book.back(b'Z'));
    assert!(book.load(&[7; 26]) && book.back(b'A') && book.lifts == [7; 26]);
    assert!(!book.start(0) && book.back(b'A'));
    assert!(book.start(8) && !book.back(b'A') && book.marks.is_empty());
}

/// "No accepted feed makes that number smaller": the centre of the longest ending.
#[test]
fn the_longest_endings_centre_never_moves_back() {
    let mut generator = Generator(9);
    for letters in [1, 2, 3, 26] {
        let draft = generator.draft(letters, 600);
        let mut state = State::empty(8);
        let mut before = calls::longest_centre(&state).unwrap();
        assert_eq!(before, 1);
        for &pick in &draft {
            assert!(calls::feed(&mut state, pick, &mut [0; VISIT_ROOM]).is_ok());
            let centre = calls::longest_centre(&state).unwrap();
            assert!(centre >= before, "{}", String::from_utf8_lossy(&draft));
            before = centre;
        }
    }
}
