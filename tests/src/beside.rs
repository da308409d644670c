//! The library's board with the plain book kept beside it: each call's reply, and
//! every byte that it is lent, is compared with the one that the book gives.

use crate::book::Book;
use crate::calls::State;
use crate::library::Board;
use crate::plain::{fixed_lifts, Lifts};
use crate::scripted::{given, Call, Reply};

/// What each entry of a lent list holds before a call.
pub const ENTRY: u16 = 0xBEEF;

/// What each byte of a lent output holds before a call.
pub const BYTE: u8 = 0xA5;

/// A board and the book of the calls made on it.
#[derive(Clone)]
pub struct Beside {
    pub board: Board,
    pub book: Book,
}

/// A reply, the list and the output after it.
type Outcome = (Reply, Vec<u16>, Vec<u8>);

impl Beside {
    /// A run that opens with a start with K from 1 to 8 on this stored state.
    pub fn started_on(board: Board, most_sections: u8) -> Beside {
        let book = Book::default();
        let mut beside = Beside { board, book };
        let reply = beside.make(Call::Start { most_sections });
        assert_eq!(reply, given([]), "start with K {most_sections}");
        beside
    }

    /// A run of a start on zeros and a feed of each pick.
    pub fn fed(draft: &[u8], most_sections: usize) -> Beside {
        Beside {
            board: Board::fed(draft, most_sections),
            book: Book {
                most_sections,
                row: draft.to_vec(),
                lifts: fixed_lifts(),
                ..Book::default()
            },
        }
    }

    /// A run of a start on zeros, a load of these lifts and a feed of each pick.
    pub fn fed_under(lifts: &Lifts, draft: &[u8], most_sections: usize) -> Beside {
        Beside {
            board: Board::fed_under(lifts, draft, most_sections),
            book: Book {
                most_sections,
                row: draft.to_vec(),
                lifts: *lifts,
                ..Book::default()
            },
        }
    }

    /// Makes the call, compares it with the book, and gives the reply.
    pub fn make(&mut self, call: Call) -> Reply {
        self.make_lent(call).0
    }

    /// Makes the call, compares it with the book, and gives the reply, the list and
    /// the output.
    pub fn make_lent(&mut self, call: Call) -> Outcome {
        let before = self.board.clone();
        let given = made(call, |list, output| self.board.make(call, list, output));
        assert_eq!(given, self.by_book(call), "{}", self.case(call));
        if call.only_reads() || given.0.is_err() {
            let kept = self.board == before;
            assert!(kept, "a byte of the state changed, {}", self.case(call));
        } else if let Call::Load { .. } = call {
            let kept = self.board.keeps_all_but_lifts(&before);
            assert!(kept, "a byte beside the lifts, {}", self.case(call));
        } else if let Call::Mark { .. } = call {
            let kept = self.board.keeps_all_but_marks(&before);
            assert!(kept, "a byte beside the marks, {}", self.case(call));
        }
        self.write(call, given.0.is_ok());
        given
    }

    /// The same call by the definitions, on the book's K, letters, lifts and marks alone.
    /// The first call is a start, which does not look at them.
    fn by_book(&self, call: Call) -> Outcome {
        let book = &self.book;
        let mut state = State {
            marks: book.stored_marks(),
            ..State::of(&book.row, book.most_sections, &book.lifts)
        };
        made(call, |list, output| call.make(&mut state, list, output))
    }

    /// A second board, which is given nothing but the book's K, lifts and row: "exactly what
    /// feeding only those picks would have left". The marks are the book's.
    fn fed_anew(&self) -> Board {
        let book = &self.book;
        let mut board = match book.lifts == fixed_lifts() {
            true => Board::fed(&book.row, book.most_sections),
            false => Board::fed_under(&book.lifts, &book.row, book.most_sections),
        };
        board.marks_mut().copy_from_slice(&book.stored_marks());
        board
    }

    /// Writes the call into the book. "A start or a feed is accepted exactly when the
    /// book takes it", and so are a load and "both mark calls". Then the stored n, K,
    /// letters, lifts and marks are the book's, and each pick's stored lift is the one by
    /// them; after going back the whole state is that of the second board.
    fn write(&mut self, call: Call, accepted: bool) {
        let before = self.book.clone();
        let case = || case_on(&before, call);
        let taken = match call {
            Call::Start { most_sections } => self.book.start(most_sections.into()),
            Call::Feed { pick, entries } => self.book.feed(pick, entries.into()),
            Call::Load { table } => self.book.load(&table.bytes()),
            Call::Mark { name } => self.book.mark(name),
            Call::Back { name } => self.book.back(name),
            _ => accepted,
        };
        assert_eq!(accepted, taken, "accepted or not, {}", case());
        assert_eq!(self.board.n(), self.book.row.len(), "stored n, {}", case());
        let stored = self.board.most_sections();
        assert_eq!(stored, self.book.most_sections, "stored K, {}", case());
        assert!(self.board.letters() == self.book.row, "letters, {}", case());
        assert!(self.board.codes() == self.book.word(), "codes, {}", case());
        assert_eq!(self.board.lifts(), self.book.lifts, "lifts, {}", case());
        let marks = self.book.stored_marks();
        assert_eq!(self.board.marks(), marks, "marks, {}", case());
        if let (Call::Back { .. }, true) = (call, accepted) {
            assert!(self.board == self.fed_anew(), "not as fed anew, {}", case());
        }
    }

    /// The call and the draft it is made on, for a failure.
    fn case(&self, call: Call) -> String {
        case_on(&self.book, call)
    }
}

/// A call and the book before it, for a failure.
fn case_on(book: &Book, call: Call) -> String {
    let row = String::from_utf8_lossy(&book.row);
    let Book {
        most_sections,
        lifts,
        marks,
        ..
    } = book;
    format!("{call:?} on draft {row}, K {most_sections}, lifts {lifts:?}, marks {marks:?}")
}

/// Makes a call with its list and its output as they are before it.
fn made(call: Call, make: impl FnOnce(&mut [u16], &mut [u8]) -> Reply) -> Outcome {
    let mut list = vec![ENTRY; call.entries()];
    let mut output = vec![BYTE; call.output_bytes()];
    let reply = make(&mut list, &mut output);
    (reply, list, output)
}
