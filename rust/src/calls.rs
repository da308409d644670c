//! The calls on a state.

use crate::functions::drive;
use crate::refusal::Refusal;
use crate::script::{
    call, values, ANSWER_NUMBERS, BACK, CALL_BYTES, FEED, LIFT, LOAD, LONGEST_ENDING, MARK, MASK,
    NEXT_SHORTER, RADIUS_AT, RECORD, SPLIT, START,
};
use crate::state::{Centre, Place, State};

/// A board: the stored state, and the calls on it.
///
/// Every call takes `&mut self`: start, load, feed, mark and back change the state, and the library
/// writes the three numbers back also where it changes nothing.
#[derive(Clone, Debug, PartialEq, Eq)]
pub struct Board {
    /// What is stored. Any numbers may be written here.
    pub state: State,
}

/// What an accepted feed gives.
#[derive(Clone, Copy, Debug, PartialEq, Eq)]
pub struct Taken {
    /// Bit k - 1 is set where the draft so far is k sections.
    pub mask: u8,
    /// How many endings were visited: their lengths are the first entries of the visit list.
    pub visits: usize,
}

/// What is given for the next shorter ending.
#[derive(Clone, Copy, Debug, PartialEq, Eq)]
pub struct NextEnding {
    /// The centre of the next shorter ending.
    pub centre: Centre,
    /// The length of the ending that was given.
    pub length: usize,
    /// The least period of the ending that was given: how far it is to its repeat. The length less
    /// the period is the length of the next shorter ending.
    pub period: usize,
}

impl Default for Board {
    fn default() -> Board {
        Board::new()
    }
}

impl Board {
    /// A board with nothing stored: each call but a start is refused with 7.
    ///
    /// ```
    /// let mut board = board::Board::new();
    /// assert_eq!(board.longest().unwrap_err().number(), 7);
    /// ```
    pub const fn new() -> Board {
        Board {
            state: State::ZEROS,
        }
    }

    /// Start: an empty draft with K, the fixed table of lifts and no mark, whatever was stored.
    /// Refused with 1.
    ///
    /// ```
    /// let mut board = board::Board::new();
    /// assert_eq!(board.start(8), Ok(()));
    /// assert_eq!(board.start(9).unwrap_err().number(), 1);
    /// assert_eq!(board.start(256 + 8).unwrap_err().number(), 1);
    /// ```
    pub fn start(&mut self, k: usize) -> Result<(), Refusal> {
        self.ask(START, k, 0)?;
        Ok(())
    }

    /// Load: a table of lifts, A to Z, is in force until the next start. Harness h is bit h - 1, and
    /// letters that lift alike are the same pick. Refused with 7, with 14, with 15, and then a place
    /// of the table, or with 16; the former table stays in force.
    ///
    /// ```
    /// # use board::{Board, ALPHABET, VISITS};
    /// # let mut board = Board::new();
    /// # board.start(8)?;
    /// // A and B lift harness 1, every other letter all eight.
    /// let mut table = [255; ALPHABET];
    /// table[..2].fill(1);
    /// board.load(&table)?;
    /// assert_eq!(board.lift(b'B'), Ok(1));
    /// let mut visits = [0; VISITS];
    /// board.feed(b'A', &mut visits)?;
    /// assert_eq!(board.feed(b'B', &mut visits)?.mask, 0b11);
    /// assert_eq!(board.load(&table).unwrap_err().number(), 16);
    /// assert_eq!(board.load(&table[1..]).unwrap_err().number(), 14);
    /// assert_eq!(board.load(&[1; 65_536 + 26]).unwrap_err().number(), 14);
    /// table[25] = 0;
    /// let refusal = board.load(&table).unwrap_err();
    /// assert_eq!((refusal.number(), refusal.place()), (15, Some(25)));
    /// // A start brings the fixed table back.
    /// board.start(8)?;
    /// assert_eq!(board.lift(b'B'), Ok(0b101));
    /// # Ok::<(), board::Refusal>(())
    /// ```
    pub fn load(&mut self, table: &[u8]) -> Result<(), Refusal> {
        let call = call(LOAD, 0, 0, table.len());
        self.make(call, table, &mut [], &mut [])?;
        Ok(())
    }

    /// Feed: one pick more. The lengths of the endings visited, longest first, fill the front of
    /// the list. Refused with 7, 2, 3 or 8.
    ///
    /// ```
    /// # use board::{Board, Taken, VISITS};
    /// # let mut board = Board::new();
    /// # board.start(8)?;
    /// let mut visits = [0; VISITS];
    /// board.feed(b'A', &mut visits)?;
    /// board.feed(b'B', &mut visits)?;
    /// let taken = board.feed(b'A', &mut visits)?;
    /// assert_eq!(taken, Taken { mask: 0b101, visits: 2 });
    /// assert_eq!(visits[..2], [3, 1]);
    /// assert_eq!(board.feed(b'a', &mut visits).unwrap_err().number(), 2);
    /// assert_eq!(board.feed(b'A', &mut visits[1..]).unwrap_err().number(), 3);
    /// # Ok::<(), board::Refusal>(())
    /// ```
    pub fn feed(&mut self, pick: u8, visits: &mut [u16]) -> Result<Taken, Refusal> {
        let call = call(FEED, pick.into(), 0, visits.len());
        let [mask, visits, _] = self.make(call, &[], visits, &mut [])?;
        Ok(Taken {
            mask: mask as u8,
            visits,
        })
    }

    /// Mark: the name, a letter A to Z, marks the draft's length, so that [`Board::back`] can go back
    /// to it. Up to four names are marks at a time; one that is a mark is moved. Refused with 7, 2 or
    /// 18.
    ///
    /// ```
    /// # use board::{Board, VISITS};
    /// # let mut board = Board::new();
    /// # board.start(8)?;
    /// for &name in b"ABCD" {
    ///     board.mark(name)?;
    /// }
    /// assert_eq!(board.mark(b'E').unwrap_err().number(), 18);
    /// board.feed(b'A', &mut [0; VISITS])?;
    /// // B moves to one pick.
    /// board.mark(b'B')?;
    /// assert_eq!(board.state.marks[..5], [1, 2, 1, 1, 0]);
    /// assert_eq!(board.mark(b'b').unwrap_err().number(), 2);
    /// # Ok::<(), board::Refusal>(())
    /// ```
    pub fn mark(&mut self, name: u8) -> Result<(), Refusal> {
        self.ask(MARK, name.into(), 0)?;
        Ok(())
    }

    /// Back: the draft is as if only the picks up to the mark had been fed. Marks of greater length
    /// are dropped; the others stay, and so do the lifts. Refused with 7, 2 or 17.
    ///
    /// ```
    /// # use board::{Board, Place, VISITS};
    /// # let mut board = Board::new();
    /// # board.start(8)?;
    /// let mut visits = [0; VISITS];
    /// board.feed(b'A', &mut visits)?;
    /// board.mark(b'M')?;
    /// let with_one_pick = board.clone();
    /// board.feed(b'B', &mut visits)?;
    /// board.mark(b'N')?;
    /// board.back(b'M')?;
    /// assert!(board == with_one_pick);
    /// // Another ending is tried.
    /// assert_eq!(board.feed(b'A', &mut visits)?.mask, 0b11);
    /// assert_eq!(board.back(b'N').unwrap_err().number(), 17);
    /// # Ok::<(), board::Refusal>(())
    /// ```
    pub fn back(&mut self, name: u8) -> Result<(), Refusal> {
        self.ask(BACK, name.into(), 0)?;
        Ok(())
    }

    /// The mask of a prefix: bit k - 1 is set where it is k sections. Refused with 7 or 4.
    ///
    /// ```
    /// # use board::{Board, Place, VISITS};
    /// # let mut board = Board::new();
    /// # board.start(8)?;
    /// # for &pick in b"ABA" {
    /// #     board.feed(pick, &mut [0; VISITS])?;
    /// # }
    /// assert_eq!(board.mask(Place(2)), Ok(0b10));
    /// assert_eq!(board.mask(Place(4)).unwrap_err().number(), 4);
    /// # Ok::<(), board::Refusal>(())
    /// ```
    pub fn mask(&mut self, prefix: Place) -> Result<u8, Refusal> {
        let [mask, ..] = self.ask(MASK, 0, prefix.0)?;
        Ok(mask as u8)
    }

    /// The radius of the longest mirrored stretch at a centre. Refused with 7 or 4.
    ///
    /// ```
    /// # use board::{Board, Centre, VISITS};
    /// # let mut board = Board::new();
    /// # board.start(8)?;
    /// # for &pick in b"AABACABAA" {
    /// #     board.feed(pick, &mut [0; VISITS])?;
    /// # }
    /// // The draft is AABACABAA.
    /// assert_eq!(board.radius(Centre(10)), Ok(4));
    /// assert_eq!(board.radius(Centre(3)), Ok(1));
    /// # Ok::<(), board::Refusal>(())
    /// ```
    pub fn radius(&mut self, centre: Centre) -> Result<usize, Refusal> {
        let [radius, ..] = self.ask(RADIUS_AT, 0, centre.0)?;
        Ok(radius)
    }

    /// The centre of the longest ending. Refused with 7.
    ///
    /// ```
    /// # use board::{Board, Centre};
    /// let mut board = Board::new();
    /// board.start(8)?;
    /// assert_eq!(board.longest(), Ok(Centre(1)));
    /// # Ok::<(), board::Refusal>(())
    /// ```
    pub fn longest(&mut self) -> Result<Centre, Refusal> {
        let [centre, ..] = self.ask(LONGEST_ENDING, 0, 0)?;
        Ok(Centre(centre))
    }

    /// The centre of the next shorter ending after the one at a centre, and of that one, which was
    /// given, the length and the least period. Refused with 7, 4 or 10.
    ///
    /// ```
    /// # use board::{Board, Centre, NextEnding, VISITS};
    /// # let mut board = Board::new();
    /// # board.start(8)?;
    /// # for &pick in b"ABA" {
    /// #     board.feed(pick, &mut [0; VISITS])?;
    /// # }
    /// // The draft is ABA: itself, which has period 2, its last pick and the empty ending.
    /// assert_eq!(board.longest(), Ok(Centre(4)));
    /// let next = board.next(Centre(4))?;
    /// assert_eq!(next, NextEnding { centre: Centre(6), length: 3, period: 2 });
    /// let next = board.next(Centre(6))?;
    /// assert_eq!(next, NextEnding { centre: Centre(7), length: 1, period: 1 });
    /// assert_eq!(board.next(Centre(7)).unwrap_err().number(), 10);
    /// assert_eq!(board.next(Centre(8)).unwrap_err().number(), 4);
    /// # Ok::<(), board::Refusal>(())
    /// ```
    pub fn next(&mut self, centre: Centre) -> Result<NextEnding, Refusal> {
        let [centre, length, period] = self.ask(NEXT_SHORTER, 0, centre.0)?;
        Ok(NextEnding {
            centre: Centre(centre),
            length,
            period,
        })
    }

    /// Split a prefix into k sections: the number of the last pick of each, rising, fills the first
    /// k entries of the list. Gives the turn count, which is how many sections have two or more
    /// picks. Refused with 7, 1, 13, 4 or 9.
    ///
    /// ```
    /// # use board::{Board, Place, VISITS};
    /// # let mut board = Board::new();
    /// # board.start(8)?;
    /// # for &pick in b"AAA" {
    /// #     board.feed(pick, &mut [0; VISITS])?;
    /// # }
    /// // The draft is AAA.
    /// let mut ends = [0; 2];
    /// assert_eq!(board.split(Place(3), 2, &mut ends), Ok(1));
    /// assert_eq!(ends, [1, 3]);
    /// assert_eq!(board.split(Place(1), 2, &mut ends).unwrap_err().number(), 9);
    /// # Ok::<(), board::Refusal>(())
    /// ```
    pub fn split(&mut self, prefix: Place, k: usize, ends: &mut [u16]) -> Result<usize, Refusal> {
        let call = call(SPLIT, k, prefix.0, ends.len());
        let [turns, ..] = self.make(call, &[], ends, &mut [])?;
        Ok(turns)
    }

    /// The folded record of a prefix in k sections, into the front of the output. Gives its count
    /// of bytes. Refused with 7, 1, 4, 9 or 5.
    ///
    /// ```
    /// # use board::{Board, Place, VISITS};
    /// # let mut board = Board::new();
    /// # board.start(8)?;
    /// # for &pick in b"ABACDDC" {
    /// #     board.feed(pick, &mut [0; VISITS])?;
    /// # }
    /// // The draft is ABACDDC.
    /// let mut output = [0; 14];
    /// assert_eq!(board.record(Place(7), 2, &mut output), Ok(14));
    /// assert_eq!(&output, b"7,2,3,AB,4,CD\n");
    /// assert_eq!(board.record(Place(7), 2, &mut output[1..]).unwrap_err().number(), 5);
    /// # Ok::<(), board::Refusal>(())
    /// ```
    pub fn record(&mut self, prefix: Place, k: usize, output: &mut [u8]) -> Result<usize, Refusal> {
        let call = call(RECORD, k, prefix.0, output.len());
        let [bytes, ..] = self.make(call, &[], &mut [], output)?;
        Ok(bytes)
    }

    /// The lift of a letter by the table in force: harness h is bit h - 1. Refused with 7 or 2.
    ///
    /// ```
    /// # use board::Board;
    /// # let mut board = Board::new();
    /// # board.start(8)?;
    /// assert_eq!(board.lift(b'A'), Ok(0b11));
    /// assert_eq!(board.lift(b'Z'), Ok(96));
    /// assert_eq!(board.lift(64).unwrap_err().number(), 2);
    /// # Ok::<(), board::Refusal>(())
    /// ```
    pub fn lift(&mut self, letter: u8) -> Result<u8, Refusal> {
        let [lift, ..] = self.ask(LIFT, letter.into(), 0)?;
        Ok(lift as u8)
    }

    /// Many calls: those of the script, one after the other, as far as script, input, lists, bytes
    /// and answers go. Gives their number. `docs/HOSTS.md` has the script's bytes and the answers.
    ///
    /// ```
    /// # use board::{Board, ANSWER_NUMBERS};
    /// let mut board = Board::new();
    /// let start_and_longest = [0, 8, 0, 0, 0, 0, 17, 0, 0, 0, 0, 0];
    /// let mut answers = [0; 2 * ANSWER_NUMBERS];
    /// assert_eq!(board.drive(&start_and_longest, &[], &mut [], &mut [], &mut answers), 2);
    /// assert_eq!(answers, [0, 0, 0, 0, 0, 1, 0, 0]);
    /// ```
    pub fn drive(
        &mut self,
        script: &[u8],
        input: &[u8],
        lists: &mut [u16],
        bytes: &mut [u8],
        answers: &mut [usize],
    ) -> usize {
        let state = &mut self.state;
        // SAFETY: each array has its declared length and each slice its own, none that is written
        // overlaps another, and the library keeps no pointer.
        unsafe {
            drive(
                state.letters.as_mut_ptr(),
                state.codes.as_mut_ptr(),
                state.lifts.as_mut_ptr(),
                state.marks.as_mut_ptr(),
                state.centres.as_mut_ptr().cast(),
                state.places.as_mut_ptr().cast(),
                state.numbers.as_mut_ptr(),
                script.as_ptr(),
                script.len(),
                input.as_ptr(),
                input.len(),
                lists.as_mut_ptr(),
                lists.len(),
                bytes.as_mut_ptr(),
                bytes.len(),
                answers.as_mut_ptr(),
                answers.len(),
            )
        }
    }

    /// The values of a call that is lent nothing.
    fn ask(&mut self, number: u8, b: usize, x: usize) -> Result<[usize; 3], Refusal> {
        self.make(call(number, b, x, 0), &[], &mut [], &mut [])
    }

    /// The values of one call, lent an input, a list or an output.
    fn make(
        &mut self,
        call: [u8; CALL_BYTES],
        input: &[u8],
        list: &mut [u16],
        output: &mut [u8],
    ) -> Result<[usize; 3], Refusal> {
        let mut answer = [0; ANSWER_NUMBERS];
        let made = self.drive(&call, input, list, output, &mut answer);
        assert_eq!(made, 1, "calls made of {call:?}");
        values(answer)
    }
}
