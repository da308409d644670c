//! Scripts of calls.

use super::board::Board;
use super::functions::{library, Library};
use super::guarded::Guarded;
use crate::calls::Refusal;
use crate::scripted::{refused, script, Call, Reply, VALUES};

/// Numbers that the library writes for each call: 0 and the values; 1, the refusal number
/// and zeros; or 2, the number, its place and a zero.
pub const ANSWER_NUMBERS: usize = 1 + VALUES;

/// What each number of the answers holds before the calls.
pub const UNSET: usize = 0x5A5A_5A5A;

/// What stands in the input behind what the calls read.
const INPUT: [u8; 12] = *b"7,2,3,AB,4,C";

/// What a script is lent beside the state: the bytes to read, the entries of the lists
/// and the bytes of the outputs of all its calls, one after the other, and room for the
/// answers.
#[derive(Clone, Debug, PartialEq, Eq)]
pub struct Lent {
    pub input: Vec<u8>,
    pub lists: Vec<u16>,
    pub bytes: Vec<u8>,
    pub answers: Vec<usize>,
}

impl Lent {
    /// What these calls need, every entry and every byte as given.
    pub fn to(calls: &[Call], entry: u16, byte: u8) -> Lent {
        let entries = calls.iter().map(|call| call.entries()).sum();
        let bytes = calls.iter().map(|call| call.output_bytes()).sum();
        let read = calls.iter().flat_map(|call| call.input());
        Lent {
            input: read.chain(INPUT).collect(),
            lists: vec![entry; entries],
            bytes: vec![byte; bytes],
            answers: vec![UNSET; ANSWER_NUMBERS * calls.len()],
        }
    }

    /// The replies of the first so many calls.
    pub fn replies(&self, made: usize) -> Vec<Reply> {
        let answers = self.answers.chunks_exact(ANSWER_NUMBERS);
        answers.take(made).map(reply).collect()
    }
}

/// The reply that the numbers of an answer give.
fn reply(answer: &[usize]) -> Reply {
    match *answer {
        [0, first, second, third] => Ok([first, second, third]),
        [1, number @ (1..=10 | 13 | 14 | 16..=18), 0, 0] => refused(number as Refusal),
        [2, number @ 15, place, 0] => Err((number as Refusal, Some(place))),
        _ => panic!("{answer:?} is no answer"),
    }
}

impl Board {
    /// Makes the calls of a script as far as it and what is lent go. Gives the
    /// number of calls made.
    pub fn run_script(&mut self, script: &[u8], lent: &mut Lent) -> usize {
        self.run_script_by(library(), script, lent)
    }

    /// The same by a library.
    pub fn run_script_by(&mut self, by: &Library, script: &[u8], lent: &mut Lent) -> usize {
        let mut lent_script = Guarded::of(script);
        let mut input = Guarded::of(&lent.input);
        let mut lists = Guarded::of(&lent.lists);
        let mut bytes = Guarded::of(&lent.bytes);
        let mut answers = Guarded::of(&lent.answers);
        let read = [&mut lent_script, &mut input];
        let made = self.drive(by, read, &mut lists, &mut bytes, &mut answers);
        lent_script.assert_kept(script, "script bytes");
        input.assert_kept(&lent.input, "input bytes");
        assert!(self.guards_hold(), "outside the state, script {script:?}");
        assert!(lists.guards_hold(), "outside the lists, script {script:?}");
        assert!(bytes.guards_hold(), "outside the bytes, script {script:?}");
        assert!(answers.guards_hold(), "outside the answers, {script:?}");
        lent.lists.copy_from_slice(lists.inner());
        lent.bytes.copy_from_slice(bytes.inner());
        lent.answers.copy_from_slice(answers.inner());
        made
    }

    /// A library's function on the state and what is lent: script and input, which
    /// are only read, and what is written.
    fn drive(
        &mut self,
        by: &Library,
        [script, input]: [&mut Guarded<u8>; 2],
        lists: &mut Guarded<u16>,
        bytes: &mut Guarded<u8>,
        answers: &mut Guarded<usize>,
    ) -> usize {
        // Safe: each array has its declared length and each slice its own, none
        // overlaps another, and the library keeps no pointer.
        unsafe {
            (by.drive)(
                self.letters.pointer(),
                self.codes.pointer(),
                self.lifts.pointer(),
                self.marks.pointer(),
                self.centres.pointer(),
                self.places.pointer(),
                self.numbers.pointer(),
                script.pointer(),
                script.inner().len(),
                input.pointer(),
                input.inner().len(),
                lists.pointer(),
                lists.inner().len(),
                bytes.pointer(),
                bytes.inner().len(),
                answers.pointer(),
                answers.inner().len(),
            )
        }
    }

    /// Makes these calls as one script that is lent all it needs. Gives the replies.
    pub fn run(&mut self, calls: &[Call], lent: &mut Lent) -> Vec<Reply> {
        let made = self.run_script(&script(calls), lent);
        assert_eq!(made, calls.len(), "calls made of {calls:?}");
        lent.replies(made)
    }

    /// Makes these calls, none of which is lent a list or an output, as one script.
    pub fn ask(&mut self, calls: &[Call]) -> Vec<Reply> {
        self.run(calls, &mut Lent::to(calls, 0, 0))
    }

    /// Makes one call, with a list and an output of the lengths it says.
    pub fn make(&mut self, call: Call, list: &mut [u16], output: &mut [u8]) -> Reply {
        assert_eq!(list.len(), call.entries(), "the list of {call:?}");
        assert_eq!(output.len(), call.output_bytes(), "the output of {call:?}");
        let mut lent = Lent {
            lists: list.to_vec(),
            bytes: output.to_vec(),
            ..Lent::to(&[call], 0, 0)
        };
        let replies = self.run(&[call], &mut lent);
        list.copy_from_slice(&lent.lists);
        output.copy_from_slice(&lent.bytes);
        replies[0]
    }
}
