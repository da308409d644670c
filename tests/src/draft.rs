//! The draft program as a function from input bytes to output bytes.

use crate::calls::{feed, longest_centre, Refusal, State};
use crate::{LINE_END, VISIT_ROOM};

/// "It always prints the header first."
const HEADER: &[u8] = b"picks,mask,visits,longest";

/// What a run of the draft program prints and how far it reads.
#[derive(Clone, Debug, PartialEq, Eq)]
pub struct Run {
    /// Every byte printed.
    pub output: Vec<u8>,
    /// The number of input bytes up to and with the one that ended the run; all of
    /// them when the end of the input did.
    pub read: usize,
}

/// The run on the given standard input: "one digit K, byte 10, the picks, byte 10
/// or the end."
pub fn run(input: &[u8]) -> Run {
    let mut output = Vec::new();
    print_line(&mut output, HEADER);
    let read = match first_line(input) {
        Some(most_sections) => run_picks(input, State::empty(most_sections), &mut output),
        None => {
            print_refusal(&mut output, 1, 0);
            read_of_another_first_line(input)
        }
    };
    Run { output, read }
}

/// K from a first line of "one digit 1 to 8 followed by byte 10"; none from any
/// other.
fn first_line(input: &[u8]) -> Option<usize> {
    match input {
        [digit @ b'1'..=b'8', LINE_END, ..] => Some(usize::from(digit - b'0')),
        _ => None,
    }
}

/// How many bytes show that the first line is another: the digit alone when it is
/// not 1 to 8, and the byte after it otherwise, so far as the input has them.
fn read_of_another_first_line(input: &[u8]) -> usize {
    match input {
        [b'1'..=b'8', ..] => input.len().min(2),
        _ => input.len().min(1),
    }
}

/// Feeds the picks after the first line and prints a line for each. Gives the
/// number of bytes read.
fn run_picks(input: &[u8], mut state: State, output: &mut Vec<u8>) -> usize {
    for (place, &byte) in input.iter().enumerate().skip(2) {
        if byte == LINE_END {
            return place + 1;
        }
        if let Err(number) = run_pick(&mut state, byte, output) {
            print_refusal(output, number, place);
            return place + 1;
        }
    }
    input.len()
}

/// Feeds one pick and prints "the count of picks, the mask, the number of visits
/// and the length of the longest ending".
fn run_pick(state: &mut State, pick: u8, output: &mut Vec<u8>) -> Result<(), Refusal> {
    let taken = feed(state, pick, &mut [0; VISIT_ROOM])?;
    let longest = 2 * state.n + 1 - longest_centre(state)?;
    let line = format!("{},{},{},{longest}", state.n, taken.mask, taken.visits);
    print_line(output, line.as_bytes());
    Ok(())
}

/// "A refusal prints `refused,`, the number, a comma and the input byte's place
/// from 0, and ends the run."
fn print_refusal(output: &mut Vec<u8>, number: Refusal, place: usize) {
    print_line(output, format!("refused,{number},{place}").as_bytes());
}

/// "Every line ends with byte 10."
fn print_line(output: &mut Vec<u8>, line: &[u8]) {
    output.extend_from_slice(line);
    output.push(LINE_END);
}
