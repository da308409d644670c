//! A call in a script, and its answer.

use crate::refusal::Refusal;

/// Bytes of a script for each call.
pub const CALL_BYTES: usize = 6;

/// Numbers of the answer to each call: 0 and the values; 1 and the refusal number; or 2, that number
/// and the place that it names. Zeros behind them.
pub const ANSWER_NUMBERS: usize = 4;

/// The calls that write the state, by their numbers in a script.
pub(crate) const START: u8 = 0;
pub(crate) const FEED: u8 = 1;
pub(crate) const LOAD: u8 = 2;
pub(crate) const MARK: u8 = 3;
pub(crate) const BACK: u8 = 4;

/// Those that only read it, from 16 on.
pub(crate) const SPLIT: u8 = 16;
pub(crate) const LONGEST_ENDING: u8 = 17;
pub(crate) const MASK: u8 = 18;
pub(crate) const RADIUS_AT: u8 = 19;
pub(crate) const NEXT_SHORTER: u8 = 20;
pub(crate) const RECORD: u8 = 21;
pub(crate) const LIFT: u8 = 22;

/// The number in a field of one byte: 255 for a larger one.
fn byte(number: usize) -> u8 {
    u8::try_from(number).unwrap_or(u8::MAX)
}

/// The number in a field of two bytes, the low one first: 65,535 for a larger one.
fn pair(number: usize) -> [u8; 2] {
    u16::try_from(number).unwrap_or(u16::MAX).to_le_bytes()
}

/// A call in a script: its number, and its arguments b, x and m.
pub(crate) fn call(number: u8, b: usize, x: usize, m: usize) -> [u8; CALL_BYTES] {
    let ([x_low, x_high], [m_low, m_high]) = (pair(x), pair(m));
    [number, byte(b), x_low, x_high, m_low, m_high]
}

/// The values of an answer, or the refusal.
pub(crate) fn values(answer: [usize; ANSWER_NUMBERS]) -> Result<[usize; 3], Refusal> {
    match answer {
        [0, values @ ..] => Ok(values),
        [1, number, ..] => Err(Refusal::under(number)),
        [_, number, place, _] => Err(Refusal::at(number, place)),
    }
}
