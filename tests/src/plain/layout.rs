//! The layout of the folded record: which bytes are one, which begin one, and where
//! others leave it. Every number that may stand in a field is tried.

use super::picks::is_pick;
use crate::{LINE_END, MOST_PICKS, MOST_SECTIONS};

/// Whether the bytes are a record of the layout: one that byte 10 closes.
fn is_record(bytes: &[u8]) -> bool {
    bytes.ends_with(&[LINE_END]) && begins_record(bytes)
}

/// Whether some record of the layout begins with these bytes.
fn begins_record(bytes: &[u8]) -> bool {
    begins_number(bytes, MOST_PICKS, |_, behind| {
        begins_number(behind, MOST_SECTIONS, begins_sections)
    })
}

/// The place of number 11, none for a record of the layout: "the first byte that cannot
/// continue the layout, a number outside 1 to 2,048 (sections: 1 to 8) counting at its
/// first byte and an early end at the record's length".
pub fn break_place(bytes: &[u8]) -> Option<usize> {
    let cannot_continue = |&at: &usize| !begins_record(&bytes[..=at]) || is_outside(bytes, at);
    let broken = (0..bytes.len()).find(cannot_continue);
    broken.or((!is_record(bytes)).then_some(bytes.len()))
}

/// Whether a number begins at this place that the layout does not take there.
fn is_outside(bytes: &[u8], at: usize) -> bool {
    let (before, rest) = bytes.split_at(at);
    let digits = rest.iter().take_while(|byte| byte.is_ascii_digit()).count();
    let is_first = digits > 0 && !before.last().is_some_and(u8::is_ascii_digit);
    let is_due = || begins_record(&[before, b"1"].concat());
    is_first && is_due() && !begins_record(&bytes[..at + digits])
}

/// Whether the bytes begin a number from 1 to the given one, a comma, and what may stand
/// behind that number.
fn begins_number(bytes: &[u8], most: usize, behind: impl Fn(usize, &[u8]) -> bool) -> bool {
    (1..=most).any(|number| {
        let text = format!("{number},");
        match bytes.strip_prefix(text.as_bytes()) {
            Some(rest) => behind(number, rest),
            None => text.as_bytes().starts_with(bytes),
        }
    })
}

/// Whether the bytes begin so many sections, one or more, and the end of the line.
fn begins_sections(count: usize, bytes: &[u8]) -> bool {
    begins_number(bytes, MOST_PICKS, |length, behind| {
        let letters = length.div_ceil(2);
        match behind.split_at_checked(letters) {
            Some((half, rest)) => are_picks(half) && begins_rest(count - 1, rest),
            None => are_picks(behind),
        }
    })
}

/// Whether every byte is a letter.
fn are_picks(bytes: &[u8]) -> bool {
    bytes.iter().all(|&byte| is_pick(byte))
}

/// Whether the bytes begin what stands behind a half: a comma and so many sections more,
/// or the end of the line.
fn begins_rest(count: usize, bytes: &[u8]) -> bool {
    match bytes {
        [] => true,
        [b',', rest @ ..] => count > 0 && begins_sections(count, rest),
        _ => count == 0 && bytes == [LINE_END],
    }
}
