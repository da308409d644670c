//! The words of a line, and the numbers and picks among them.

use std::str::{from_utf8, FromStr};

/// "A blank is a space, a tab or a carriage return."
const BLANKS: [u8; 3] = *b" \t\r";

/// "Words are parted by blanks."
pub fn words(line: &[u8]) -> Vec<&[u8]> {
    line.split(|byte| BLANKS.contains(byte))
        .filter(|word| !word.is_empty())
        .collect()
}

/// Whether the word is a decimal number; one with a sign is none.
fn is_number(word: &[u8]) -> bool {
    word.iter().all(u8::is_ascii_digit)
}

/// A decimal number that its type can hold.
pub fn fitting<T: FromStr>(word: &[u8]) -> Option<T> {
    let digits = from_utf8(word).ok()?;
    is_number(word).then(|| digits.parse().ok()).flatten()
}

/// A decimal number "of any size": one beyond a machine word is its largest.
pub fn number(word: &[u8]) -> Option<usize> {
    is_number(word).then(|| fitting(word).unwrap_or(usize::MAX))
}

/// "A pick, a letter or a name is one character or a decimal number (digits are always a
/// number)." Beyond a byte it is the largest, and so is a character that is not ASCII. A
/// byte that is no character by itself counts as one.
pub fn pick(word: &[u8]) -> Option<u8> {
    if is_number(word) {
        return Some(fitting(word).unwrap_or(u8::MAX));
    }
    match (word, from_utf8(word)) {
        (&[byte], _) => Some(byte),
        (_, Ok(text)) => (text.chars().count() == 1).then_some(u8::MAX),
        (_, Err(_)) => None,
    }
}
