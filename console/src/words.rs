//! The words of a line, read as numbers, picks and texts.

use crate::printed::text;
use std::str::from_utf8;

/// What is wrong with a line that is no call.
pub type Wrong = String;

/// The words of a line, which blanks part: spaces, tabs and carriage returns.
pub fn words(line: &[u8]) -> Vec<&[u8]> {
    let is_blank = |byte: &u8| matches!(byte, b' ' | b'\t' | b'\r');
    let parts = line.split(is_blank);
    parts.filter(|word| !word.is_empty()).collect()
}

/// Whether the word is decimal digits, so that it is a number.
fn is_number(word: &[u8]) -> bool {
    !word.is_empty() && word.iter().all(u8::is_ascii_digit)
}

/// A decimal number; one that a machine word cannot hold is the largest that it can.
pub fn number(word: &[u8]) -> Result<usize, Wrong> {
    if !is_number(word) {
        return Err(format!("{} is no decimal number", text(word)));
    }
    let digits = word.iter().map(|digit| usize::from(digit - b'0'));
    Ok(digits.fold(0, |number: usize, digit| {
        number.saturating_mul(10).saturating_add(digit)
    }))
}

/// A decimal number that is stored as it is: one above the largest is wrong.
pub fn exact(word: &[u8], largest: usize) -> Result<usize, Wrong> {
    let number = number(word)?;
    let fits = number < largest || (number == largest && is_the_number(word, largest));
    if !fits {
        return Err(format!("{} is above {largest}", text(word)));
    }
    Ok(number)
}

/// Whether the digits are those of the number, leading zeros aside.
fn is_the_number(word: &[u8], number: usize) -> bool {
    let zeros = word.iter().take_while(|&&digit| digit == b'0').count();
    word[zeros..] == *number.to_string().as_bytes()
}

/// A pick, a letter or a name: a decimal number, or one character by its code. One that a byte
/// cannot hold is 255.
pub fn pick(word: &[u8]) -> Result<u8, Wrong> {
    if is_number(word) {
        return Ok(u8::try_from(number(word)?).unwrap_or(u8::MAX));
    }
    match (word, from_utf8(word)) {
        (&[byte], _) => Ok(byte),
        (_, Ok(string)) if string.chars().count() == 1 => Ok(u8::MAX),
        _ => Err(format!("{} is no single character", text(word))),
    }
}

/// The bytes of a text: `\n` is byte 10, `\xHH` any byte, `-` alone no byte at all, and every other
/// byte stands for itself.
pub fn bytes_of(word: &[u8]) -> Result<Vec<u8>, Wrong> {
    let mut bytes = Vec::new();
    let mut rest = if word == b"-" { b"" } else { word };
    while let Some((&first, behind)) = rest.split_first() {
        let (byte, behind) = match first {
            b'\\' => escaped(behind).ok_or_else(|| wrong_escape(rest))?,
            _ => (first, behind),
        };
        bytes.push(byte);
        rest = behind;
    }
    Ok(bytes)
}

/// The byte that an escape stands for, and what is behind it; none where it is wrong.
fn escaped(behind_backslash: &[u8]) -> Option<(u8, &[u8])> {
    match behind_backslash {
        [b'n', behind @ ..] => Some((b'\n', behind)),
        [b'x', high, low, behind @ ..] => Some((16 * digit(*high)? + digit(*low)?, behind)),
        _ => None,
    }
}

/// The value of a hex digit.
fn digit(digit: u8) -> Option<u8> {
    let value = char::from(digit).to_digit(16)?;
    Some(value as u8)
}

/// Says where a text has a wrong escape.
fn wrong_escape(rest: &[u8]) -> Wrong {
    let escape = &rest[..rest.len().min(4)];
    format!("{} begins no escape (\\n or \\xHH)", text(escape))
}
