//! Bytes as text: LETTERS and records as they are read, parts and outputs as they are
//! written.

use crate::LINE_END;

/// The word for no letters.
const NONE: &[u8] = b"-";

/// The bytes of a text, "`-` alone being none": `\n` is byte 10, `\xHH` the byte with
/// these hex digits, of either case, and every other byte stands for itself. None where
/// an escape is wrong.
pub fn bytes_of(word: &[u8]) -> Option<Vec<u8>> {
    if word == NONE {
        return Some(Vec::new());
    }
    let mut bytes = Vec::new();
    let mut rest = word;
    while let [first, behind @ ..] = rest {
        let byte;
        (byte, rest) = match first {
            b'\\' => escaped(behind)?,
            _ => (*first, behind),
        };
        bytes.push(byte);
    }
    Some(bytes)
}

/// The byte of an escape, without its backslash, and what stands behind it.
fn escaped(behind: &[u8]) -> Option<(u8, &[u8])> {
    match behind {
        [b'n', rest @ ..] => Some((LINE_END, rest)),
        [b'x', high, low, rest @ ..] => Some((16 * hex(*high)? + hex(*low)?, rest)),
        _ => None,
    }
}

/// The value of a hex digit.
fn hex(digit: u8) -> Option<u8> {
    char::from(digit).to_digit(16).map(|value| value as u8)
}

/// "`\n` for byte 10 and `\xHH` for a blank, a backslash and what can't be printed":
/// "bytes below 33 and above 126; hex digits are written as capitals"; "a text that is
/// just `-` is written `\x2D`".
pub fn text_of(bytes: &[u8]) -> String {
    if bytes == NONE {
        return r"\x2D".to_string();
    }
    let mut text = String::with_capacity(bytes.len());
    bytes.iter().for_each(|&byte| write(&mut text, byte));
    text
}

/// Writes a byte of a text.
fn write(text: &mut String, byte: u8) {
    match byte {
        LINE_END => text.push_str(r"\n"),
        0..33 | b'\\' | 127.. => text.push_str(&format!(r"\x{byte:02X}")),
        _ => text.push(char::from(byte)),
    }
}
