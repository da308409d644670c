//! Answers as they are printed.

use board::Refusal;
use std::fmt::Write;

/// What a call was lent, as it stands afterwards, and how much of its front an accepted call gives.
pub enum Lent<'a> {
    Nothing,
    List(&'a [u16], usize),
    Output(&'a [u8], usize),
}

impl Lent<'_> {
    /// What is printed of it: all, or what was given.
    fn printed(&self, all: bool) -> Option<String> {
        match *self {
            Lent::Nothing => None,
            Lent::List(list, given) => Some(entries(if all { list } else { &list[..given] })),
            Lent::Output(output, given) => Some(text(if all { output } else { &output[..given] })),
        }
    }
}

/// The answer to a call: its values or its refusal, and what it was lent. All of that is printed
/// where `all` is set, else what an accepted call gave.
pub fn answer(reply: Result<Vec<usize>, Refusal>, lent: &Lent, all: bool) -> String {
    let part = lent.printed(all).filter(|_| all || reply.is_ok());
    let mut answer = reply.map_or_else(refused, |values| ok(&values));
    if let Some(part) = part {
        behind_bar(&mut answer, &part);
    }
    answer
}

/// `ok` and the part of the letters that is shown.
pub fn shown(part: &[u8]) -> String {
    let mut answer = ok(&[]);
    behind_bar(&mut answer, &text(part));
    answer
}

/// `ok` and the values.
pub fn ok(values: &[usize]) -> String {
    let mut answer = String::from("ok");
    for value in values {
        write!(answer, " {value}").expect("room in a string");
    }
    answer
}

/// `refused`, the number, and the place where one is named.
pub fn refused(refusal: Refusal) -> String {
    let mut answer = format!("refused {}", refusal.number());
    if let Some(place) = refusal.place() {
        write!(answer, " {place}").expect("room in a string");
    }
    answer
}

/// A bar, and what stands behind it, if that is anything.
fn behind_bar(answer: &mut String, part: &str) {
    answer.push_str(" |");
    if !part.is_empty() {
        answer.push(' ');
        answer.push_str(part);
    }
}

/// The entries of a list, parted by blanks.
fn entries(list: &[u16]) -> String {
    let mut printed = String::new();
    for entry in list {
        let blank = if printed.is_empty() { "" } else { " " };
        write!(printed, "{blank}{entry}").expect("room in a string");
    }
    printed
}

/// Bytes as text: `\n` for byte 10, and `\xHH` for a blank, a backslash, what cannot be printed, and a
/// hyphen that stands alone.
pub fn text(bytes: &[u8]) -> String {
    if bytes == b"-" {
        return String::from("\\x2D");
    }
    let mut printed = String::new();
    for &byte in bytes {
        match byte {
            b'\n' => printed.push_str("\\n"),
            b'!'..=b'~' if byte != b'\\' => printed.push(char::from(byte)),
            _ => write!(printed, "\\x{byte:02X}").expect("room in a string"),
        }
    }
    printed
}
