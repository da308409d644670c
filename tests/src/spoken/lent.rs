//! What a call is lent beside the state, and how the console prints it.

use super::text::text_of;

/// A list, an output or nothing.
#[derive(Clone, Debug, PartialEq, Eq)]
pub enum Lent {
    Nothing,
    List(Vec<u16>),
    Output(Vec<u8>),
}

/// "More than 65,535 counts as 65,535."
const MOST: usize = 65_535;

impl Lent {
    /// "Before the call a lent list holds 60000 + (index mod 5,000)."
    pub fn list(entries: usize) -> Lent {
        let entry = |index| 60_000 + (index % 5_000) as u16;
        Lent::List((0..entries.min(MOST)).map(entry).collect())
    }

    /// "A lent output the byte 42."
    pub fn output(bytes: usize) -> Lent {
        Lent::Output(vec![42; bytes.min(MOST)])
    }

    /// The list, which is empty where another thing is lent.
    pub fn entries_mut(&mut self) -> &mut [u16] {
        match self {
            Lent::List(entries) => entries,
            _ => &mut [],
        }
    }

    /// The output, which is empty where another thing is lent.
    pub fn bytes_mut(&mut self) -> &mut [u8] {
        match self {
            Lent::Output(bytes) => bytes,
            _ => &mut [],
        }
    }

    /// How many entries or bytes there are.
    pub fn size(&self) -> usize {
        match self {
            Lent::Nothing => 0,
            Lent::List(entries) => entries.len(),
            Lent::Output(bytes) => bytes.len(),
        }
    }

    /// "Where a list or an output was lent, ` | `" and its first entries, "as numbers",
    /// or bytes, "as text"; "an empty list or output prints nothing" behind it.
    pub fn printed(&self, count: usize) -> String {
        match self {
            Lent::Nothing => String::new(),
            Lent::List(entries) => " |".to_string() + &numbers(&entries[..count]),
            Lent::Output(_) if count == 0 => " |".to_string(),
            Lent::Output(bytes) => format!(" | {}", text_of(&bytes[..count])),
        }
    }
}

/// The entries, a blank before each.
fn numbers(entries: &[u16]) -> String {
    let mut text = String::with_capacity(6 * entries.len());
    for entry in entries {
        text.push(' ');
        text.push_str(&entry.to_string());
    }
    text
}
