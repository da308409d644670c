//! A line that is being keyed.

use super::keys::Key;

/// The bytes of the line, and the place among them where the cursor is.
#[derive(Default)]
pub struct Line {
    bytes: Vec<u8>,
    cursor: usize,
}

impl Line {
    /// A line with the cursor at its end.
    pub fn of(bytes: Vec<u8>) -> Line {
        let cursor = bytes.len();
        Line { bytes, cursor }
    }

    /// The bytes of the line.
    pub fn bytes(&self) -> &[u8] {
        &self.bytes
    }

    /// The bytes before the cursor.
    pub fn before(&self) -> &[u8] {
        &self.bytes[..self.cursor]
    }

    /// Edits the line by this key; one that does not edit changes nothing.
    pub fn edit(&mut self, key: Key) {
        match key {
            Key::Byte(byte) => {
                self.bytes.insert(self.cursor, byte);
                self.cursor += 1;
            }
            Key::Left => self.cursor = self.left(),
            Key::Right => self.cursor = self.right(),
            Key::Home => self.cursor = 0,
            Key::End => self.cursor = self.bytes.len(),
            Key::Backspace => self.cut(self.left(), self.cursor),
            Key::Delete | Key::Close => self.cut(self.cursor, self.right()),
            Key::CutBefore => self.cut(0, self.cursor),
            Key::CutBehind => self.cut(self.cursor, self.bytes.len()),
            Key::CutWord => self.cut(self.word(), self.cursor),
            _ => {}
        }
    }

    /// Cuts the bytes from one place to another, where the cursor is then.
    fn cut(&mut self, from: usize, to: usize) {
        self.bytes.drain(from..to);
        self.cursor = from;
    }

    /// The place of the character before the cursor.
    fn left(&self) -> usize {
        let before = self.before();
        before.iter().rposition(begins_character).unwrap_or(0)
    }

    /// The place behind the character at the cursor.
    fn right(&self) -> usize {
        let behind = self.bytes.iter().skip(self.cursor + 1);
        let rest = behind.take_while(|byte| !begins_character(byte)).count();
        self.bytes.len().min(self.cursor + 1 + rest)
    }

    /// The place of the word before the cursor.
    fn word(&self) -> usize {
        let before = self.before();
        let end = before.iter().rposition(|&byte| byte != b' ');
        let word = &before[..end.unwrap_or(0)];
        let blank = word.iter().rposition(|&byte| byte == b' ');
        blank.map_or(0, |place| place + 1)
    }
}

/// Whether the byte begins a character of UTF-8, whose further bytes are 128 to 191.
fn begins_character(byte: &u8) -> bool {
    !(128..192).contains(byte)
}
