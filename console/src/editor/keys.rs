//! Keys, and the bytes that stand for them.

use super::signals::{INTERRUPT, QUIT, STOP_KEY};
use std::ffi::c_int;
use std::mem::take;

const ESCAPE: u8 = 27;

/// What a key does.
#[derive(Clone, Copy)]
pub enum Key {
    /// Inserts a byte.
    Byte(u8),
    Backspace,
    Delete,
    Left,
    Right,
    Home,
    End,
    /// Cuts all before the cursor, all behind it, or the word before it.
    CutBefore,
    CutBehind,
    CutWord,
    Up,
    Down,
    Enter,
    /// Ends the input where the line is empty; else deletes, or, keyed in line mode, does nothing.
    Close,
    ClosedAhead,
    ClearScreen,
    /// Sends a signal.
    Signal(c_int),
    /// Changes nothing.
    Nothing,
}

/// Makes keys of the bytes of a terminal: the escape sequence that has begun.
#[derive(Default)]
pub struct Decoder {
    sequence: Vec<u8>,
}

impl Decoder {
    /// The key that this byte completes. A control byte in an escape sequence ends it, and counts
    /// as itself.
    pub fn key(&mut self, byte: u8) -> Key {
        if self.sequence.is_empty() || byte < b' ' {
            self.sequence.clear();
            if byte == ESCAPE {
                self.sequence.push(byte);
            }
            return control_or_byte(byte);
        }
        self.sequence.push(byte);
        if !is_whole(&self.sequence[1..]) {
            return Key::Nothing;
        }
        of_sequence(&take(&mut self.sequence)[1..])
    }

    /// Whether an escape sequence has begun.
    pub fn has_begun(&self) -> bool {
        !self.sequence.is_empty()
    }

    /// Drops the sequence: what began it was the key Escape.
    pub fn drop_sequence(&mut self) {
        self.sequence.clear();
    }
}

/// The key of a byte that stands for itself.
fn control_or_byte(byte: u8) -> Key {
    match byte {
        0 => Key::ClosedAhead,
        1 => Key::Home,
        2 => Key::Left,
        3 => Key::Signal(INTERRUPT),
        4 => Key::Close,
        5 => Key::End,
        6 => Key::Right,
        8 | 127 => Key::Backspace,
        b'\t' => Key::Byte(b' '),
        b'\n' | b'\r' => Key::Enter,
        11 => Key::CutBehind,
        12 => Key::ClearScreen,
        14 => Key::Down,
        16 => Key::Up,
        21 => Key::CutBefore,
        23 => Key::CutWord,
        26 => Key::Signal(STOP_KEY),
        28 => Key::Signal(QUIT),
        b' '.. => Key::Byte(byte),
        _ => Key::Nothing,
    }
}

/// Whether an escape sequence ends here; it is given without its byte 27.
fn is_whole(sequence: &[u8]) -> bool {
    match sequence {
        [b'[' | b'O'] | b"[[" => false,
        [b'[' | b'O', .., last] => *last >= b'@',
        _ => true,
    }
}

/// The key of an escape sequence, which is given without its byte 27.
fn of_sequence(sequence: &[u8]) -> Key {
    match sequence {
        b"[A" | b"OA" => Key::Up,
        b"[B" | b"OB" => Key::Down,
        b"[C" | b"OC" => Key::Right,
        b"[D" | b"OD" => Key::Left,
        b"[H" | b"OH" | b"[1~" | b"[7~" => Key::Home,
        b"[F" | b"OF" | b"[4~" | b"[8~" => Key::End,
        b"[3~" => Key::Delete,
        _ => Key::Nothing,
    }
}
