//! Where lines come from: a terminal, or a pipe or a file.

use crate::editor::Editor;
use std::fs::File;
use std::io::{self, stdin, ErrorKind, Read};
use std::os::fd::AsFd;

/// What is shown at a terminal before a line is keyed.
const PROMPT: &str = "> ";

/// Byte 10, which closes a line.
const LINE_END: u8 = 10;

/// The lines of standard input.
pub enum Lines {
    Keyed(Editor),
    Read(File),
}

impl Lines {
    /// Standard input as it is.
    pub fn open() -> io::Result<Lines> {
        Ok(match Editor::open() {
            Some(editor) => Lines::Keyed(editor),
            None => Lines::Read(File::from(stdin().as_fd().try_clone_to_owned()?)),
        })
    }

    /// The next line, without its end; none where the input ends.
    pub fn next(&mut self) -> io::Result<Option<Vec<u8>>> {
        match self {
            Lines::Keyed(editor) => editor.line(PROMPT),
            Lines::Read(input) => read_line(input),
        }
    }
}

/// The bytes up to the next byte 10 or the end. No byte behind it is read, so that it is left to
/// whoever reads after `quit`.
fn read_line(input: &mut impl Read) -> io::Result<Option<Vec<u8>>> {
    let mut line = Vec::new();
    while let Some(byte) = read_byte(input)? {
        if byte == LINE_END {
            return Ok(Some(line));
        }
        line.push(byte);
    }
    Ok((!line.is_empty()).then_some(line))
}

/// The next byte; none at the end.
fn read_byte(input: &mut impl Read) -> io::Result<Option<u8>> {
    let mut byte = [0];
    loop {
        match input.read(&mut byte) {
            Ok(0) => return Ok(None),
            Ok(_) => return Ok(Some(byte[0])),
            Err(error) if error.kind() == ErrorKind::Interrupted => {}
            Err(error) => return Err(error),
        }
    }
}
