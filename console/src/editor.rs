//! Lines keyed at a terminal, which is in key-by-key mode from `open` until the editor is dropped
//! or a signal ends the process, and not while one stops it.

mod earlier;
mod keys;
mod line;
mod row;
mod signals;
mod terminal;

use earlier::Earlier;
use keys::{Decoder, Key};
use line::Line;
use row::Row;
use std::ffi::c_int;
use std::fs::File;
use std::io::{stdin, ErrorKind, Read, Result};
use std::os::fd::AsFd;

/// The milliseconds in which the rest of an escape sequence comes: later bytes are other keys.
const SEQUENCE_TIME: c_int = 100;

/// The error of a terminal that is closed.
const HUNG_UP: i32 = 5;

/// Lines keyed at a terminal, with those before them to go back to.
pub struct Editor {
    input: File,
    decoder: Decoder,
    earlier: Earlier,
}

impl Editor {
    /// The terminal that standard input and standard error are; none where either is no terminal.
    pub fn open() -> Option<Editor> {
        let input = stdin().as_fd().try_clone_to_owned().ok()?;
        if !terminal::keep_settings() {
            return None;
        }
        signals::catch_all();
        terminal::take_keys();
        Some(Editor {
            input: File::from(input),
            decoder: Decoder::default(),
            earlier: Earlier::default(),
        })
    }

    /// The next line, without its end; none where the input ends (Ctrl-D on an empty line, a
    /// hang-up).
    pub fn line(&mut self, prompt: &str) -> Result<Option<Vec<u8>>> {
        let line = match self.keyed(&mut Row::new(prompt)) {
            Err(error) if error.raw_os_error() == Some(HUNG_UP) => None,
            keyed => keyed?,
        };
        self.earlier.keep(line.as_deref().unwrap_or_default());
        Ok(line)
    }

    /// The line that is keyed, and shown in this row whenever no further key is there yet.
    fn keyed(&mut self, row: &mut Row) -> Result<Option<Vec<u8>>> {
        let mut line = Line::default();
        loop {
            terminal::await_turn();
            if !terminal::key_comes(0) {
                row.show(&line)?;
            }
            let Some(key) = self.key(row)? else {
                return Ok(None);
            };
            match key {
                Key::Enter => {
                    row.close(&line)?;
                    return Ok(Some(line.bytes().to_vec()));
                }
                Key::Close | Key::ClosedAhead if line.bytes().is_empty() => {
                    row.close(&line)?;
                    return Ok(None);
                }
                Key::Up => line = self.earlier.older(line),
                Key::Down => line = self.earlier.newer(line),
                Key::ClearScreen => row.clear_screen()?,
                Key::Signal(number) => signals::send(number),
                key => line.edit(key),
            }
        }
    }

    /// The next key; none at the end of the input. Where the process was stopped meanwhile, it
    /// takes key-by-key mode again, and the row is to be shown again.
    fn key(&mut self, row: &mut Row) -> Result<Option<Key>> {
        if self.decoder.has_begun() && !terminal::key_comes(SEQUENCE_TIME) {
            self.decoder.drop_sequence();
        }
        if !terminal::await_key() {
            terminal::take_keys();
            row.forget();
            return Ok(Some(Key::Nothing));
        }
        let mut byte = [0];
        match self.input.read(&mut byte) {
            Ok(0) => Ok(None),
            Ok(_) => Ok(Some(self.decoder.key(byte[0]))),
            Err(error) if error.kind() == ErrorKind::Interrupted => Ok(Some(Key::Nothing)),
            Err(error) => Err(error),
        }
    }
}

impl Drop for Editor {
    /// Puts the terminal's settings back.
    fn drop(&mut self) {
        terminal::put_back();
    }
}
