//! What the terminal shows of a line: prompt and line in one row, as much as has room there.

use super::line::Line;
use super::terminal::width;
use std::io::{stderr, Result, Write};

/// Goes to the row's first column and empties the row.
const EMPTY_ROW: &str = "\r\x1b[K";

/// Empties the screen.
const EMPTY_SCREEN: &str = "\x1b[H\x1b[2J";

/// A row: the prompt, and what is shown there now, where that is known.
pub struct Row<'a> {
    prompt: &'a str,
    shown: Option<Shown>,
}

/// A row's text and the cursor's column.
#[derive(Default, PartialEq)]
struct Shown {
    text: String,
    column: usize,
}

impl Shown {
    /// Whether the cursor is behind the text.
    fn is_at_end(&self) -> bool {
        self.column == self.text.chars().count()
    }
}

impl Row<'_> {
    /// An empty row.
    pub fn new(prompt: &str) -> Row<'_> {
        Row {
            prompt,
            shown: Some(Shown::default()),
        }
    }

    /// Lets the next call show the whole row: something else may be there.
    pub fn forget(&mut self) {
        self.shown = None;
    }

    /// Empties the screen.
    pub fn clear_screen(&mut self) -> Result<()> {
        self.forget();
        stderr().write_all(EMPTY_SCREEN.as_bytes())
    }

    /// Shows the line around the cursor.
    pub fn show(&mut self, line: &Line) -> Result<()> {
        self.change_to(self.window(line))
    }

    /// Shows the whole line, and goes to the next row.
    pub fn close(&mut self, line: &Line) -> Result<()> {
        let text = format!("{}{}", self.prompt, String::from_utf8_lossy(line.bytes()));
        let column = text.chars().count();
        self.change_to(Shown { text, column })?;
        stderr().write_all(b"\n")
    }

    /// The text and the cursor's column for the line. Where the cursor has no room, the line is
    /// moved to the left by steps of half the room. The row's last column is left to the cursor.
    fn window(&self, line: &Line) -> Shown {
        let prompt = self.prompt.chars().count();
        let room = width().saturating_sub(prompt + 1).max(1);
        let cursor = String::from_utf8_lossy(line.before()).chars().count();
        let step = room / 2 + 1;
        let first = cursor.saturating_sub(room).div_ceil(step) * step;
        let text = String::from_utf8_lossy(line.bytes());
        let part = text.chars().skip(first).take(room);
        Shown {
            text: self.prompt.chars().chain(part).collect(),
            column: prompt + cursor - first,
        }
    }

    /// Shows this: only what is added, where something is added behind what is there.
    fn change_to(&mut self, new: Shown) -> Result<()> {
        let added = match &self.shown {
            Some(old) if *old == new => return Ok(()),
            Some(old) if old.is_at_end() && new.is_at_end() => new.text.strip_prefix(&old.text),
            _ => None,
        };
        let output = match added {
            Some(added) => added.to_string(),
            None if new.is_at_end() => format!("{EMPTY_ROW}{}", new.text),
            None if new.column == 0 => format!("{EMPTY_ROW}{}\r", new.text),
            None => format!("{EMPTY_ROW}{}\r\x1b[{}C", new.text, new.column),
        };
        self.shown = Some(new);
        stderr().write_all(output.as_bytes())
    }
}
