//! The lines keyed earlier, to go back to.

use super::line::Line;

/// The lines, the oldest first; the place among them of the one that is shown, which is behind them
/// for a new one; and the new one while an earlier one is shown.
#[derive(Default)]
pub struct Earlier {
    lines: Vec<Vec<u8>>,
    place: usize,
    new: Vec<u8>,
}

impl Earlier {
    /// Keeps the line, unless it is empty or the last one again. The next line is a new one.
    pub fn keep(&mut self, line: &[u8]) {
        if !line.is_empty() && self.lines.last().is_none_or(|last| last != line) {
            self.lines.push(line.to_vec());
        }
        self.place = self.lines.len();
    }

    /// The line before this one, or this one where there is none.
    pub fn older(&mut self, line: Line) -> Line {
        if self.place == 0 {
            return line;
        }
        if self.place == self.lines.len() {
            self.new = line.bytes().to_vec();
        }
        self.place -= 1;
        Line::of(self.lines[self.place].clone())
    }

    /// The line after this one, or this one where it is the new one.
    pub fn newer(&mut self, line: Line) -> Line {
        if self.place == self.lines.len() {
            return line;
        }
        self.place += 1;
        let newer = self.lines.get(self.place).unwrap_or(&self.new);
        Line::of(newer.clone())
    }
}
