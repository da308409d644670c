//! A terminal's screen, as far as the console makes use of one.

/// Rows of characters, how many have room in each, and the cursor's row and column.
pub struct Screen {
    rows: Vec<Vec<char>>,
    width: usize,
    row: usize,
    column: usize,
}

impl Screen {
    /// The screen on which this was shown, byte by byte; its lines end with byte 10.
    pub fn of(shown: &str, width: usize) -> Screen {
        let bytes: Vec<u8> = shown.chars().map(|byte| byte as u8).collect();
        let text = String::from_utf8_lossy(&bytes);
        let mut screen = Screen {
            rows: vec![Vec::new()],
            width,
            row: 0,
            column: 0,
        };
        let mut rest = text.as_ref();
        while let Some(character) = rest.chars().next() {
            rest = &rest[character.len_utf8()..];
            match character {
                '\x1b' => rest = screen.escape(rest),
                '\r' => screen.column = 0,
                '\n' => screen.next_row(),
                character => screen.put(character),
            }
        }
        screen
    }

    /// The text of each row.
    pub fn rows(&self) -> Vec<String> {
        self.rows.iter().map(|row| row.iter().collect()).collect()
    }

    /// The text of the cursor's row, with `_` where the cursor is.
    pub fn cursor_row(&self) -> String {
        let row = &self.rows[self.row];
        let (before, behind) = row.split_at(self.column.min(row.len()));
        before.iter().chain(&['_']).chain(behind).collect()
    }

    /// Goes to the next row's first column.
    fn next_row(&mut self) {
        (self.row, self.column) = (self.row + 1, 0);
        if self.row == self.rows.len() {
            self.rows.push(Vec::new());
        }
    }

    /// Puts a character at the cursor, in the next row where this one has no more room.
    fn put(&mut self, character: char) {
        assert!(!character.is_control(), "shown: {character:?}");
        if self.column == self.width {
            self.next_row();
        }
        let row = &mut self.rows[self.row];
        row.resize(row.len().max(self.column + 1), ' ');
        row[self.column] = character;
        self.column += 1;
    }

    /// Does what the escape sequence asks for; gives what stands behind it.
    fn escape<'a>(&mut self, text: &'a str) -> &'a str {
        let end = text.find(|letter: char| letter.is_ascii_alphabetic());
        let (sequence, rest) = text.split_at(end.map_or(text.len(), |end| end + 1));
        match sequence {
            "[K" => self.rows[self.row].truncate(self.column),
            "[H" => (self.row, self.column) = (0, 0),
            "[2J" => self.rows = vec![Vec::new(); self.row + 1],
            moved => self.column += columns(moved),
        }
        rest
    }
}

/// By how many columns the escape sequence moves the cursor to the right; one that is
/// not whole yet, by none.
fn columns(sequence: &str) -> usize {
    match sequence.strip_suffix('C') {
        Some(moved) => moved[1..].parse().expect("a number of columns"),
        None => {
            let is_whole = sequence.ends_with(|letter: char| letter.is_ascii_alphabetic());
            assert!(!is_whole, "shown: Escape and {sequence:?}");
            0
        }
    }
}
