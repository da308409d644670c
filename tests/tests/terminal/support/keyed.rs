//! Sessions of the console that are keyed at a terminal, and what is shown of them.

use crate::support::keys::CTRL_D;
use crate::support::screen::Screen;
use crate::support::script_folder::Folder;
use crate::support::terminal::Terminal;
use comparison::spoken::{lines_of, Console, Expected};

/// What is shown before a line is keyed.
pub const PROMPT: &str = "> ";

/// The columns of a terminal that names no number of them.
pub const WIDTH: usize = 80;

/// What the console answers to these lines, all of a session: one text for each line.
pub fn answers(lines: &[u8]) -> Vec<String> {
    let mut console = Console::new(false);
    let texts = lines_of(lines).map(|line| console.answers(line).iter().map(text_of).collect());
    texts.collect()
}

/// The answer, with its end.
fn text_of(answer: &Expected) -> String {
    match answer {
        Expected::Line(line) => format!("{line}\n"),
        other => panic!("{other:?} is more than one text"),
    }
}

/// What is shown of a session behind its first prompt, byte by byte: each line, what
/// answers it, and the next prompt.
pub fn session(lines: &[u8]) -> String {
    let each = lines_of(lines).zip(answers(lines));
    let shown = each.map(|(line, answers)| {
        let line: String = line.iter().copied().map(char::from).collect();
        format!("{line}\n{answers}{PROMPT}")
    });
    shown.collect()
}

/// The script at a terminal, run by this command, with its prompt shown.
pub fn at_prompt_of<'a>(folder: &'a Folder, command: &[&str]) -> Terminal<'a> {
    let mut terminal = Terminal::running(folder, command);
    terminal.shows(PROMPT, "the first prompt");
    terminal.await_keys(false);
    terminal
}

/// The script at a terminal, with its prompt shown.
pub fn at_prompt(folder: &Folder) -> Terminal<'_> {
    at_prompt_of(folder, &["./board"])
}

/// The script at a terminal, with a line that has been answered, and `lift` of the next.
pub fn in_second_line(folder: &Folder) -> Terminal<'_> {
    let mut terminal = at_prompt(folder);
    terminal.key(b"start 8\rlift");
    terminal.shows(&(session(b"start 8") + "lift"), "two lines");
    terminal
}

/// Keys the rest of that second line, which is answered.
pub fn finish_second_line(terminal: &mut Terminal) {
    terminal.key(b" A\r");
    terminal.shows(" A\nok 3\n> ", "the answer");
}

/// Keys Ctrl-D at the prompt, which ends the console.
pub fn end_by_ctrl_d(mut terminal: Terminal, case: &str) {
    terminal.key(CTRL_D);
    assert_eq!(terminal.end(0, case), "\n");
}

/// The line that begins a session in which letters have lifts.
const START: &str = "start 8";

/// A terminal of this width, and what it has shown so far.
pub struct Watched<'a> {
    terminal: Terminal<'a>,
    width: usize,
    shown: String,
}

impl Watched<'_> {
    /// The script at a terminal that has, or names no, number of columns, with a start that
    /// has been answered.
    pub fn new(folder: &Folder, columns: Option<usize>) -> Watched<'_> {
        let mut watched = Watched::at_prompt(folder, columns);
        watched.key(START.as_bytes(), &format!("{START}_"));
        watched.enter(START);
        watched
    }

    /// The script, with its prompt shown, and no line keyed.
    pub fn at_prompt(folder: &Folder, columns: Option<usize>) -> Watched<'_> {
        let size = columns.map_or(String::new(), |columns| format!("stty cols {columns};"));
        let command = format!("{size} exec ./board");
        Watched {
            terminal: at_prompt_of(folder, &["sh", "-c", &command]),
            width: columns.unwrap_or(WIDTH),
            shown: PROMPT.to_string(),
        }
    }

    /// Keys these bytes, and waits until the line shown is this one, which has `_` where
    /// the cursor is.
    pub fn key(&mut self, keys: &[u8], line: &str) {
        let case = format!("{} keyed, to show {line:?}", keys.escape_ascii());
        self.terminal.key(keys);
        let wanted = format!("{PROMPT}{line}");
        let (shown, width) = (&self.shown, self.width);
        let more = self.terminal.read_until(&case, |more| {
            let screen = Screen::of(&format!("{shown}{more}"), width);
            screen.cursor_row() == wanted
        });
        self.shown += &more;
    }

    /// Keys Enter. This line, as it was keyed, and its answer are then the last rows; the
    /// answer is one that follows from a start and the line alone.
    pub fn enter(&mut self, line: &str) {
        self.terminal.key(b"\r");
        self.shown += &self
            .terminal
            .read_until(line, |more| more.ends_with("\n> "));
        let rows = Screen::of(&self.shown, self.width).rows();
        let both = session(format!("{START}\n{line}").as_bytes());
        let behind = both
            .strip_prefix(&session(START.as_bytes()))
            .expect("two lines");
        let expected = Screen::of(&format!("{PROMPT}{behind}"), self.width);
        let last = rows.len() - expected.rows().len();
        assert_eq!(rows[last..], expected.rows(), "{line}");
    }
}
